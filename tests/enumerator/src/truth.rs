//! The three truth values of the GQL standard (02, Q-2) with their tables.

#[derive(Clone, Copy, PartialEq, Eq, PartialOrd, Ord, Debug)]
pub enum Truth {
    False,
    Unknown,
    True,
}

use Truth::*;

impl Truth {
    /// An equality with an undefined side is unknown, also where both sides are undefined.
    pub fn of_equality(left: Option<u16>, right: Option<u16>) -> Truth {
        match (left, right) {
            (Some(one), Some(other)) if one == other => True,
            (Some(_), Some(_)) => False,
            _ => Unknown,
        }
    }

    pub fn not(self) -> Truth {
        match self {
            False => True,
            Unknown => Unknown,
            True => False,
        }
    }

    pub fn and(self, other: Truth) -> Truth {
        match (self, other) {
            (False, _) | (_, False) => False,
            (True, True) => True,
            _ => Unknown,
        }
    }

    pub fn or(self, other: Truth) -> Truth {
        match (self, other) {
            (True, _) | (_, True) => True,
            (False, False) => False,
            _ => Unknown,
        }
    }
}
