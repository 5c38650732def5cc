//! How a host lends sittings over a list of calls.

use super::sittings;
use super::source::Source;
use crate::machine::{Lent, Outcome};
use crate::operations::numbers;
use crate::sitting::SITTING_BYTES;

pub enum Host {
    /// A sitting of its own for each call.
    Drawing,
    /// One sitting, lent to each call as the one before left it.
    Keeping(Vec<u8>),
    /// The same, with a fresh sitting after each refusal by 34.
    Renewing(Vec<u8>),
}

impl Host {
    /// A host of any sort, for calls that may hand out so many lines.
    pub fn any(source: &mut Source, lines: usize) -> Host {
        match source.below(4) {
            0 | 1 => Host::Drawing,
            2 => Host::keeping(source, lines),
            _ => Host::Renewing(sittings::beginning(source, lines)),
        }
    }

    pub fn keeping(source: &mut Source, lines: usize) -> Host {
        Host::Keeping(sittings::beginning(source, lines))
    }

    /// What a call is lent, with the host's sitting in place of the drawn one: the whole of
    /// it or, now and then, only its beginning, too short a one among them.
    pub fn lend(&self, source: &mut Source, drawn: Lent) -> Lent {
        let (Host::Keeping(area) | Host::Renewing(area)) = self else { return drawn };
        let length = match source.below(100) {
            0 => 0,
            1 => source.between(1, 2),
            2 | 3 => 3,
            4..=13 => source.between(SITTING_BYTES, area.len()),
            _ => area.len(),
        };
        Lent { sitting: area[..length].to_vec(), ..drawn }
    }

    pub fn take_back(&mut self, outcome: &Outcome) {
        let left = &outcome.left;
        if let Host::Keeping(area) | Host::Renewing(area) = self {
            area[..left.sitting.len()].copy_from_slice(&left.sitting);
        }
        if let Host::Renewing(area) = self {
            if outcome.result == 1 && numbers(&left.report)[0] == 34 {
                area[..SITTING_BYTES].fill(0);
            }
        }
    }
}
