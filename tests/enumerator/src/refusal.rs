//! Why a call is refused.

/// The number of the cause and the row it names (0 where it names none).
#[derive(Clone, Copy, PartialEq, Eq, PartialOrd, Ord, Debug)]
pub struct Refusal {
    pub number: u64,
    pub row: u64,
}

impl Refusal {
    pub fn of(number: u64) -> Refusal {
        Refusal { number, row: 0 }
    }

    pub fn at(number: u64, row: usize) -> Refusal {
        Refusal { number, row: row as u64 }
    }
}

/// Refuses with `number` at the lowest row below `rows` that is faulty, if there is one.
pub fn refuse_lowest(number: u64, rows: usize, faulty: impl Fn(usize) -> bool) -> Result<(), Refusal> {
    match (0..rows).find(|&row| faulty(row)) {
        Some(row) => Err(Refusal::at(number, row)),
        None => Ok(()),
    }
}
