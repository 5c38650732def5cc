//! The plain machine that a list of page calls is compared with. It never sees a
//! bookmark: it only counts the records it has printed.

use crate::listing::Listing;
use crate::operations::{refused, tell, Numbers, REPORT_BYTES, WORK_WORDS};
use crate::refusal::Refusal;
use crate::sitting::{raise, SITTING_BYTES};

/// What one call is lent, and afterwards how the call leaves it.
#[derive(Clone, PartialEq, Eq, Debug)]
pub struct Lent {
    pub sitting: Vec<u8>,
    pub page: Vec<u16>,
    pub work: Vec<u16>,
    pub report: Vec<u8>,
}

#[derive(Clone, PartialEq, Eq, Debug)]
pub struct Outcome {
    pub result: u64,
    pub left: Lent,
}

pub struct Machine<'a> {
    pub listing: &'a Listing,
    /// k: how many records have been printed.
    pub printed: usize,
}

/// The machine's outcomes for a list of calls.
pub fn run(listing: &Listing, calls: &[Lent]) -> Vec<Outcome> {
    let mut machine = Machine { listing, printed: 0 };
    calls.iter().map(|call| machine.call(call)).collect()
}

impl Machine<'_> {
    /// The bookmark that a host would lend now: a copy of the last record printed.
    pub fn bookmark(&self) -> Vec<u16> {
        match self.printed {
            0 => Vec::new(),
            printed => self.listing.records[printed - 1].clone(),
        }
    }

    pub fn call(&mut self, lent: &Lent) -> Outcome {
        let mut left = lent.clone();
        if lent.report.len() < REPORT_BYTES || lent.sitting.len() < SITTING_BYTES {
            return Outcome { result: 0, left };
        }
        let numbers = match self.listing.refusal(&lent.work) {
            Some(cause) => refused(cause),
            None => {
                left.work[..WORK_WORDS].fill(0);
                self.print(&mut left)
            }
        };
        let result = tell(&mut left.report, numbers);
        Outcome { result, left }
    }

    /// Prints records from record k on as far as whole ones fit, or refuses by 23 or 34.
    fn print(&mut self, left: &mut Lent) -> Numbers {
        let Lent { sitting, page, .. } = left;
        let coming = &self.listing.records[self.printed..];
        if !coming.is_empty() && coming[0].len() > page.len() {
            return [23, 0, 0, 0, 0, coming[0].len() as u64, 0, 0];
        }
        let mut printed = Vec::new();
        let mut count = 0;
        for record in coming {
            if printed.len() + record.len() > page.len() {
                break;
            }
            printed.extend(record);
            count += 1;
        }
        if !raise(sitting, count) {
            return refused(Refusal::of(34));
        }
        page[..printed.len()].copy_from_slice(&printed);
        self.printed += count;
        let done = self.printed == self.listing.records.len();
        [0, 0, count as u64, printed.len() as u64, done as u64, 0, 0, 0]
    }
}
