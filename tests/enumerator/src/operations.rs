//! The four operations, with the buffers and reports of the C boundary.

use crate::image;
use crate::listing::Listing;
use crate::query;
use crate::record::Record;
use crate::refusal::Refusal;
use crate::sitting::{raise, SITTING_BYTES};
use crate::typing::{type_words, TYPE_WORDS};

pub const REPORT_BYTES: usize = 64;
pub const WORK_WORDS: usize = 20_000;

/// The eight numbers of a report: refusal number, row, and what the operation adds.
pub type Numbers = [u64; 8];

pub fn read_image(image: &[u8], report: &mut [u8]) -> u64 {
    if report.len() < REPORT_BYTES {
        return 0;
    }
    match image::read(image) {
        Ok(_) => tell(report, [0; 8]),
        Err(cause) => tell(report, refused(cause)),
    }
}

pub fn check_query(query: &[u16], types: &mut [u16], report: &mut [u8]) -> u64 {
    if report.len() < REPORT_BYTES {
        return 0;
    }
    if types.len() < TYPE_WORDS {
        return tell(report, refused(Refusal::of(17)));
    }
    match query::check(query) {
        Ok(found) => {
            types[..TYPE_WORDS].copy_from_slice(&type_words(&found.types));
            tell(report, [0; 8])
        }
        Err(cause) => {
            types[..TYPE_WORDS].fill(0);
            tell(report, refused(cause))
        }
    }
}

pub fn judge_record(image: &[u8], query: &[u16], record: &[u16], work: &mut [u16], report: &mut [u8]) -> u64 {
    Listing::new(image, query).judge(record, work, report)
}

pub fn fill_page(
    image: &[u8],
    query: &[u16],
    bookmark: &[u16],
    sitting: &mut [u8],
    page: &mut [u16],
    work: &mut [u16],
    report: &mut [u8],
) -> u64 {
    Listing::new(image, query).fill_page(bookmark, sitting, page, work, report)
}

impl Listing {
    /// The first cause through 22.
    pub fn refusal(&self, work: &[u16]) -> Option<Refusal> {
        self.cause.or((work.len() < WORK_WORDS).then_some(Refusal::of(22)))
    }

    pub fn judge(&self, record: &[u16], work: &mut [u16], report: &mut [u8]) -> u64 {
        if report.len() < REPORT_BYTES {
            return 0;
        }
        if let Some(cause) = self.refusal(work) {
            return tell(report, refused(cause));
        }
        work[..WORK_WORDS].fill(0);
        let yes = self.records.iter().any(|one| one == record);
        tell(report, [0, 0, yes as u64, 0, 0, 0, 0, 0])
    }

    pub fn fill_page(
        &self,
        bookmark: &[u16],
        sitting: &mut [u8],
        page: &mut [u16],
        work: &mut [u16],
        report: &mut [u8],
    ) -> u64 {
        if report.len() < REPORT_BYTES || sitting.len() < SITTING_BYTES {
            return 0;
        }
        if let Some(cause) = self.refusal(work) {
            return tell(report, refused(cause));
        }
        work[..WORK_WORDS].fill(0);
        let later = self.after(bookmark);
        if let Some(first) = later.first().filter(|first| first.len() > page.len()) {
            return tell(report, [23, 0, 0, 0, 0, first.len() as u64, 0, 0]);
        }
        let count = fitting(later, page.len());
        if !raise(sitting, count) {
            return tell(report, refused(Refusal::of(34)));
        }
        let words = later[..count].concat();
        page[..words.len()].copy_from_slice(&words);
        let done = count == later.len();
        tell(report, [0, 0, count as u64, words.len() as u64, done as u64, 0, 0, 0])
    }
}

/// How many records, from the first on, fit as whole ones on a page of so many words.
pub fn fitting(records: &[Record], room: usize) -> usize {
    let mut used = 0;
    let fits = |one: &&Record| {
        used += one.len();
        used <= room
    };
    records.iter().take_while(fits).count()
}

pub fn refused(cause: Refusal) -> Numbers {
    [cause.number, cause.row, 0, 0, 0, 0, 0, 0]
}

/// Writes the eight numbers, low byte first, and gives C its 1.
pub fn tell(report: &mut [u8], numbers: Numbers) -> u64 {
    for (place, number) in report.chunks_exact_mut(8).zip(numbers) {
        place.copy_from_slice(&number.to_le_bytes());
    }
    1
}

/// The eight numbers of a report that was written.
pub fn numbers(report: &[u8]) -> Numbers {
    std::array::from_fn(|at| u64::from_le_bytes(std::array::from_fn(|byte| report[8 * at + byte])))
}
