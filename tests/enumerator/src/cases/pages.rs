//! Cases of filling a page: a single call after a bookmark of any words.

use super::dump::Case;
use crate::listing::Listing;
use crate::machine::{Lent, Outcome};
use crate::random::source::Source;
use crate::random::subjects::{self, Subject};
use crate::random::{buffers, candidates};

pub fn batch(source: &mut Source) -> Vec<String> {
    let subject = subjects::for_pages(source);
    let listing = subject.listing();
    let mut cases = Vec::new();
    for _ in 0..4 {
        let (sort, bookmark) = candidates::any(source, &listing);
        let lent = buffers::lent(source, listing.after(&bookmark));
        cases.push(filled(&format!("after {sort:?}"), &subject, &listing, &bookmark, &lent));
    }
    cases
}

/// The whole case of one call.
pub fn filled(note: &str, subject: &Subject, listing: &Listing, bookmark: &[u16], lent: &Lent) -> String {
    let case = fixed(Case::new(note), subject);
    call(case, bookmark, lent, &outcome(listing, bookmark, lent)).lines
}

/// What the operation does.
pub fn outcome(listing: &Listing, bookmark: &[u16], lent: &Lent) -> Outcome {
    let mut left = lent.clone();
    let Lent { sitting, page, work, report } = &mut left;
    let result = listing.fill_page(bookmark, sitting, page, work, report);
    Outcome { result, left }
}

/// What a listing keeps fixed.
pub fn fixed(case: Case, subject: &Subject) -> Case {
    case.bytes("image", &subject.image).words("query", &subject.query)
}

/// The rest that a call is lent, and how it leaves that.
pub fn call(case: Case, bookmark: &[u16], lent: &Lent, outcome: &Outcome) -> Case {
    case.words("bookmark", bookmark)
        .bytes("sitting", &lent.sitting)
        .words("page", &lent.page)
        .words("work", &lent.work)
        .bytes("report", &lent.report)
        .number("result", outcome.result)
        .bytes("sitting-after", &outcome.left.sitting)
        .words("page-after", &outcome.left.page)
        .words("work-after", &outcome.left.work)
        .bytes("report-after", &outcome.left.report)
}
