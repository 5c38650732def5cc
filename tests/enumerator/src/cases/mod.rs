//! Comparison cases as text: each case is one call or a list of calls, with every buffer
//! as it is lent and as the call must leave it. README.md describes the format.

mod conditions;
mod dump;
mod images;
mod listings;
mod lists;
mod pages;
mod queries;
mod records;
mod sittings;

use crate::random::source::Source;

/// The text of `count` cases of one sort, or nothing if there is no such sort.
pub fn text(sort: &str, seed: u64, count: usize, write: &mut dyn FnMut(&str)) -> Option<()> {
    let batch = match sort {
        "images" => images::batch,
        "queries" => queries::batch,
        "records" => records::batch,
        "pages" => pages::batch,
        "lists" => lists::batch,
        "sittings" => sittings::batch,
        "conditions" => conditions::batch,
        "listings" => listings::batch,
        _ => return None,
    };
    let mut source = Source::new(seed);
    let mut written = 0;
    while written < count {
        for case in batch(&mut source).into_iter().take(count - written) {
            write(&format!("case {written}\n{case}"));
            written += 1;
        }
    }
    Some(())
}
