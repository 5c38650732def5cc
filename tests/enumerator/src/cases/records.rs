//! Cases of judging a record: every answer of a listing, then near misses and noise.

use super::dump::Case;
use crate::listing::Listing;
use crate::random::candidates::Candidate::{Empty, Noise};
use crate::random::source::Source;
use crate::random::subjects::{self, Subject};
use crate::random::{buffers, candidates};
use crate::record::Record;

/// How many near misses of each sort a listing gets, where it has something for them.
const NEAR_MISSES: usize = 4;

pub fn batch(source: &mut Source) -> Vec<String> {
    let subject = subjects::any(source);
    let listing = subject.listing();
    let mut judged: Vec<(String, Record)> =
        listing.records.iter().map(|record| (String::from("Record"), record.clone())).collect();
    for sort in candidates::NEAR_MISSES.repeat(NEAR_MISSES).into_iter().chain([Empty, Noise]) {
        let words = candidates::candidate(source, &listing, sort);
        judged.extend(words.map(|words| (format!("{sort:?}"), words)));
    }
    let others = [
        ("OtherRestrictor", subjects::of_another_restrictor(source, &subject)),
        ("OtherOrder", subjects::of_another_order(source, &subject)),
        ("SideBySide", subjects::side_by_side(source, &subject)),
    ];
    judged.extend(others.into_iter().filter_map(|(note, words)| Some((String::from(note), words?))));
    judged.iter().map(|(note, words)| case(source, note, &subject, &listing, words)).collect()
}

/// One record judged.
pub fn case(source: &mut Source, note: &str, subject: &Subject, listing: &Listing, record: &[u16]) -> String {
    let (mut work, mut report) = (buffers::work(source), buffers::report(source));
    let lent = Case::new(note)
        .bytes("image", &subject.image)
        .words("query", &subject.query)
        .words("record", record)
        .words("work", &work)
        .bytes("report", &report);
    let result = listing.judge(record, &mut work, &mut report);
    lent.number("result", result).words("work-after", &work).bytes("report-after", &report).lines
}
