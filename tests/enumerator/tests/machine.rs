//! The plain machine and runs with real bookmarks give the same for every call.

use enumerator::listing::Listing;
use enumerator::machine::{run, Lent, Outcome};
use enumerator::operations::{fill_page, numbers};
use enumerator::random::source::Source;
use enumerator::random::subjects::{self, Subject};
use enumerator::random::buffers;
use enumerator::record;

/// Calls the way a host does: the bookmark is a copy of the last record it was given,
/// found by parting the words of the page.
fn host_run(subject: &Subject, listing: &Listing, calls: &[Lent]) -> Vec<Outcome> {
    let mut bookmark = Vec::new();
    let mut outcomes = Vec::new();
    for call in calls {
        let mut left = call.clone();
        let Lent { sitting, page, work, report } = &mut left;
        let result = fill_page(&subject.image, &subject.query, &bookmark, sitting, page, work, report);
        if result == 1 {
            let told = numbers(&left.report);
            let mut rest = &left.page[..told[3] as usize];
            for _ in 0..told[2] {
                let (answer, later) = record::read(listing.parts, &listing.types, rest).unwrap();
                bookmark = record::write(&answer);
                rest = later;
            }
            assert!(rest.is_empty());
        }
        outcomes.push(Outcome { result, left });
    }
    outcomes
}

#[test]
fn the_machine_equals_real_runs() {
    let mut source = Source::new(3);
    let mut seen = [0; 35];
    let mut finished = 0;
    for _ in 0..300 {
        let subject = subjects::any(&mut source);
        let listing = subject.listing();
        let mut calls = Vec::new();
        for _ in 0..8 {
            let about = &listing.records[calls.len().min(listing.records.len())..];
            calls.push(buffers::lent(&mut source, about));
        }
        let outcomes = run(&listing, &calls);
        assert_eq!(outcomes, host_run(&subject, &listing, &calls), "{subject:?}");
        for outcome in outcomes.iter().filter(|outcome| outcome.result == 1) {
            let told = numbers(&outcome.left.report);
            seen[told[0] as usize] += 1;
            finished += (told[4] == 1 && told[2] > 0) as usize;
        }
    }
    assert!(seen[0] > 500 && seen[21] > 20 && seen[22] > 20 && seen[23] > 100 && seen[34] > 50, "{seen:?}");
    assert!(finished > 30, "{finished}");
}

#[test]
fn a_run_of_whole_pages_prints_the_listing_once() {
    let mut source = Source::new(33);
    for _ in 0..100 {
        let (_, listing) = subjects::fruitful(&mut source);
        let longest = listing.records.iter().map(Vec::len).max().unwrap();
        let call = Lent { sitting: vec![7; 4], page: vec![7; longest], work: vec![7; 20_000], report: vec![7; 64] };
        let mut printed: Vec<u16> = Vec::new();
        let outcomes = run(&listing, &vec![call; listing.records.len() + 1]);
        for outcome in &outcomes {
            let told = numbers(&outcome.left.report);
            assert_eq!(told[0], 0);
            printed.extend(&outcome.left.page[..told[3] as usize]);
        }
        assert_eq!(printed, listing.records.concat());
        let last = numbers(&outcomes.last().unwrap().left.report);
        assert_eq!(last, [0, 0, 0, 0, 1, 0, 0, 0]);
    }
}
