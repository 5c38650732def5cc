//! Lines handed out (02, Q-3): the total of a sitting, and when a call is refused by 34.

mod common;
use common::read::{bytes, lent, outcome, read, Call};
use common::*;
use enumerator::listing::Listing;
use enumerator::machine::{run, Lent, Outcome};
use enumerator::operations::{fill_page, numbers, Numbers};
use enumerator::query::alone;
use enumerator::random::source::Source;
use enumerator::random::{damage, query_faults};

const RECORDS: [&[u16]; 3] = [
    &[1, 0, 0, 1, 1, 1, 0, 0, 1, 0],
    &[1, 1, 1, 2, 1, 1, 1, 1, 2, 1],
    &[2, 0, 0, 1, 1, 2, 2, 1, 0, 0, 1, 0, 1, 1, 1, 2, 1],
];
const LIMIT: u32 = 4_294_967_295;
const PAST_THE_LIMIT: Numbers = [34, 0, 0, 0, 0, 0, 0, 0];

/// Guarded memory with room to spare in work and report.
fn memory(sitting: &[u8], page: usize) -> Lent {
    Lent { sitting: sitting.to_vec(), page: vec![GUARD; page], work: vec![GUARD; 20_003], report: vec![0xee; 70] }
}

fn filled(image: &[u8], query: &[u16], bookmark: &[u16], lent: &Lent) -> Outcome {
    let mut left = lent.clone();
    let Lent { sitting, page, work, report } = &mut left;
    let result = fill_page(image, query, bookmark, sitting, page, work, report);
    Outcome { result, left }
}

/// A call on T and P.
fn on_t(bookmark: &[u16], lent: &Lent) -> Outcome {
    filled(&t(), &alone(1, &P), bookmark, lent)
}

/// The outcome that leaves page and sitting as they were lent, and clears the work.
fn cleared_only(lent: &Lent, told: Numbers) -> Outcome {
    let mut left = lent.clone();
    left.work[..20_000].fill(0);
    left.report[..64].copy_from_slice(&told.map(u64::to_le_bytes).concat());
    Outcome { result: 1, left }
}

/// The outcome that places these records and has this total.
fn placed(lent: &Lent, records: &[&[u16]], total: u32, done: bool) -> Outcome {
    let words = records.concat();
    let told = [0, 0, records.len() as u64, words.len() as u64, done as u64, 0, 0, 0];
    let mut outcome = cleared_only(lent, told);
    outcome.left.page[..words.len()].copy_from_slice(&words);
    outcome.left.sitting[..4].copy_from_slice(&total.to_le_bytes());
    outcome
}

fn untouched(lent: &Lent) -> Outcome {
    Outcome { result: 0, left: lent.clone() }
}

#[test]
fn example_three_lines() {
    let lent = memory(&[0x02, 0x01, 0x00, 0x00, 0x77], 40);
    let outcome = on_t(&[], &lent);
    assert_eq!(outcome, placed(&lent, &RECORDS, 0x105, true));
    assert_eq!(outcome.left.sitting, [0x05, 0x01, 0x00, 0x00, 0x77]);
    assert_eq!(numbers(&outcome.left.report), [0, 0, 3, 37, 1, 0, 0, 0]);
}

#[test]
fn example_up_to_the_limit() {
    let lent = memory(&[0xfc, 0xff, 0xff, 0xff], 37);
    let outcome = on_t(&[], &lent);
    assert_eq!(outcome, placed(&lent, &RECORDS, LIMIT, true));
    assert_eq!(outcome.left.sitting, [0xff; 4]);
}

#[test]
fn example_past_the_limit() {
    let lent = memory(&[0xfd, 0xff, 0xff, 0xff], 37);
    assert_eq!(on_t(&[], &lent), cleared_only(&lent, PAST_THE_LIMIT));
}

#[test]
fn example_23_before_34() {
    let lent = memory(&[0xff; 4], 9);
    assert_eq!(on_t(&[], &lent), cleared_only(&lent, [23, 0, 0, 0, 0, 10, 0, 0]));
}

#[test]
fn example_nothing_left_to_print() {
    let lent = memory(&[0xff; 4], 9);
    assert_eq!(on_t(RECORDS[2], &lent), cleared_only(&lent, [0, 0, 0, 0, 1, 0, 0, 0]));
}

#[test]
fn example_a_sitting_of_3_bytes() {
    let lent = memory(&[0; 3], 37);
    assert_eq!(on_t(&[], &lent), untouched(&lent));
}

#[test]
fn a_sitting_has_4_bytes_and_keeps_what_is_past() {
    for length in 0..=12 {
        let lent = memory(&[1, 2, 3, 4, 5, 6, 7, 8, 9, 10, 11, 12][..length], 37);
        let expected = if length < 4 { untouched(&lent) } else { placed(&lent, &RECORDS, 0x0403_0204, true) };
        assert_eq!(on_t(&[], &lent), expected, "{length}");
    }
}

/// Pages of T and P that take each count from 0 to 3, and whether they are the last.
fn pages() -> [(&'static [u16], usize, &'static [&'static [u16]], bool); 5] {
    [
        (RECORDS[2], 0, &[], true),
        (&[65535], 99, &[], true),
        (RECORDS[0], 10, &RECORDS[1..2], false),
        (&[], 36, &RECORDS[..2], false),
        (&[], 37, &RECORDS, true),
    ]
}

/// Tries the pages from one total, and counts those refused.
fn refused_from(total: u32) -> usize {
    let mut refused = 0;
    for (bookmark, room, records, done) in pages() {
        let lent = memory(&[&total.to_le_bytes()[..], &[0xff, 0]].concat(), room);
        let expected = match total.checked_add(records.len() as u32) {
            Some(total) => placed(&lent, records, total, done),
            None => cleared_only(&lent, PAST_THE_LIMIT),
        };
        assert_eq!(on_t(bookmark, &lent), expected, "{total} {}", records.len());
        refused += (expected.left.report[0] == 34) as usize;
    }
    refused
}

#[test]
fn totals_rise_by_the_count_or_34_comes() {
    let edges = [0, 1, 0xff, 0x100, 0xffff, 0x1_0000, 0xff_ffff, 0x100_0000, 0x7fff_ffff, 0x8000_0000, 0xfeff_ffff, LIMIT];
    let totals = edges.iter().flat_map(|&edge: &u32| edge.saturating_sub(4)..=edge.saturating_add(1));
    // Counts 1, 2 and 3 from the limit, 2 and 3 from one below it, 3 from two below it.
    assert_eq!(totals.map(refused_from).sum::<usize>(), 6);
}

#[test]
fn a_page_is_not_cut_to_what_the_total_allows() {
    let nearly = (LIMIT - 1).to_le_bytes();
    let wide = memory(&nearly, 36);
    assert_eq!(on_t(&[], &wide), cleared_only(&wide, PAST_THE_LIMIT));
    let narrow = memory(&nearly, 19);
    assert_eq!(on_t(&[], &narrow), placed(&narrow, &RECORDS[..1], LIMIT, false));
}

/// An image or a query at fault, and all that comes after it too: page and work are
/// too short, and the total is at the limit.
fn refused_by_the_fixed(image: &[u8], query: &[u16]) -> (u64, u64) {
    let lent = Lent { page: vec![], work: vec![GUARD; 19_999], ..memory(&[0xff; 4], 0) };
    let outcome = filled(image, query, &[], &lent);
    let told = numbers(&outcome.left.report);
    assert_eq!(told[2..], [0; 6]);
    assert_eq!(Lent { report: lent.report.clone(), ..outcome.left }, lent);
    let short = Lent { sitting: vec![0xff; 3], ..lent };
    assert_eq!(filled(image, query, &[], &short), untouched(&short));
    (told[0], told[1])
}

#[test]
fn every_other_cause_comes_before_34_and_after_a_short_sitting() {
    for (seed, way) in (0..).zip(damage::ALL) {
        let (image, refusal) = damage::damaged(&mut Source::new(seed), way);
        assert_eq!(refused_by_the_fixed(&image, &[]), (refusal.number, refusal.row), "{way:?}");
    }
    for (seed, way) in (0..).zip(query_faults::ALL) {
        let faulty = query_faults::faulty(&mut Source::new(seed), &[way]);
        assert_eq!(refused_by_the_fixed(&t(), &faulty.words), (faulty.refusal.number, faulty.refusal.row), "{way:?}");
    }
    assert_eq!(refused_by_the_fixed(&t(), &alone(1, &P)), (22, 0));
}

#[test]
fn work_and_page_come_before_34() {
    // The page would take three records.
    let short = Lent { work: vec![GUARD; 19_999], ..memory(&[0xff; 4], 37) };
    let outcome = on_t(&[], &short);
    assert_eq!(numbers(&outcome.left.report), [22, 0, 0, 0, 0, 0, 0, 0]);
    assert_eq!(Lent { report: short.report.clone(), ..outcome.left }, short);
    // The next record does not fit, and neither would a line fit into the total.
    for room in [0, 9, 16] {
        let (bookmark, need) = if room == 16 { (RECORDS[1], 17) } else { (&[][..], 10) };
        let lent = memory(&[0xff; 5], room);
        assert_eq!(on_t(bookmark, &lent), cleared_only(&lent, [23, 0, 0, 0, 0, need, 0, 0]));
    }
}

#[test]
fn a_short_sitting_or_report_leaves_everything() {
    for (sitting, report) in [(0, 64), (3, 64), (3, 63), (0, 0), (4, 63), (12, 0)] {
        let lent = Lent { report: vec![0xee; report], ..memory(&vec![0xff; sitting], 37) };
        assert_eq!(on_t(&[], &lent), untouched(&lent));
        let worse = Lent { work: vec![], page: vec![], ..lent };
        assert_eq!(filled(&[], &[], &[], &worse), untouched(&worse));
    }
}

/// Pages of ten words over T and P, with one line left in the first sitting.
#[test]
fn the_machine_refuses_by_34_and_k_stays() {
    let nearly = memory(&(LIMIT - 1).to_le_bytes(), 10);
    let (full, short, fresh) = (memory(&[0xff; 4], 10), memory(&[0; 3], 10), memory(&[0; 5], 10));
    let calls = [nearly, full.clone(), short.clone(), full.clone(), fresh.clone(), full.clone()];
    let outcomes = run(&Listing::new(&t(), &alone(1, &P)), &calls);
    let refused = cleared_only(&full, PAST_THE_LIMIT);
    assert_eq!(outcomes[0], placed(&calls[0], &RECORDS[..1], LIMIT, false));
    assert_eq!(outcomes[1..4], [refused.clone(), untouched(&short), refused]);
    assert_eq!(outcomes[4], placed(&fresh, &RECORDS[1..2], 1, false));
    assert_eq!(outcomes[5], cleared_only(&full, [23, 0, 0, 0, 0, 17, 0, 0]));
}

fn total(sitting: &[u8]) -> u64 {
    (0..4).map(|at| u64::from(sitting[at]) << (8 * at)).sum()
}

/// The count in the answer given: none where nothing was written.
fn count(outcome: &Outcome) -> u64 {
    if outcome.result == 1 { numbers(&outcome.left.report)[2] } else { 0 }
}

/// Of calls whose sitting is long enough, each total is the first one and the counts since.
fn adds_up(calls: &[Call]) -> u64 {
    let mut sum = 0;
    let mut first = None;
    for call in calls.iter().filter(|call| lent(call).sitting.len() >= 4) {
        let first = first.get_or_insert(total(&bytes(call, "sitting")));
        assert_eq!(total(&bytes(call, "sitting")), *first + sum);
        sum += count(&outcome(call));
        assert_eq!(total(&bytes(call, "sitting-after")), *first + sum);
    }
    sum
}

#[test]
fn a_total_is_the_sum_of_the_counts_over_any_listings() {
    let lines: Vec<u64> = read("sittings", 7, 400).iter().map(|calls| adds_up(calls)).collect();
    assert!(lines.iter().filter(|&&sum| sum > 0).count() > 200 && *lines.iter().max().unwrap() > 20, "{lines:?}");
}
