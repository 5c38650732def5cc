//! The text of comparison cases reads back to calls with the outcome it states.

mod common;
use common::read::*;
use enumerator::cases;
use enumerator::machine::{Lent, Outcome};
use enumerator::operations::{check_query, fill_page, judge_record, numbers, read_image};
use enumerator::program;
use std::collections::BTreeSet;

#[test]
fn images() {
    for case in read("images", 5, 150).concat() {
        let mut report = bytes(&case, "report");
        assert_eq!(read_image(&bytes(&case, "image"), &mut report), number(&case, "result"));
        assert_eq!(report, bytes(&case, "report-after"));
    }
}

#[test]
fn queries() {
    for case in read("queries", 5, 300).concat() {
        let (mut types, mut report) = (words(&case, "types"), bytes(&case, "report"));
        let result = check_query(&words(&case, "query"), &mut types, &mut report);
        assert_eq!(result, number(&case, "result"));
        assert_eq!(types, words(&case, "types-after"));
        assert_eq!(report, bytes(&case, "report-after"));
    }
}

fn judged(case: &Call) {
    let (image, query, record) = (bytes(case, "image"), words(case, "query"), words(case, "record"));
    let (mut work, mut report) = (words(case, "work"), bytes(case, "report"));
    let result = judge_record(&image, &query, &record, &mut work, &mut report);
    assert_eq!(result, number(case, "result"));
    assert_eq!(work, words(case, "work-after"));
    assert_eq!(report, bytes(case, "report-after"));
}

#[test]
fn records() {
    read("records", 5, 200).concat().iter().for_each(judged);
}

fn filled(call: &Call) {
    let (image, query, bookmark) = (bytes(call, "image"), words(call, "query"), words(call, "bookmark"));
    let mut left = lent(call);
    let Lent { sitting, page, work, report } = &mut left;
    let result = fill_page(&image, &query, &bookmark, sitting, page, work, report);
    assert_eq!(Outcome { result, left }, outcome(call));
}

#[test]
fn pages() {
    read("pages", 5, 200).concat().iter().for_each(filled);
}

/// A case that lends a record judges it, and the others fill a page.
#[test]
fn conditions() {
    let (judging, filling): (Vec<Call>, Vec<Call>) =
        read("conditions", 5, 400).concat().into_iter().partition(|case| case.contains_key("record"));
    judging.iter().for_each(judged);
    filling.iter().for_each(filled);
    for note in ["whole listing", "after a bookmark"] {
        assert!(filling.iter().any(|case| case["note"] == note), "{note}");
    }
    let told = judging.iter().filter(|case| number(case, "result") == 1).map(|case| numbers(&bytes(case, "report-after")));
    let verdicts: BTreeSet<u64> = told.filter(|told| told[0] == 0).map(|told| told[2]).collect();
    assert_eq!(verdicts, [0, 1].into());
}

/// Over a list the machine that counts says what the operation says after the bookmark.
#[test]
fn lists() {
    let calls = read("lists", 5, 100).concat();
    calls.iter().for_each(filled);
    assert!(calls.len() > 300, "{}", calls.len());
}

/// Whether a sitting is lent as it was left, as far as both calls see it.
fn goes_on(calls: &[Call]) -> bool {
    let (left, lent) = (bytes(&calls[0], "sitting-after"), bytes(&calls[1], "sitting"));
    left.iter().zip(&lent).all(|(left, lent)| left == lent)
}

/// Over a sitting each call is lent what the one before left, and listings change.
#[test]
fn sittings() {
    let (mut changed, mut shorter) = (0, 0);
    for calls in read("sittings", 5, 100) {
        calls.iter().for_each(filled);
        for pair in calls.windows(2) {
            assert!(goes_on(pair));
            changed += ((&pair[0]["image"], &pair[0]["query"]) != (&pair[1]["image"], &pair[1]["query"])) as usize;
            shorter += (bytes(&pair[1], "sitting").len() < bytes(&pair[0], "sitting").len()) as usize;
        }
    }
    assert!(changed > 50 && shorter > 10, "{changed} {shorter}");
}

#[test]
fn listings() {
    let cases = read("listings", 5, 400).concat();
    for case in &cases {
        assert_eq!(program::print(&bytes(case, "input")).as_bytes(), bytes(case, "text"));
    }
    for note in ["whole", "cut off", "other lengths", "left over", "noise", "long pattern", "many pages"] {
        assert!(cases.iter().any(|case| case["note"] == note), "{note}");
    }
}

#[test]
fn an_unknown_sort_has_no_cases() {
    assert_eq!(cases::text("answers", 1, 1, &mut |_| panic!("nothing is written")), None);
}
