//! The text of comparison cases, read back the way README.md describes it.

use enumerator::cases;
use enumerator::listing::Listing;
use enumerator::machine::{Lent, Outcome};
use std::collections::BTreeMap;
use std::rc::Rc;

/// The fields of one call, those that are fixed for its case included.
pub type Call = BTreeMap<String, String>;

/// The calls of each case.
pub fn read(sort: &str, seed: u64, count: usize) -> Vec<Vec<Call>> {
    let mut text = String::new();
    cases::text(sort, seed, count, &mut |more| text += more).unwrap();
    let mut found: Vec<(Call, Vec<Call>)> = Vec::new();
    for line in text.lines() {
        let (name, rest) = line.split_once(' ').unwrap_or((line, ""));
        if name == "case" {
            assert_eq!(rest, found.len().to_string());
            found.push(Default::default());
        } else {
            let (fixed, calls) = found.last_mut().unwrap();
            take_line(fixed, calls, name, rest);
        }
    }
    assert_eq!(found.len(), count);
    found.into_iter().map(|(fixed, calls)| if calls.is_empty() { vec![fixed] } else { calls }).collect()
}

fn take_line(fixed: &mut Call, calls: &mut Vec<Call>, name: &str, rest: &str) {
    if name == "call" {
        assert_eq!(rest, calls.len().to_string());
        calls.push(fixed.clone());
        return;
    }
    let before = calls.last_mut().unwrap_or(fixed).insert(name.to_string(), rest.to_string());
    assert_eq!(before, None);
}

fn items(text: &str, digits: usize) -> Vec<u16> {
    let mut found = Vec::new();
    for piece in text.split_whitespace() {
        let item = |hex: &str| u16::from_str_radix(hex, 16).unwrap();
        match piece.split_once('*') {
            Some((hex, count)) => found.extend(vec![item(hex); count.parse().unwrap()]),
            None => found.extend(piece.as_bytes().chunks(digits).map(|hex| item(std::str::from_utf8(hex).unwrap()))),
        }
    }
    found
}

pub fn words(call: &Call, name: &str) -> Vec<u16> {
    items(&call[name], 4)
}

pub fn bytes(call: &Call, name: &str) -> Vec<u8> {
    items(&call[name], 2).into_iter().map(|byte| byte as u8).collect()
}

pub fn number(call: &Call, name: &str) -> u64 {
    call[name].trim().parse().unwrap()
}

/// The listings of the calls, each worked out once for calls in a row that share it.
pub fn listings(calls: &[Call]) -> Vec<Rc<Listing>> {
    let mut found: Vec<Rc<Listing>> = Vec::new();
    for (at, call) in calls.iter().enumerate() {
        let same = at > 0 && ["image", "query"].iter().all(|name| call[*name] == calls[at - 1][*name]);
        let known = found.last().filter(|_| same).cloned();
        found.push(known.unwrap_or_else(|| Rc::new(Listing::new(&bytes(call, "image"), &words(call, "query")))));
    }
    found
}

/// What a call to fill a page is lent but the bookmark.
pub fn lent(call: &Call) -> Lent {
    let report = bytes(call, "report");
    Lent { sitting: bytes(call, "sitting"), page: words(call, "page"), work: words(call, "work"), report }
}

/// What a call to fill a page must leave.
pub fn outcome(call: &Call) -> Outcome {
    let (sitting, page) = (bytes(call, "sitting-after"), words(call, "page-after"));
    let (work, report) = (words(call, "work-after"), bytes(call, "report-after"));
    Outcome { result: number(call, "result"), left: Lent { sitting, page, work, report } }
}
