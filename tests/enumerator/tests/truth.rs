//! Conditions by three truth values (02, Q-2): the tables, and what they do to a match.

mod common;
use common::*;
use enumerator::truth::Truth::{self, False, True, Unknown};

const ALL: [Truth; 3] = [False, Unknown, True];

#[test]
fn not_has_its_three_entries() {
    assert_eq!(ALL.map(Truth::not), [True, Unknown, False]);
}

/// A row for each left part, a column for each right part, in the order of `ALL`.
#[test]
fn and_has_its_nine_entries() {
    let table = [[False, False, False], [False, Unknown, Unknown], [False, Unknown, True]];
    assert_eq!(ALL.map(|left| ALL.map(|right| left.and(right))), table);
}

#[test]
fn or_has_its_nine_entries() {
    let table = [[False, Unknown, True], [Unknown, Unknown, True], [True, True, True]];
    assert_eq!(ALL.map(|left| ALL.map(|right| left.or(right))), table);
}

#[test]
fn an_equality_is_unknown_unless_both_sides_are_defined() {
    assert_eq!(Truth::of_equality(Some(5), Some(5)), True);
    assert_eq!(Truth::of_equality(Some(5), Some(4)), False);
    for (left, right) in [(None, Some(0)), (Some(0), None), (Some(65535), None), (None, None)] {
        assert_eq!(Truth::of_equality(left, right), Unknown, "{left:?} {right:?}");
    }
}

const KEY: u16 = 7;
const ABSENT: u16 = 8;

/// Whether one node, with the value 5 under `KEY` and no other property, is kept. The
/// condition's rows are counted from 1; the last one is the whole condition.
fn kept(condition: &[[u16; 5]]) -> bool {
    let graph = image(&[1], &[], &[], &[[0, KEY, 5]]);
    let rows = [&[[1, 1, 0, 0, 0]], condition, &[[7, 0, condition.len() as u16, 0, 0]]].concat();
    let found = records(&graph, &rows, 1);
    assert!(found.is_empty() || found == [[0, 0, 0]]);
    !found.is_empty()
}

const YES: [u16; 5] = [16, 1, KEY, 5, 0];
const NO: [u16; 5] = [16, 1, KEY, 4, 0];
const UNKNOWN: [u16; 5] = [16, 1, ABSENT, 5, 0];

fn not(row: u16) -> [u16; 5] {
    [20, row, 0, 0, 0]
}

fn and(left: u16, right: u16) -> [u16; 5] {
    [18, left, right, 0, 0]
}

fn or(left: u16, right: u16) -> [u16; 5] {
    [19, left, right, 0, 0]
}

#[test]
fn an_absent_key_is_kept_neither_way() {
    assert!(kept(&[YES]) && !kept(&[YES, not(1)]));
    assert!(!kept(&[NO]) && kept(&[NO, not(1)]));
    assert!(!kept(&[UNKNOWN]) && !kept(&[UNKNOWN, not(1)]) && !kept(&[UNKNOWN, not(1), not(2)]));
}

/// `x.a = 1 or not x.a = 1` holds where a is defined, whatever its value, and nowhere else.
#[test]
fn the_excluded_middle_needs_a_value() {
    let either = |row: [u16; 5]| [row, row, not(2), or(1, 3)];
    assert!(kept(&either(YES)) && kept(&either(NO)));
    assert!(!kept(&either(UNKNOWN)));
    // Nor is a contradiction false there.
    let both = |row: [u16; 5]| [row, row, not(2), and(1, 3), not(4)];
    assert!(kept(&both(YES)) && kept(&both(NO)));
    assert!(!kept(&both(UNKNOWN)));
}

#[test]
fn absent_properties_are_neither_equal_nor_different() {
    for (left, right) in [(ABSENT, ABSENT), (ABSENT, 9), (ABSENT, KEY), (KEY, ABSENT)] {
        let same = [17, 1, left, 1, right];
        assert!(!kept(&[same]) && !kept(&[same, not(1)]), "{left} {right}");
    }
    assert!(kept(&[[17, 1, KEY, 1, KEY]]));
}

/// What decides does so on either side of the unknown.
#[test]
fn true_or_unknown_and_false_and_unknown_are_decided() {
    for pair in [[YES, UNKNOWN], [UNKNOWN, YES]] {
        assert!(kept(&[pair[0], pair[1], or(1, 2)]));
        assert!(!kept(&[pair[0], pair[1], and(1, 2)]) && !kept(&[pair[0], pair[1], and(1, 2), not(3)]));
    }
    for pair in [[NO, UNKNOWN], [UNKNOWN, NO]] {
        assert!(!kept(&[pair[0], pair[1], and(1, 2)]) && kept(&[pair[0], pair[1], and(1, 2), not(3)]));
        assert!(!kept(&[pair[0], pair[1], or(1, 2)]) && !kept(&[pair[0], pair[1], or(1, 2), not(3)]));
    }
}

/// In a repetition a factor of unknown condition is none; a shorter path that an unknown
/// condition drops shuts out no longer one.
#[test]
fn unknown_drops_a_factor_and_a_rival() {
    let graph = image(&[1, 2, 3], &[[0, 1, 1], [1, 2, 1], [0, 2, 1]], &[], &[[3, KEY, 5], [4, KEY, 5]]);
    let steps = |condition: &[[u16; 5]]| {
        let last = condition.len() as u16;
        [&[[2, 1, 0, 0, 0]], condition, &[[7, 0, last, 0, 0], [8, last + 1, 0, 1, 65535]]].concat()
    };
    let ends = |rows: &[[u16; 5]]| {
        let of = |words: &Vec<u16>| (words[0], words[1], words[1 + 2 * words[0] as usize]);
        records(&graph, rows, 3).iter().map(of).collect::<Vec<_>>()
    };
    assert_eq!(ends(&steps(&[NO, not(1)])), [(1, 0, 1), (1, 1, 2), (2, 0, 2)]);
    assert_eq!(ends(&steps(&[YES])), [(1, 0, 1), (1, 1, 2), (2, 0, 2)]);
    assert_eq!(ends(&steps(&[UNKNOWN, not(1)])), []);
}

/// The request's worked calls, word for word: image, query, and whether the one node is listed.
#[test]
fn worked_calls() {
    let without = bytes(&[16, 2, 18, 0, 18, 0, 18, 0, 7]);
    let valued = bytes(&[16, 2, 18, 0, 18, 0, 18, 6, 7, 0, 1, 5]);
    let calls: [(&str, &[u8], &[u16], bool); 4] = [
        ("absent key", &without, &[1, 1, 0, 20, 1, 1, 0, 0, 0, 16, 1, 7, 5, 0, 20, 1, 0, 0, 0, 7, 0, 2, 0, 0], false),
        ("true or unknown", &valued,
            &[1, 1, 0, 25, 1, 1, 0, 0, 0, 16, 1, 7, 5, 0, 16, 1, 1, 5, 0, 19, 1, 2, 0, 0, 7, 0, 3, 0, 0], true),
        ("not (false and unknown)", &valued,
            &[1, 1, 0, 30, 1, 1, 0, 0, 0, 16, 1, 1, 6, 0, 17, 1, 7, 1, 8, 18, 1, 2, 0, 0, 20, 3, 0, 0, 0, 7, 0, 4, 0, 0], true),
        ("two absent values", &valued, &[1, 1, 0, 15, 1, 1, 0, 0, 0, 17, 1, 7, 1, 7, 7, 0, 1, 0, 0], false),
    ];
    for (name, image, query, listed) in calls {
        let filled = fill_joined(image, query, &[], 9);
        let (told, words) = if listed { ([0, 0, 1, 3, 1, 0, 0, 0], 3) } else { ([0, 0, 0, 0, 1, 0, 0, 0], 0) };
        assert_eq!(filled.told, told, "{name}");
        assert_eq!(filled.page, [&[0, 0, 0][..words], &[GUARD; 9][words..]].concat(), "{name}");
        assert!(cleared(&filled.work), "{name}");
    }
}
