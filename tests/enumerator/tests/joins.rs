//! Q-1 of 02: its examples worked out by hand, and the mistakes that look reasonable for
//! joins, each test of which fails for an enumerator that makes one.

mod common;
use common::*;
use enumerator::operations::{check_query, judge_record, numbers};

const NODE: &[[u16; 5]] = &[[1, 1, 0, 0, 0]];
const EDGE: &[[u16; 5]] = &[[2, 1, 0, 0, 0]];
const UNDIRECTED: &[[u16; 5]] = &[[4, 0, 0, 0, 0]];

/// Node 1 and then a forward edge.
const FROM: &[[u16; 5]] = &[[1, 1, 0, 0, 0], [2, 0, 0, 0, 0], [6, 0, 1, 0, 0]];

fn judged(image: &[u8], query: &[u16], record: &[u16]) -> u64 {
    let (mut work, mut report) = (vec![GUARD; 20_000], [0xee; 64]);
    assert_eq!(judge_record(image, query, record, &mut work, &mut report), 1);
    assert_eq!(numbers(&report)[..2], [0, 0]);
    numbers(&report)[2]
}

#[test]
fn two_parts_with_nothing_shared() {
    let query = [2, 1, 0, 5, 1, 0, 5, 2, 1, 0, 0, 0, 4, 0, 0, 0, 0];
    let filled = fill_joined(&t(), &query, &[], 40);
    assert_eq!(filled.told, [0, 0, 4, 36, 1, 0, 0, 0]);
    let expected = [
        [1, 0, 0, 1, 1, 0, 2, 2, 0],
        [1, 0, 0, 1, 1, 2, 2, 0, 0],
        [1, 1, 1, 2, 1, 0, 2, 2, 1],
        [1, 1, 1, 2, 1, 2, 2, 0, 1],
    ];
    assert_eq!(filled.page, [&expected.concat()[..], &[GUARD; 4]].concat());
    assert!(cleared(&filled.work));
}

#[test]
fn a_shared_node() {
    let query = [
        2, 1, 0, 15, 1, 0, 15, 1, 1, 0, 0, 0, 2, 0, 0, 0, 0, 6, 0, 1, 0, 0, 4, 0, 0, 0, 0, 1, 1, 0, 0, 0, 6, 0, 1, 0, 0,
    ];
    let filled = fill_joined(&t(), &query, &[], 9);
    assert_eq!(filled.told, [0, 0, 1, 9, 1, 0, 0, 0]);
    assert_eq!(filled.page, [1, 0, 0, 1, 1, 2, 2, 0, 0]);
}

#[test]
fn path_names_behind_the_values() {
    let query = [2, 1, 12, 5, 1, 9, 5, 2, 3, 0, 0, 0, 4, 0, 0, 0, 0];
    let filled = fill_joined(&t(), &query, &[], 20);
    assert_eq!(filled.told, [0, 0, 1, 17, 0, 0, 0, 0]);
    assert_eq!(filled.page[..17], [1, 0, 0, 1, 1, 0, 2, 2, 0, 1, 0, 2, 2, 1, 0, 0, 1]);
    assert_eq!(filled.page[17..], [GUARD; 3]);
}

#[test]
fn types_of_names() {
    let query = [2, 1, 12, 5, 1, 9, 5, 2, 3, 0, 0, 0, 4, 0, 0, 0, 0];
    let (mut types, mut report) = ([GUARD; 74], [0xee; 64]);
    assert_eq!(check_query(&query, &mut types, &mut report), 1);
    assert_eq!(numbers(&report), [0; 8]);
    let mut expected = [0; 74];
    (expected[12], expected[48], expected[66]) = (2, 5, 5);
    expected[72..].fill(GUARD);
    assert_eq!(types, expected);
}

#[test]
fn words_not_so_laid_out() {
    let sound = query(&[(1, 0, &[[2, 3, 0, 0, 0]]), (1, 0, UNDIRECTED)]);
    assert_eq!(checked_query(&sound), (0, 0));
    assert_eq!(checked_query(&[&sound[..], &[0]].concat()), (31, 0));
    assert_eq!(checked_query(&sound[..16]), (31, 0));
    assert_eq!(checked_query(&[]), (31, 0));
    assert_eq!(checked_query(&[0]), (31, 0));
    assert_eq!(checked_query(&[1]), (31, 0));
    assert_eq!(checked_query(&[65535, 1, 0, 0]), (31, 0));
    assert_eq!(checked_query(&query(&[(1, 0, UNDIRECTED); 4])), (0, 0));
    assert_eq!(checked_query(&query(&[(1, 0, UNDIRECTED); 5])), (31, 0));
    // 65,535 and 6 words would be 5 if the sum wrapped.
    assert_eq!(checked_query(&[2, 1, 0, 65535, 1, 0, 6, 4, 0, 0, 0, 0]), (31, 0));
    // Four lengths that add up to 65,536 and 5.
    assert_eq!(
        checked_query(&[4, 1, 0, 16384, 1, 0, 16384, 1, 0, 16384, 1, 0, 16389, 4, 0, 0, 0, 0]),
        (31, 0)
    );
}

#[test]
fn names_outside_and_twice() {
    for (name, expected) in [(0, 0), (1, 32), (8, 32), (9, 0), (12, 0), (13, 32), (265, 32), (65535, 32)] {
        assert_eq!(checked_query(&query(&[(1, name, EDGE)])), (expected, 0), "{name}");
    }
    assert_eq!(checked_query(&query(&[(1, 0, EDGE), (1, 0, EDGE), (1, 0, EDGE)])), (0, 0));
    assert_eq!(checked_query(&query(&[(1, 10, EDGE), (1, 0, EDGE), (1, 10, EDGE)])), (32, 0));
    assert_eq!(checked_query(&query(&[(1, 12, EDGE), (1, 11, EDGE), (1, 10, EDGE), (1, 9, EDGE)])), (0, 0));
}

#[test]
fn causes_in_their_order() {
    let ill: &[[u16; 5]] = &[[1, 2, 0, 0, 0], [2, 2, 0, 0, 0], [6, 0, 1, 0, 0]];
    // 31 before 32, 32 before the 11 of either part.
    assert_eq!(checked_query(&[2, 1, 9, 0, 1, 9, 1]), (31, 0));
    assert_eq!(checked_query(&[2, 1, 9, 0, 1, 9, 0]), (32, 0));
    // 32 before an earlier part's 16.
    assert_eq!(checked_query(&query(&[(1, 0, ill), (1, 8, EDGE)])), (32, 0));
    // All of 11 to 16 of a part before the next part.
    assert_eq!(checked_query(&query(&[(1, 0, ill), (1, 0, &[])])), (16, 2));
    assert_eq!(checked_query(&query(&[(1, 0, &[]), (1, 0, ill)])), (11, 0));
    // 33 only after a later part's 16.
    assert_eq!(checked_query(&query(&[(1, 0, EDGE), (1, 0, ill), (1, 0, NODE)])), (16, 2));
    assert_eq!(checked_query(&query(&[(1, 0, EDGE), (1, 0, NODE), (1, 0, ill)])), (16, 2));
    // 33 before 21, which the checker does not know.
    let clash = query(&[(0, 0, EDGE), (1, 0, UNDIRECTED), (1, 0, NODE)]);
    assert_eq!((checked_query(&clash), cause(&t(), &clash)), ((33, 0), (33, 0)));
    let unrestricted = query(&[(1, 0, EDGE), (0, 0, EDGE)]);
    assert_eq!((checked_query(&unrestricted), cause(&t(), &unrestricted)), ((0, 0), (21, 0)));
}

#[test]
fn shared_variables_of_other_types() {
    let group: &[[u16; 5]] = &[[2, 1, 0, 0, 0], [8, 0, 0, 1, 65535]];
    let maybe: &[[u16; 5]] = &[[1, 1, 0, 0, 0], [2, 0, 0, 0, 0], [5, 0, 1, 0, 0]];
    assert_eq!(checked_query(&query(&[(1, 0, NODE), (1, 0, NODE)])), (0, 0));
    assert_eq!(checked_query(&query(&[(1, 0, EDGE), (1, 0, EDGE)])), (0, 0));
    for (one, other) in [(NODE, EDGE), (group, group), (maybe, maybe), (group, EDGE), (maybe, NODE), (group, maybe)] {
        assert_eq!(checked_query(&query(&[(1, 0, one), (1, 0, other)])), (33, 0));
        assert_eq!(checked_query(&query(&[(1, 0, other), (1, 0, UNDIRECTED), (1, 0, one)])), (33, 0));
    }
    // Alone each has its type.
    assert_eq!(checked_query(&query(&[(1, 0, group), (1, 0, UNDIRECTED)])), (0, 0));
}

/// A condition sees its own part's variables only, and 9 to 12 are no variables of a pattern.
#[test]
fn a_pattern_knows_nothing_of_the_query() {
    let condition: &[[u16; 5]] = &[[1, 2, 0, 0, 0], [16, 1, 7, 5, 0], [7, 0, 1, 0, 0]];
    assert_eq!(checked_query(&query(&[(1, 0, NODE), (1, 0, condition)])), (16, 2));
    assert_eq!(checked_query(&query(&[(1, 9, NODE), (1, 0, &[[1, 9, 0, 0, 0]])])), (12, 0));
}

#[test]
fn shortest_is_of_the_part() {
    let image = image(&[1, 2, 3], &[[0, 2, 1], [0, 1, 1], [1, 2, 1]], &[[1, 5]], &[]);
    // From node 1 by any way over node 2 to node 3.
    let through: &[[u16; 5]] = &[
        [1, 1, 0, 0, 0], [2, 0, 0, 0, 0], [8, 1, 0, 0, 65535], [6, 0, 2, 0, 0], [1, 2, 0, 0, 0], [6, 3, 4, 0, 0],
        [2, 0, 0, 0, 0], [8, 6, 0, 0, 65535], [6, 5, 7, 0, 0], [1, 3, 0, 0, 0], [6, 8, 9, 0, 0],
    ];
    let query = query(&[(3, 0, through), (1, 0, &[[1, 2, 5, 0, 0]])]);
    let filled = fill_joined(&image, &query, &[], 40);
    assert_eq!(filled.told, [0, 0, 3, 25, 1, 0, 0, 0]);
    let expected: [&[u16]; 3] =
        [&[0, 1, 0, 1, 1, 1, 1], &[1, 0, 1, 1, 0, 1, 0, 1, 1], &[1, 1, 2, 2, 0, 1, 1, 1, 2]];
    assert_eq!(filled.page[..25], expected.concat());
    // The way over node 1 is a trail from 0 to 2, and joins, but is no shortest one of its part.
    assert_eq!(judged(&image, &query, &[2, 0, 1, 1, 2, 2, 0, 1, 0, 1, 2]), 0);
}

/// Each part has a restrictor of its own: what is no trail of the whole may be one of each part.
#[test]
fn a_restrictor_is_of_its_part() {
    let ring = plain(2, &[[0, 1, 1], [1, 0, 1]]);
    let around: &[[u16; 5]] = &[[2, 0, 0, 0, 0], [8, 0, 0, 2, 2]];
    let once: &[[u16; 5]] = &[[2, 0, 0, 0, 0]];
    // The same edge in both parts is no matter.
    assert_eq!(joined(&ring, &query(&[(1, 0, once), (1, 0, once)])).len(), 4);
    // Trail at the first part, simple at the second.
    assert_eq!(joined(&ring, &query(&[(1, 0, around), (2, 0, once)])).len(), 4);
    assert_eq!(joined(&ring, &query(&[(2, 0, around), (1, 0, once)])).len(), 0);
}

#[test]
fn a_named_path_stands_behind_all_values() {
    let named = query(&[(1, 10, &[[2, 8, 0, 0, 0]])]);
    assert_eq!(judged(&t(), &named, &[1, 0, 0, 1, 0, 1, 0, 0, 1]), 1);
    assert_eq!(judged(&t(), &named, &[1, 0, 0, 1, 1, 0, 0, 1, 0]), 0);
    assert_eq!(judged(&t(), &named, &[1, 0, 0, 1, 0, 1, 1, 1, 2]), 0);
    assert_eq!(judged(&t(), &named, &[1, 0, 0, 1, 0]), 0);
}

#[test]
fn the_order_of_parts_is_kept() {
    let (one, other) = (query(&[(1, 0, FROM), (1, 0, UNDIRECTED)]), query(&[(1, 0, UNDIRECTED), (1, 0, FROM)]));
    let swapped = |words: &Vec<u16>| [&words[4..8], &words[..4], &words[8..]].concat();
    let mut turned: Vec<Vec<u16>> = joined(&t(), &one).iter().map(swapped).collect();
    turned.sort();
    assert_eq!(joined(&t(), &other), turned);
    assert_ne!(joined(&t(), &one), turned);
    assert_eq!(judged(&t(), &one, &[1, 0, 0, 1, 1, 0, 2, 2, 0]), 1);
    assert_eq!(judged(&t(), &one, &[1, 0, 2, 2, 1, 0, 0, 1, 0]), 0);
}

/// A variable of the first part and the third: both must be unified, not only neighbours.
#[test]
fn parts_unify_though_another_stands_between() {
    let query = query(&[(1, 0, EDGE), (1, 0, UNDIRECTED), (1, 0, EDGE)]);
    let records = joined(&t(), &query);
    assert_eq!(records.len(), 4);
    assert!(records.iter().all(|words| words[..4] == words[8..12]));
    assert_eq!(judged(&t(), &query, &[1, 0, 0, 1, 1, 0, 2, 2, 1, 1, 1, 2, 0]), 0);
    assert_eq!(judged(&t(), &query, &[1, 0, 0, 1, 1, 0, 2, 2, 1, 1, 1, 2, 1]), 0);
}

/// Node 1 and edge 1 are different things: equal numbers do not unify across variables.
#[test]
fn different_variables_do_not_unify() {
    let query = query(&[(1, 0, &[[1, 1, 0, 0, 0]]), (1, 0, &[[2, 2, 0, 0, 0]])]);
    assert_eq!(joined(&t(), &query).len(), 6);
}

/// One part without answers leaves the join without any.
#[test]
fn a_part_without_answers() {
    let nothing: &[[u16; 5]] = &[[1, 0, 77, 0, 0]];
    assert_eq!(joined(&t(), &query(&[(1, 0, EDGE), (1, 9, nothing)])), Vec::<Vec<u16>>::new());
}

#[test]
fn pages_part_a_joined_listing_like_any_other() {
    let query = query(&[(1, 0, EDGE), (1, 9, UNDIRECTED)]);
    let all = joined(&t(), &query);
    assert_eq!(all.len(), 4);
    assert!(all.iter().all(|words| words.len() == 13));
    assert_eq!(fill_joined(&t(), &query, &[], 12).told, [23, 0, 0, 0, 0, 13, 0, 0]);
    // Inside the second path, between the values, and after a whole record.
    for (bookmark, next) in [(&all[1][..6], 1), (&all[1][..9], 1), (&all[1][..], 2), (&all[3][..12], 3)] {
        let filled = fill_joined(&t(), &query, bookmark, 13);
        assert_eq!(filled.told, [0, 0, 1, 13, (next == 3) as u64, 0, 0, 0]);
        assert_eq!(filled.page, all[next]);
    }
    assert_eq!(fill_joined(&t(), &query, &all[3], 0).told, [0, 0, 0, 0, 1, 0, 0, 0]);
}
