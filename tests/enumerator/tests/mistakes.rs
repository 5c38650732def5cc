//! The mistakes that look reasonable: each test fails for an enumerator that makes one.

mod common;
use common::*;

const NONE: [[u16; 0]; 0] = [];

#[test]
fn two_lines_for_a_loop_walked_both_ways() {
    let directed = plain(1, &[[0, 0, 1]]);
    let either = [[2, 0, 0, 0, 0], [3, 0, 0, 0, 0], [5, 0, 1, 0, 0], [8, 2, 0, 1, 65535]];
    assert_eq!(records(&directed, &either, 1), [[1, 0, 0, 0]]);
    let undirected = plain(1, &[[0, 0, 0]]);
    assert_eq!(records(&undirected, &[[4, 1, 0, 0, 0]], 1), [[1, 0, 0, 0, 0]]);
}

#[test]
fn shortest_over_the_whole_graph() {
    // 0 to 2 takes two edges although other pairs take one.
    let rows = [[2, 0, 0, 0, 0], [8, 0, 0, 1, 65535]];
    let expected: [&[u16]; 3] = [&[1, 0, 0, 1], &[1, 1, 1, 2], &[2, 0, 0, 1, 1, 2]];
    assert_eq!(records(&t(), &rows, 3), expected);
    assert_eq!(records(&t(), &rows, 4), expected);
}

#[test]
fn shortest_among_the_answers_and_not_among_all_paths() {
    // Edge 2 joins 0 and 2 directly, but only the path of two edges is an answer.
    let rows = [[2, 0, 0, 0, 0], [2, 0, 0, 0, 0], [6, 0, 1, 0, 0]];
    assert_eq!(records(&t(), &rows, 3), [[2, 0, 0, 1, 1, 2]]);
}

#[test]
fn trail_on_each_factor_only() {
    let image = plain(2, &[[0, 1, 1]]);
    let there_and_back = [[2, 0, 0, 0, 0], [3, 0, 0, 0, 0], [5, 0, 1, 0, 0], [8, 2, 0, 2, 2]];
    assert_eq!(records(&image, &there_and_back, 1), NONE);
    // A node may come again in a trail, but not in a simple path.
    let ring = plain(2, &[[0, 1, 1], [1, 0, 1]]);
    let twice = [[2, 0, 0, 0, 0], [8, 0, 0, 2, 2]];
    assert_eq!(records(&ring, &twice, 1), [[2, 0, 0, 1, 1, 0], [2, 1, 1, 0, 0, 1]]);
    assert_eq!(records(&ring, &twice, 2), NONE);
}

#[test]
fn one_line_for_each_derivation() {
    let same = [[2, 1, 0, 0, 0], [2, 1, 0, 0, 0], [5, 0, 1, 0, 0]];
    assert_eq!(records(&t(), &same, 1), [[1, 0, 0, 1, 0], [1, 1, 1, 2, 1]]);
    // Two ways to part two edges into factors, but nothing is bound: one assignment.
    let nested = [[2, 0, 0, 0, 0], [8, 0, 0, 1, 65535], [8, 1, 0, 1, 65535]];
    let expected: [&[u16]; 3] = [&[1, 0, 0, 1], &[1, 1, 1, 2], &[2, 0, 0, 1, 1, 2]];
    assert_eq!(records(&t(), &nested, 1), expected);
}

#[test]
fn two_derivations_with_two_assignments_stay_two_lines() {
    // 0 to 1 to 2 as one factor of two edges, or as two factors of one edge each.
    let nested = [[2, 1, 0, 0, 0], [8, 0, 0, 1, 65535], [8, 1, 0, 1, 65535]];
    let all = records(&t(), &nested, 1);
    let long: Vec<&Vec<u16>> = all.iter().filter(|record| record[0] == 2).collect();
    let path = [2, 0, 0, 1, 1, 2];
    let (low, high) = ([1, 0, 0, 1, 0], [1, 1, 1, 2, 1]);
    let as_one = [&path[..], &[1], &path, &[2], &low, &high].concat();
    let as_two = [&path[..], &[2], &low[..4], &[1], &low, &high[..4], &[1], &high].concat();
    assert_eq!(long, [&as_one, &as_two]);
}

#[test]
fn a_condition_on_a_maybe_or_group_variable() {
    let maybe = [[1, 1, 0, 0, 0], [2, 0, 0, 0, 0], [5, 0, 1, 0, 0], [16, 1, 7, 5, 0], [7, 2, 3, 0, 0]];
    assert_eq!(checked(&maybe), (16, 4));
    let group = [[2, 1, 0, 0, 0], [8, 0, 0, 1, 1], [16, 1, 7, 5, 0], [7, 1, 2, 0, 0]];
    assert_eq!(checked(&group), (16, 3));
}

#[test]
fn binding_a_repeated_variable_to_its_last_value() {
    let rows = [[2, 1, 0, 0, 0], [8, 0, 0, 2, 2]];
    assert_eq!(records(&t(), &rows, 1), [[2, 0, 0, 1, 1, 2, 2, 1, 0, 0, 1, 0, 1, 1, 1, 2, 1]]);
}
