//! Rows that are malformed by themselves (12).

use super::source::Source;
use crate::table::Row;

/// Malformed as row 2 of a table whose row 0 is a pattern and whose row 1 is a
/// condition, and also wherever the three rows are moved together.
const MALFORMED: [Row; 62] = [
    // Kinds that are not listed.
    [0, 0, 0, 0, 0], [9, 0, 0, 0, 0], [15, 1, 7, 5, 0], [21, 0, 0, 0, 0], [256, 0, 0, 0, 0], [65535, 0, 0, 0, 0],
    // A variable that is not there, and numbers that nodes and edges do not have.
    [1, 9, 0, 0, 0], [2, 9, 0, 0, 0], [3, 65535, 0, 0, 0], [4, 256, 0, 0, 0],
    [1, 0, 0, 1, 0], [2, 0, 0, 0, 1], [3, 1, 2, 65535, 0], [4, 1, 2, 0, 65535],
    // Unions and concatenations: not lower, wrong sort, numbers that must be 0.
    [5, 2, 0, 0, 0], [5, 0, 2, 0, 0], [6, 3, 0, 0, 0], [6, 0, 65535, 0, 0],
    [5, 1, 0, 0, 0], [5, 0, 1, 0, 0], [6, 1, 0, 0, 0], [6, 0, 1, 0, 0],
    [5, 0, 0, 1, 0], [6, 0, 0, 0, 1],
    // Conditioned: the same.
    [7, 2, 1, 0, 0], [7, 0, 2, 0, 0], [7, 1, 1, 0, 0], [7, 0, 0, 0, 0], [7, 1, 0, 0, 0],
    [7, 0, 1, 1, 0], [7, 0, 1, 0, 1], [7, 0, 65535, 0, 0],
    // Repetitions: the body, the second number, and the counts.
    [8, 1, 0, 1, 2], [8, 2, 0, 1, 2], [8, 65535, 0, 1, 2], [8, 0, 1, 1, 2],
    [8, 0, 0, 2, 1], [8, 0, 0, 1, 0], [8, 0, 0, 65535, 65535], [8, 0, 0, 65535, 0], [8, 0, 0, 65534, 65533],
    // Property equals constant.
    [16, 0, 7, 5, 0], [16, 9, 7, 5, 0], [16, 1, 7, 5, 1], [16, 65535, 7, 5, 0],
    // Two properties equal.
    [17, 0, 7, 1, 7], [17, 9, 7, 1, 7], [17, 1, 7, 0, 7], [17, 1, 7, 9, 7],
    // And, or, not.
    [18, 0, 1, 0, 0], [18, 1, 0, 0, 0], [18, 2, 1, 0, 0], [19, 1, 2, 0, 0], [19, 0, 0, 0, 0],
    [18, 1, 1, 1, 0], [19, 1, 1, 0, 1],
    [20, 0, 0, 0, 0], [20, 2, 0, 0, 0], [20, 65535, 0, 0, 0],
    [20, 1, 1, 0, 0], [20, 1, 0, 1, 0], [20, 1, 0, 0, 1],
];

pub fn malformed_row(source: &mut Source) -> Row {
    source.pick(&MALFORMED)
}

pub fn all_malformed_rows() -> &'static [Row] {
    &MALFORMED
}
