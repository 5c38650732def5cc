//! The typing rules of Figure 2, as type words and as refusals.

mod common;
use common::*;
use enumerator::operations::{check_query, numbers};
use enumerator::query::alone;
use enumerator::random::patterns::{grow, Room};
use enumerator::random::source::Source;
use enumerator::pattern::{Form, Pattern};
use enumerator::typing::{types, Type};

/// The six numbers of a variable.
fn typed(rows: &[[u16; 5]], variable: usize) -> [u16; 6] {
    let (mut words, mut report) = ([GUARD; 74], [0; 64]);
    assert_eq!(check_query(&alone(1, &rows.concat()), &mut words, &mut report), 1);
    assert_eq!(numbers(&report), [0; 8]);
    assert_eq!(words[48..72], [0; 24]);
    assert_eq!(words[72..], [GUARD; 2]);
    words[6 * (variable - 1)..6 * variable].try_into().unwrap()
}

const X: [u16; 5] = [1, 1, 0, 0, 0];
const E: [u16; 5] = [2, 1, 0, 0, 0];
const ANY: [u16; 5] = [2, 0, 0, 0, 0];

#[test]
fn nodes_and_edges() {
    assert_eq!(typed(&[X], 1), [1, 0, 0, 0, 0, 0]);
    for kind in 2..=4 {
        assert_eq!(typed(&[[kind, 8, 5, 0, 0]], 8), [2, 0, 0, 0, 0, 0]);
        assert_eq!(typed(&[[kind, 8, 5, 0, 0]], 1), [0; 6]);
    }
}

#[test]
fn unions() {
    assert_eq!(typed(&[X, X, [5, 0, 1, 0, 0]], 1), [1, 0, 0, 0, 0, 0]);
    assert_eq!(typed(&[X, ANY, [5, 0, 1, 0, 0]], 1), [3, 1, 0, 0, 0, 0]);
    assert_eq!(typed(&[ANY, X, [5, 0, 1, 0, 0]], 1), [3, 1, 0, 0, 0, 0]);
    let maybe = [X, ANY, [5, 0, 1, 0, 0]];
    // With a part that lacks it, Maybe stays Maybe.
    assert_eq!(typed(&[&maybe[..], &[ANY, [5, 2, 3, 0, 0]]].concat(), 1), [3, 1, 0, 0, 0, 0]);
    // Maybe of Node with Node, both ways around.
    assert_eq!(typed(&[&maybe[..], &[X, [5, 2, 3, 0, 0]]].concat(), 1), [3, 1, 0, 0, 0, 0]);
    assert_eq!(typed(&[&maybe[..], &[X, [5, 3, 2, 0, 0]]].concat(), 1), [3, 1, 0, 0, 0, 0]);
    // Maybe of Node with itself.
    let twice = [&maybe[..], &[X, ANY, [5, 3, 4, 0, 0], [5, 2, 5, 0, 0]]].concat();
    assert_eq!(typed(&twice, 1), [3, 1, 0, 0, 0, 0]);
    // Maybe of Node does not go with Edge.
    assert_eq!(checked(&[&maybe[..], &[E, [5, 2, 3, 0, 0]]].concat()), (16, 4));
}

#[test]
fn groups_and_the_longest_type() {
    assert_eq!(typed(&[E, [8, 0, 0, 1, 1]], 1), [4, 2, 0, 0, 0, 0]);
    // Maybe of Group of Maybe of Group of Maybe of Edge takes all six numbers.
    let rows = [
        E, ANY, [5, 0, 1, 0, 0], [8, 2, 0, 1, 3],
        ANY, [5, 3, 4, 0, 0], [8, 5, 0, 0, 65535],
        ANY, [5, 6, 7, 0, 0],
    ];
    assert_eq!(typed(&rows, 1), [3, 4, 3, 4, 3, 2]);
    // Group of Edge and Group of Group of Edge do not go together.
    assert_eq!(checked(&[E, [8, 0, 0, 1, 1], E, [8, 2, 0, 1, 1], [8, 3, 0, 1, 1], [5, 1, 4, 0, 0]]), (16, 5));
    // Two equal groups do, in a union.
    assert_eq!(typed(&[E, [8, 0, 0, 1, 1], E, [8, 2, 0, 3, 4], [5, 1, 3, 0, 0]], 1), [4, 2, 0, 0, 0, 0]);
}

#[test]
fn concatenations() {
    assert_eq!(typed(&[X, X, [6, 0, 1, 0, 0]], 1), [1, 0, 0, 0, 0, 0]);
    assert_eq!(typed(&[E, E, [6, 0, 1, 0, 0]], 1), [2, 0, 0, 0, 0, 0]);
    let own = [X, [2, 2, 0, 0, 0], [8, 1, 0, 0, 65535], [6, 0, 2, 0, 0]];
    assert_eq!((typed(&own, 1), typed(&own, 2)), ([1, 0, 0, 0, 0, 0], [4, 2, 0, 0, 0, 0]));
}

#[test]
fn conditions_on_singletons_leave_types_alone() {
    let rows = [X, [2, 2, 0, 0, 0], [6, 0, 1, 0, 0], [17, 1, 7, 2, 7], [7, 2, 3, 0, 0]];
    assert_eq!((typed(&rows, 1), typed(&rows, 2)), ([1, 0, 0, 0, 0, 0], [2, 0, 0, 0, 0, 0]));
}

#[test]
fn the_lowest_row_without_a_type_counts() {
    let ill = [X, E, [6, 0, 1, 0, 0]];
    let two = [&ill[..], &[X, E, [5, 3, 4, 0, 0], [6, 2, 5, 0, 0]]].concat();
    assert_eq!(checked(&two), (16, 2));
    // The condition row is lower than a fault elsewhere, but its kind 7 row is higher.
    let late = [[16, 2, 7, 5, 0], X, X, E, [6, 2, 3, 0, 0], [7, 1, 0, 0, 0], [6, 4, 5, 0, 0]];
    assert_eq!(checked(&late), (16, 4));
}

/// Proposition 4 of the paper: union and concatenation are associative and commutative
/// for types, and Maybe of Maybe is never formed.
#[test]
fn proposition_4() {
    let mut source = Source::new(4);
    let (mut well, mut ill) = (0, 0);
    for _ in 0..3000 {
        let mut part = || Box::new(grow(&mut source, Room { size: 2, with_edge: false, depth: 2 }));
        let (a, b, c) = (part(), part(), part());
        for join in [Form::Union, Form::Concatenation] {
            let pair = |one: &Box<Pattern>, other: &Box<Pattern>| {
                Box::new(Pattern { row: 0, form: join(one.clone(), other.clone()) })
            };
            let left = types(&pair(&pair(&a, &b), &c));
            assert_eq!(left, types(&pair(&a, &pair(&b, &c))));
            assert_eq!(left, types(&pair(&pair(&b, &a), &c)));
            match &left {
                Ok(found) => {
                    well += 1;
                    assert!(!found.values().any(twice_maybe));
                }
                Err(_) => ill += 1,
            }
        }
    }
    assert!(well > 500 && ill > 500, "{well} {ill}");
}

fn twice_maybe(one: &Type) -> bool {
    one.numbers().windows(2).any(|pair| pair == [3, 3])
}
