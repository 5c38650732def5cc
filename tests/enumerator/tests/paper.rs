//! The worked examples of the paper's Sections 3 to 5.

mod common;
use common::*;

const A: u16 = 1;
const B: u16 = 2;
const C: u16 = 3;

/// A path back to its start by way of a B-node and a C-node, joined by variable x1.
#[test]
fn implicit_join_over_the_ends_of_the_path() {
    let labels = [[0, A], [1, B], [2, C], [3, A]];
    let graph = image(&[1, 2, 3, 4], &[[0, 1, 1], [2, 1, 1], [2, 0, 1], [2, 3, 1]], &labels, &[]);
    let rows = [
        [1, 1, A, 0, 0], [2, 4, 0, 0, 0], [1, 2, B, 0, 0], [3, 5, 0, 0, 0], [1, 3, C, 0, 0],
        [2, 6, 0, 0, 0], [1, 1, 0, 0, 0],
        [6, 0, 1, 0, 0], [6, 7, 2, 0, 0], [6, 8, 3, 0, 0], [6, 9, 4, 0, 0], [6, 10, 5, 0, 0], [6, 11, 6, 0, 0],
    ];
    assert_eq!(records(&graph, &rows, 1), [[3, 0, 0, 1, 1, 2, 2, 0, 0, 1, 2, 0, 1, 2]]);
    // Without the join the walk may also end at node 3.
    let mut free = rows;
    free[6] = [1, 7, 0, 0, 0];
    assert_eq!(records(&graph, &free, 1).len(), 2);
}

/// (x : A) to (z : B) [back to (u : C) or ()].
#[test]
fn optional_pattern() {
    let rows = [
        [1, 1, A, 0, 0], [2, 0, 0, 0, 0], [6, 0, 1, 0, 0], [1, 3, B, 0, 0], [6, 2, 3, 0, 0],
        [3, 0, 0, 0, 0], [1, 2, C, 0, 0], [6, 5, 6, 0, 0], [1, 0, 0, 0, 0], [5, 7, 8, 0, 0], [6, 4, 9, 0, 0],
    ];
    let with_c = image(&[1, 2, 3], &[[0, 1, 1], [2, 1, 1]], &[[0, A], [1, B], [2, C]], &[]);
    let expected: [&[u16]; 2] = [&[1, 0, 0, 1, 0, 65535, 1], &[2, 0, 0, 1, 1, 2, 0, 2, 1]];
    assert_eq!(records(&with_c, &rows, 1), expected);
    let without_c = image(&[1, 2, 3], &[[0, 1, 1], [2, 1, 1]], &[[0, A], [1, B]], &[]);
    assert_eq!(records(&without_c, &rows, 1), [[1, 0, 0, 1, 0, 65535, 1]]);
}

/// (x : A) by one or more edges y to (z : B): y is bound to the list of edges.
#[test]
fn group_variable() {
    let graph = image(&[1, 2, 3], &[[0, 1, 1], [1, 2, 1]], &[[0, A], [2, B]], &[]);
    let rows = [
        [1, 1, A, 0, 0], [2, 2, 0, 0, 0], [8, 1, 0, 1, 65535], [6, 0, 2, 0, 0], [1, 3, B, 0, 0], [6, 3, 4, 0, 0],
    ];
    let expected = [2, 0, 0, 1, 1, 2, /* x */ 0, /* y */ 2, 1, 0, 0, 1, 0, 1, 1, 1, 2, 1, /* z */ 2];
    assert_eq!(records(&graph, &rows, 1), [expected]);
}

/// The same with the condition x.a = z.a, and x.a = y.a, which has no type.
#[test]
fn conditioned_pattern() {
    let rows = [
        [1, 1, A, 0, 0], [2, 2, 0, 0, 0], [8, 1, 0, 1, 65535], [6, 0, 2, 0, 0], [1, 3, B, 0, 0], [6, 3, 4, 0, 0],
        [17, 1, 7, 3, 7], [7, 5, 6, 0, 0],
    ];
    let labels = [[0, A], [1, B], [2, B]];
    let edges = [[0, 1, 1], [1, 2, 1]];
    let ends = |properties: &[[u16; 3]]| {
        let graph = image(&[1, 2, 3], &edges, &labels, properties);
        records(&graph, &rows, 1).iter().map(|words| *words.last().unwrap()).collect::<Vec<u16>>()
    };
    assert_eq!(ends(&[[0, 7, 5], [1, 7, 4], [2, 7, 5]]), [2]);
    assert_eq!(ends(&[[0, 7, 5], [1, 7, 5], [2, 7, 5]]), [1, 2]);
    // With a side undefined it is unknown, which keeps nothing.
    assert_eq!(ends(&[]), Vec::<u16>::new());
    assert_eq!(ends(&[[1, 7, 5], [2, 7, 5]]), Vec::<u16>::new());
    let mut ill = rows;
    ill[6] = [17, 1, 7, 2, 7];
    assert_eq!(checked(&ill), (16, 7));
}

#[test]
fn the_necessity_of_type_rules() {
    let rows = [[1, 1, 0, 0, 0], [2, 1, 0, 0, 0], [6, 0, 1, 0, 0], [1, 0, 0, 0, 0], [6, 2, 3, 0, 0]];
    assert_eq!(checked(&rows), (16, 2));
}

/// Both paths of an undirected edge, but only one where its ends are the same.
#[test]
fn undirected_edges_give_both_paths() {
    let graph = plain(2, &[[0, 1, 0], [1, 1, 0], [0, 1, 1]]);
    let rows = [[4, 1, 0, 0, 0]];
    assert_eq!(records(&graph, &rows, 1), [[1, 0, 0, 1, 0], [1, 1, 0, 0, 0], [1, 1, 1, 1, 1]]);
}

#[test]
fn forward_and_backward_edges() {
    let graph = plain(2, &[[1, 0, 1], [0, 1, 0], [1, 1, 1]]);
    assert_eq!(records(&graph, &[[2, 0, 0, 0, 0]], 1), [[1, 1, 0, 0], [1, 1, 2, 1]]);
    assert_eq!(records(&graph, &[[3, 0, 0, 0, 0]], 1), [[1, 0, 0, 1], [1, 1, 2, 1]]);
}

/// A path of one node is a unit of concatenation.
#[test]
fn edgeless_paths_are_units() {
    let edge = [[2, 1, 0, 0, 0]];
    let padded = [[1, 0, 0, 0, 0], [2, 1, 0, 0, 0], [6, 0, 1, 0, 0], [1, 0, 0, 0, 0], [6, 2, 3, 0, 0]];
    assert_eq!(records(&t(), &padded, 1), records(&t(), &edge, 1));
}

/// Nesting of repetitions leads to nesting of lists.
#[test]
fn nested_repetitions_nest_lists() {
    let chain = plain(3, &[[0, 1, 1], [1, 2, 1]]);
    let rows = [[2, 1, 0, 0, 0], [8, 0, 0, 2, 2], [8, 1, 0, 1, 65535]];
    let path = [2, 0, 0, 1, 1, 2];
    let expected = [&path[..], &[1], &path, &[2, 1, 0, 0, 1, 0, 1, 1, 1, 2, 1]].concat();
    assert_eq!(records(&chain, &rows, 1), [expected]);
}

/// All simple paths of a graph by one query (Section 6), and only the forward ones.
#[test]
fn every_simple_path_by_a_star() {
    let rows = [[2, 0, 0, 0, 0], [8, 0, 0, 0, 65535]];
    let graph = plain(3, &[[0, 1, 1], [1, 2, 1], [2, 0, 1]]);
    let lengths: Vec<u16> = records(&graph, &rows, 2).iter().map(|words| words[0]).collect();
    assert_eq!(lengths, [0, 0, 0, 1, 1, 1, 2, 2, 2]);
}

/// Labels choose nodes and edges; node 0 and edge 0 are different things.
#[test]
fn labels_of_nodes_and_edges() {
    let graph = image(&[1, 2], &[[0, 1, 1], [0, 1, 1]], &[[0, A], [1, B], [3, A]], &[]);
    assert_eq!(records(&graph, &[[1, 0, A, 0, 0]], 1), [[0, 0]]);
    assert_eq!(records(&graph, &[[2, 0, A, 0, 0]], 1), [[1, 0, 1, 1]]);
    assert_eq!(records(&graph, &[[2, 0, B, 0, 0]], 1), Vec::<Vec<u16>>::new());
}

/// Equality of properties across a node and an edge; and, or, not, by three truth values (02, Q-2).
#[test]
fn conditions() {
    let graph = image(&[1, 2], &[[0, 1, 1]], &[], &[[0, 7, 5], [1, 8, 5], [2, 7, 5]]);
    let base = [[1, 1, 0, 0, 0], [2, 2, 0, 0, 0], [6, 0, 1, 0, 0]];
    let holds = |condition: &[[u16; 5]]| {
        let last = 2 + condition.len() as u16;
        let rows = [&base[..], condition, &[[7, 2, last, 0, 0]]].concat();
        !records(&graph, &rows, 1).is_empty()
    };
    let (yes, no) = ([17, 1, 7, 2, 7], [16, 2, 7, 4, 0]);
    let missing = [17, 1, 9, 2, 9];
    assert!(holds(&[yes]) && !holds(&[no]) && !holds(&[missing]));
    assert!(!holds(&[yes, [20, 3, 0, 0, 0]]) && holds(&[no, [20, 3, 0, 0, 0]]) && !holds(&[missing, [20, 3, 0, 0, 0]]));
    assert!(!holds(&[yes, no, [18, 3, 4, 0, 0]]) && holds(&[yes, no, [19, 3, 4, 0, 0]]));
    assert!(holds(&[yes, yes, [18, 3, 4, 0, 0]]) && !holds(&[no, missing, [19, 3, 4, 0, 0]]));
    assert!(holds(&[yes, missing, [19, 3, 4, 0, 0]]) && !holds(&[yes, missing, [18, 3, 4, 0, 0]]));
}
