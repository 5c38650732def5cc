//! Random parts that fit together: queries of one to four parts that nothing gives cause to refuse.

use super::patterns::{grow, laid_out, repetition, Room};
use super::source::Source;
use super::LABELS;
use crate::pattern::{Direction, Form, Pattern, Variable};
use crate::query::Part;
use crate::typing::{self, types, Types};

/// Variables that parts share: nodes and edges.
const SHARED_NODES: [Variable; 2] = [1, 2];
const SHARED_EDGES: [Variable; 2] = [5, 7];

/// One part as often as two; three and four are rarer, as more of them cost too much.
pub fn sound(source: &mut Source) -> Vec<Part> {
    let count = source.pick(&[1, 1, 1, 1, 2, 2, 2, 2, 3, 3, 3, 4, 4]);
    of_parts(source, count)
}

/// A query of so many parts. A part that does not fit to those before is drawn again,
/// and in the end has no variables.
pub fn of_parts(source: &mut Source, count: usize) -> Vec<Part> {
    let mut known = Types::new();
    let mut parts = Vec::new();
    let names = names(source, count);
    for name in names {
        let (pattern, joined) = fitting(source, &known, count);
        known = joined;
        let rows = laid_out(source, &pattern);
        parts.push(Part { restrictor: source.between(1, 4) as u16, name, pattern: rows.concat() });
    }
    parts
}

/// A pattern of at most 64 rows that joins with what is known, and the types then.
fn fitting(source: &mut Source, known: &Types, count: usize) -> (Pattern, Types) {
    for _ in 0..6 {
        let pattern = pattern(source, count);
        let found = types(&pattern).ok().and_then(|found| typing::joined(known.clone(), found));
        match found {
            Some(joined) if laid_out(source, &pattern).len() <= 64 => return (pattern, joined),
            _ => {}
        }
    }
    (edge(Direction::Forward, None), known.clone())
}

/// Alone a part is as large as ever; among others it is smaller, and mostly made to share.
fn pattern(source: &mut Source, count: usize) -> Pattern {
    let size = source.below(if count == 1 { 7 } else { 4 });
    let shape = if count == 1 { 6 + source.below(3) } else { source.below(9) };
    match shape {
        0 | 1 => between_nodes(source, size),
        2 => through_node(source, size),
        3 => with_edge(source, size),
        4 => node(source.pick(&SHARED_NODES)),
        5 => edge(direction(source), Some(source.pick(&SHARED_EDGES))),
        6 => repetition(source, Room { size: size + 1, with_edge: true, depth: 2 }),
        _ => grow(source, Room { size, with_edge: false, depth: 2 }),
    }
}

pub fn of(form: Form) -> Pattern {
    Pattern { row: 0, form }
}

fn node(variable: Variable) -> Pattern {
    of(Form::Node { variable: Some(variable), label: None })
}

pub fn edge(direction: Direction, variable: Option<Variable>) -> Pattern {
    of(Form::Edge { direction, variable, label: None })
}

pub fn direction(source: &mut Source) -> Direction {
    source.pick(&[Direction::Forward, Direction::Forward, Direction::Backward, Direction::Undirected])
}

pub fn after(left: Pattern, right: Pattern) -> Pattern {
    of(Form::Concatenation(Box::new(left), Box::new(right)))
}

/// A body that binds nothing which parts share, so that what it stands beside has a type.
fn body(source: &mut Source, size: usize) -> Pattern {
    loop {
        let body = grow(source, Room { size, with_edge: false, depth: 2 });
        let shares = |variable: &Variable| SHARED_NODES.contains(variable) || SHARED_EDGES.contains(variable);
        if !body.variables().iter().any(shares) {
            return body;
        }
    }
}

/// Shared nodes at both ends, one of them now and then with a label.
fn between_nodes(source: &mut Source, size: usize) -> Pattern {
    let label = source.one_in(8).then(|| source.pick(&LABELS));
    let first = of(Form::Node { variable: Some(source.pick(&SHARED_NODES)), label });
    let walk = body(source, size);
    let last = node(source.pick(&SHARED_NODES));
    match source.below(3) {
        0 => after(first, walk),
        1 => after(walk, last),
        _ => after(after(first, walk), last),
    }
}

/// A shared node in the middle.
fn through_node(source: &mut Source, size: usize) -> Pattern {
    let (before, behind) = (body(source, size / 2), edge(direction(source), None));
    after(after(before, node(source.pick(&SHARED_NODES))), behind)
}

/// A shared edge at an end or in the middle.
fn with_edge(source: &mut Source, size: usize) -> Pattern {
    let walked = edge(direction(source), Some(source.pick(&SHARED_EDGES)));
    let walk = body(source, size);
    match source.below(3) {
        0 => after(walked, walk),
        1 => after(walk, walked),
        _ => after(after(walk, walked), edge(direction(source), None)),
    }
}

/// A path name for about every other part, in any order.
fn names(source: &mut Source, count: usize) -> Vec<u16> {
    let mut left = vec![9, 10, 11, 12];
    let draw = |_| match source.one_in(2) {
        true => 0,
        false => left.remove(source.below(left.len())),
    };
    (0..count).map(draw).collect()
}
