//! Random well-typed patterns. They are grown as trees, then laid out as table rows in
//! a random order that keeps named rows lower.

use super::source::Source;
use super::{KEYS, LABELS, VALUES};
use crate::pattern::{Condition, Direction, Form, Pattern, Variable};
use crate::table::Row;
use crate::typing::{types, Type};

/// What a pattern still to be grown may be.
#[derive(Clone, Copy)]
pub struct Room {
    /// Roughly how many operators it may have.
    pub size: usize,
    /// Whether it must not match without an edge.
    pub with_edge: bool,
    /// How many repetitions may lie around one another in it.
    pub depth: usize,
}

/// A pattern that 11 to 16 give no cause to refuse.
pub fn grow(source: &mut Source, room: Room) -> Pattern {
    if room.size == 0 {
        return leaf(source, room.with_edge);
    }
    let (left, right) = (source.below(room.size), room.size - 1);
    match source.below(12) {
        0..=2 => joined(source, room, left, right - left, false),
        3..=5 => joined(source, room, left, right - left, true),
        6 => conditioned(source, room),
        _ if room.depth > 0 => repetition(source, room),
        _ => leaf(source, room.with_edge),
    }
}

fn boxed(form: Form) -> Pattern {
    Pattern { row: 0, form }
}

fn leaf(source: &mut Source, with_edge: bool) -> Pattern {
    let label = source.one_in(8).then(|| source.pick(&LABELS));
    let named = !source.one_in(3);
    if !with_edge && source.one_in(3) {
        // Low variables lean to nodes and high ones to edges, so that sharing is common.
        let variable = named.then(|| source.pick(&[1, 1, 2, 3, 6, 8]));
        return boxed(Form::Node { variable, label });
    }
    let variable = named.then(|| source.pick(&[4, 5, 5, 7, 3, 8]));
    let directions = [Direction::Forward, Direction::Forward, Direction::Backward, Direction::Undirected];
    boxed(Form::Edge { direction: source.pick(&directions), variable, label })
}

/// A union or a concatenation. Where the two parts do not fit together, the right one
/// is grown anew, and in the end without variables.
fn joined(source: &mut Source, room: Room, left: usize, right: usize, concatenated: bool) -> Pattern {
    let left = Box::new(grow(source, Room { size: left, ..room }));
    let with_edge = room.with_edge && !concatenated;
    let form = |right: Pattern| match concatenated {
        true => Form::Concatenation(left.clone(), Box::new(right)),
        false => Form::Union(left.clone(), Box::new(right)),
    };
    for _ in 0..4 {
        let pattern = boxed(form(grow(source, Room { size: right, with_edge, ..room })));
        if types(&pattern).is_ok() {
            return pattern;
        }
    }
    boxed(form(boxed(Form::Edge { direction: Direction::Forward, variable: None, label: None })))
}

/// A repetition, where the room has size and depth for one.
pub fn repetition(source: &mut Source, room: Room) -> Pattern {
    let body = grow(source, Room { size: room.size - 1, with_edge: true, depth: room.depth - 1 });
    repeated(source, body, room.with_edge)
}

/// The body with counts that often let it match.
pub fn repeated(source: &mut Source, body: Pattern, with_edge: bool) -> Pattern {
    let least = source.pick(&[0, 0, 1, 1, 2, 3]).max(with_edge as u16);
    let least = if source.one_in(40) { 65534 } else { least };
    let greatest = match source.below(4) {
        0 => Some(least),
        1 => Some(least.saturating_add(source.below(4) as u16).min(65534)),
        _ => None,
    };
    boxed(Form::Repetition { body: Box::new(body), least, greatest })
}

fn conditioned(source: &mut Source, room: Room) -> Pattern {
    let part = grow(source, Room { size: room.size - 1, ..room });
    let depth = source.below(3);
    with_condition(source, part, Terms { keys: &KEYS, values: &VALUES }, depth)
}

/// What equalities ask for.
#[derive(Clone, Copy)]
pub struct Terms<'a> {
    pub keys: &'a [u16],
    pub values: &'a [u16],
}

/// The pattern under a condition of this depth over its nodes and edges; as it is where it
/// binds none or has no type.
pub fn with_condition(source: &mut Source, part: Pattern, terms: Terms, depth: usize) -> Pattern {
    let schema = types(&part).unwrap_or_default();
    let singles: Vec<Variable> =
        schema.iter().filter(|(_, one)| matches!(one, Type::Node | Type::Edge)).map(|(v, _)| *v).collect();
    if singles.is_empty() {
        return part;
    }
    let condition = condition(source, &singles, terms, depth);
    boxed(Form::Conditioned(Box::new(part), condition))
}

/// Of two parts one is as deep as can be, the other mostly less, so that tables stay short.
/// Only under a negation does unknown differ from false, so most equalities have one.
fn condition(source: &mut Source, singles: &[Variable], terms: Terms, depth: usize) -> Condition {
    if depth == 0 {
        return equality(source, singles, terms);
    }
    let connective = if depth == 1 { source.pick(&[0, 0, 0, 1, 2]) } else { source.below(3) };
    let deep = Box::new(condition(source, singles, terms, depth - 1));
    if connective == 0 {
        return Condition::Not(deep);
    }
    let less = source.below(depth);
    let other = Box::new(condition(source, singles, terms, less));
    let (left, right) = if source.one_in(2) { (deep, other) } else { (other, deep) };
    match connective {
        1 => Condition::And(left, right),
        _ => Condition::Or(left, right),
    }
}

fn equality(source: &mut Source, singles: &[Variable], terms: Terms) -> Condition {
    let side = |source: &mut Source| (source.pick(singles), source.pick(terms.keys));
    let (variable, key) = side(source);
    match source.one_in(2) {
        true => Condition::Constant { variable, key, constant: source.pick(terms.values) },
        false => Condition::Equal { left: (variable, key), right: side(source) },
    }
}

/// A row whose named rows are still places in the list of parts.
struct Loose {
    row: Row,
    parts: Vec<usize>,
}

/// Lays a pattern out as a table: any order in which named rows come first.
pub fn laid_out(source: &mut Source, pattern: &Pattern) -> Vec<Row> {
    let mut loose = Vec::new();
    loosen(pattern, &mut loose);
    let mut placed: Vec<Option<usize>> = vec![None; loose.len()];
    let mut rows = Vec::new();
    while rows.len() < loose.len() {
        let ready = |at: &usize| placed[*at].is_none() && loose[*at].parts.iter().all(|&part| placed[part].is_some());
        let choices: Vec<usize> = (0..loose.len()).filter(ready).collect();
        let chosen = source.pick(&choices);
        let mut row = loose[chosen].row;
        for (place, &part) in loose[chosen].parts.iter().enumerate() {
            row[1 + place] = placed[part].expect("parts are placed first") as u16;
        }
        placed[chosen] = Some(rows.len());
        rows.push(row);
    }
    rows
}

fn loosen(pattern: &Pattern, loose: &mut Vec<Loose>) -> usize {
    let mut parts: Vec<usize> = pattern.parts().into_iter().map(|part| loosen(part, loose)).collect();
    let number = |present: &Option<u16>| present.unwrap_or(0);
    let row = match &pattern.form {
        Form::Node { variable, label } => [1, number(variable), number(label), 0, 0],
        Form::Edge { direction, variable, label } => [2 + *direction as u16, number(variable), number(label), 0, 0],
        Form::Union(..) => [5, 0, 0, 0, 0],
        Form::Concatenation(..) => [6, 0, 0, 0, 0],
        Form::Conditioned(_, condition) => {
            parts.push(loosen_condition(condition, loose));
            [7, 0, 0, 0, 0]
        }
        Form::Repetition { least, greatest, .. } => [8, 0, 0, *least, greatest.unwrap_or(65535)],
    };
    loose.push(Loose { row, parts });
    loose.len() - 1
}

fn loosen_condition(condition: &Condition, loose: &mut Vec<Loose>) -> usize {
    let (row, parts) = match condition {
        Condition::Constant { variable, key, constant } => ([16, *variable, *key, *constant, 0], vec![]),
        Condition::Equal { left, right } => ([17, left.0, left.1, right.0, right.1], vec![]),
        Condition::And(left, right) => {
            ([18, 0, 0, 0, 0], vec![loosen_condition(left, loose), loosen_condition(right, loose)])
        }
        Condition::Or(left, right) => {
            ([19, 0, 0, 0, 0], vec![loosen_condition(left, loose), loosen_condition(right, loose)])
        }
        Condition::Not(inner) => ([20, 0, 0, 0, 0], vec![loosen_condition(inner, loose)]),
    };
    loose.push(Loose { row, parts });
    loose.len() - 1
}
