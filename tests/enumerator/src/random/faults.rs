//! Tables refused on purpose by 12 to 16, each with the refusal it must get.

use super::malformed::malformed_row;
use super::patterns::{grow, laid_out, Room};
use super::source::Source;
use crate::refusal::Refusal;
use crate::table::Row;

/// Rows with a fault. The last row stands for the whole, so a fault can be put into a
/// larger table.
#[derive(Clone, Debug)]
pub struct Fault {
    pub rows: Vec<Row>,
    pub refusal: Refusal,
}

#[derive(Clone, Copy, PartialEq, Eq, PartialOrd, Ord, Debug)]
pub enum Way {
    Malformed,
    NamedTwiceByOne,
    NamedTwiceByTwo,
    ConditionNamedTwice,
    NotNamed,
    RepeatedNode,
    RepeatedUnion,
    RepeatedConcatenation,
    RepeatedConditioned,
    RepeatedOptional,
    RepeatedNever,
    ThirdRepetition,
    ThirdRepetitionApart,
    ConcatenationNodeEdge,
    ConcatenationMaybe,
    ConcatenationMaybes,
    ConcatenationGroup,
    ConcatenationGroups,
    UnionNodeEdge,
    UnionEdgeGroup,
    UnionMaybeOther,
    UnionGroupsApart,
    ConditionAbsent,
    ConditionMaybe,
    ConditionGroup,
    ConditionRightSide,
    ConditionWithin,
}

use Way::*;

pub const ALL: [Way; 27] = [
    Malformed, NamedTwiceByOne, NamedTwiceByTwo, ConditionNamedTwice, NotNamed, RepeatedNode, RepeatedUnion,
    RepeatedConcatenation, RepeatedConditioned, RepeatedOptional, RepeatedNever, ThirdRepetition,
    ThirdRepetitionApart, ConcatenationNodeEdge, ConcatenationMaybe, ConcatenationMaybes, ConcatenationGroup,
    ConcatenationGroups, UnionNodeEdge, UnionEdgeGroup, UnionMaybeOther, UnionGroupsApart, ConditionAbsent,
    ConditionMaybe, ConditionGroup, ConditionRightSide, ConditionWithin,
];

/// The shortest table with the fault.
pub fn fault(source: &mut Source, way: Way) -> Fault {
    let v = source.between(1, 8) as u16;
    let other = v % 8 + 1;
    let edge = source.between(2, 4) as u16;
    let (key, constant) = (source.word(), source.word());
    let (rows, number, row): (Vec<Row>, u64, usize) = match way {
        Malformed => (vec![[1, v, 0, 0, 0], [16, v, key, constant, 0], malformed_row(source)], 12, 2),
        NamedTwiceByOne => (vec![[edge, v, 0, 0, 0], [6, 0, 0, 0, 0]], 13, 0),
        NamedTwiceByTwo => (vec![[edge, 0, 0, 0, 0], [8, 0, 0, 1, 2], [6, 0, 1, 0, 0]], 13, 0),
        ConditionNamedTwice => (
            vec![[1, v, 0, 0, 0], [16, v, key, 0, 0], [7, 0, 1, 0, 0], [7, 2, 1, 0, 0]],
            13,
            1,
        ),
        NotNamed => (vec![[1, v, 0, 0, 0], [edge, v, 0, 0, 0]], 13, 0),
        RepeatedNode | RepeatedUnion | RepeatedConcatenation | RepeatedConditioned | RepeatedOptional
        | RepeatedNever | ThirdRepetition | ThirdRepetitionApart => repetitions(way, v, edge),
        ConcatenationNodeEdge | ConcatenationMaybe | ConcatenationMaybes | ConcatenationGroup
        | ConcatenationGroups => concatenations(way, v, edge),
        UnionNodeEdge | UnionEdgeGroup | UnionMaybeOther | UnionGroupsApart => unions(way, v, edge),
        _ => conditions(way, [v, other], edge, [key, constant]),
    };
    Fault { rows, refusal: Refusal::at(number, row) }
}

type Shape = (Vec<Row>, u64, usize);

/// Faults of 14 and 15, at the last row.
fn repetitions(way: Way, v: u16, edge: u16) -> Shape {
    let rows = match way {
        RepeatedNode => vec![[1, v, 0, 0, 0], [8, 0, 0, 0, 65535]],
        RepeatedUnion => vec![[edge, v, 0, 0, 0], [1, 0, 0, 0, 0], [5, 0, 1, 0, 0], [8, 2, 0, 1, 3]],
        RepeatedConcatenation => vec![[1, v, 0, 0, 0], [1, 0, 0, 0, 0], [6, 0, 1, 0, 0], [8, 2, 0, 1, 65535]],
        RepeatedConditioned => vec![[1, v, 0, 0, 0], [16, v, 7, 5, 0], [7, 0, 1, 0, 0], [8, 2, 0, 2, 2]],
        RepeatedOptional => vec![[edge, v, 0, 0, 0], [8, 0, 0, 0, 65535], [8, 1, 0, 1, 65535]],
        RepeatedNever => vec![[edge, v, 0, 0, 0], [8, 0, 0, 0, 0], [8, 1, 0, 0, 1]],
        ThirdRepetition => vec![[edge, v, 0, 0, 0], [8, 0, 0, 1, 2], [8, 1, 0, 1, 65535], [8, 2, 0, 0, 65535]],
        _ => vec![
            [edge, v, 0, 0, 0], [8, 0, 0, 1, 2], [1, 0, 0, 0, 0], [6, 2, 1, 0, 0],
            [8, 3, 0, 1, 1], [edge, 0, 0, 0, 0], [5, 5, 4, 0, 0], [8, 6, 0, 2, 3],
        ],
    };
    let number = if matches!(way, ThirdRepetition | ThirdRepetitionApart) { 15 } else { 14 };
    let last = rows.len() - 1;
    (rows, number, last)
}

/// Shared variables of a concatenation that are not Node in both or Edge in both.
fn concatenations(way: Way, v: u16, edge: u16) -> Shape {
    let rows = match way {
        ConcatenationNodeEdge => vec![[1, v, 0, 0, 0], [edge, v, 0, 0, 0], [6, 0, 1, 0, 0]],
        ConcatenationMaybe => {
            vec![[1, v, 0, 0, 0], [edge, 0, 0, 0, 0], [5, 0, 1, 0, 0], [1, v, 0, 0, 0], [6, 3, 2, 0, 0]]
        }
        ConcatenationMaybes => vec![
            [1, v, 0, 0, 0], [1, 0, 0, 0, 0], [5, 0, 1, 0, 0],
            [1, v, 0, 0, 0], [1, 0, 0, 0, 0], [5, 3, 4, 0, 0], [6, 2, 5, 0, 0],
        ],
        ConcatenationGroup => vec![[edge, v, 0, 0, 0], [8, 0, 0, 1, 1], [edge, v, 0, 0, 0], [6, 1, 2, 0, 0]],
        _ => vec![
            [edge, v, 0, 0, 0], [8, 0, 0, 1, 2], [edge, v, 0, 0, 0], [8, 2, 0, 1, 2], [6, 1, 3, 0, 0],
        ],
    };
    let last = rows.len() - 1;
    (rows, 16, last)
}

/// Shared variables of a union whose types do not go together.
fn unions(way: Way, v: u16, edge: u16) -> Shape {
    let rows = match way {
        UnionNodeEdge => vec![[edge, v, 0, 0, 0], [1, v, 0, 0, 0], [5, 0, 1, 0, 0]],
        UnionEdgeGroup => vec![[edge, v, 0, 0, 0], [8, 0, 0, 1, 1], [edge, v, 0, 0, 0], [5, 1, 2, 0, 0]],
        UnionMaybeOther => {
            vec![[1, v, 0, 0, 0], [1, 0, 0, 0, 0], [5, 0, 1, 0, 0], [edge, v, 0, 0, 0], [5, 2, 3, 0, 0]]
        }
        _ => vec![
            [edge, v, 0, 0, 0], [8, 0, 0, 1, 2], [edge, v, 0, 0, 0], [edge, 0, 0, 0, 0],
            [5, 2, 3, 0, 0], [8, 4, 0, 1, 2], [5, 1, 5, 0, 0],
        ],
    };
    let last = rows.len() - 1;
    (rows, 16, last)
}

/// Conditions that name a variable their pattern does not type Node or Edge.
fn conditions(way: Way, variables: [u16; 2], edge: u16, property: [u16; 2]) -> Shape {
    let ([v, other], [key, constant]) = (variables, property);
    let rows = match way {
        ConditionAbsent => vec![[1, other, 0, 0, 0], [16, v, key, constant, 0], [7, 0, 1, 0, 0]],
        ConditionMaybe => vec![
            [1, v, 0, 0, 0], [edge, 0, 0, 0, 0], [5, 0, 1, 0, 0], [16, v, key, constant, 0], [7, 2, 3, 0, 0],
        ],
        ConditionGroup => {
            vec![[edge, v, 0, 0, 0], [8, 0, 0, 1, 1], [16, v, key, constant, 0], [7, 1, 2, 0, 0]]
        }
        ConditionRightSide => vec![[edge, other, 0, 0, 0], [17, other, key, v, key], [7, 0, 1, 0, 0]],
        _ => vec![
            [1, other, 0, 0, 0], [16, other, key, 0, 0], [16, v, key, 0, 0],
            [19, 1, 2, 0, 0], [20, 3, 0, 0, 0], [7, 0, 4, 0, 0],
        ],
    };
    let last = rows.len() - 1;
    (rows, 16, last)
}

/// Moves rows up by `by` places. Names that are past every table stay past it.
pub fn shifted(rows: &[Row], by: usize) -> Vec<Row> {
    let move_row = |row: &Row| {
        let mut moved = *row;
        let places = match row[0] {
            5..=7 | 18 | 19 => 2,
            8 | 20 => 1,
            _ => 0,
        };
        for place in 1..=places {
            moved[place] = moved[place].saturating_add(by as u16);
        }
        moved
    };
    rows.iter().map(move_row).collect()
}

/// Two tables one after the other, joined by a union or a concatenation of their last rows.
pub fn side_by_side(source: &mut Source, one: &[Row], other: &[Row]) -> Vec<Row> {
    let mut rows = one.to_vec();
    rows.extend(shifted(other, one.len()));
    let (low, high) = (one.len() as u16 - 1, rows.len() as u16 - 1);
    let kind = source.between(5, 6) as u16;
    rows.push(if source.one_in(2) { [kind, low, high, 0, 0] } else { [kind, high, low, 0, 0] });
    rows
}

/// The fault behind a sound part, so that its row is not always the same.
pub fn behind_sound_part(source: &mut Source, fault: &Fault) -> Fault {
    let size = source.below(5);
    let sound = grow(source, Room { size, with_edge: false, depth: 2 });
    let sound = laid_out(source, &sound);
    let rows = side_by_side(source, &sound, &fault.rows);
    let row = fault.refusal.row as usize + sound.len();
    Fault { rows, refusal: Refusal::at(fault.refusal.number, row) }
}

/// Two faults in one table: the smaller number counts, then the lower row.
pub fn both(source: &mut Source, one: &Fault, other: &Fault) -> Fault {
    let rows = side_by_side(source, &one.rows, &other.rows);
    let later = Refusal { number: other.refusal.number, row: other.refusal.row + one.rows.len() as u64 };
    Fault { rows, refusal: one.refusal.min(later) }
}
