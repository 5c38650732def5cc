//! Images damaged on purpose, each way with the refusal it must get.

use super::graphs::{assembled, draft, rich, small, Draft, MOST};
use super::source::Source;
use crate::refusal::Refusal;

#[derive(Clone, Copy, PartialEq, Eq, PartialOrd, Ord, Debug)]
pub enum Damage {
    Short,
    FirstOffset,
    NextOffset,
    Unsorted,
    CutOff,
    LeftOver,
    HalfRow(usize),
    Wrapped,
    TooMany(usize),
    NodeEqual,
    NodeFalling,
    EdgeFirstEnd,
    EdgeSecondEnd,
    EdgeDirection,
    EdgeFalling,
    LabelElement,
    LabelZero,
    LabelEqual,
    LabelFalling,
    PropertyElement,
    PropertyEqual,
    PropertyFalling,
}

use Damage::*;

pub const ALL: [Damage; 28] = [
    Short, FirstOffset, NextOffset, Unsorted, CutOff, LeftOver, HalfRow(0), HalfRow(1), HalfRow(2), HalfRow(3),
    Wrapped, TooMany(0), TooMany(1), TooMany(2), TooMany(3), NodeEqual, NodeFalling, EdgeFirstEnd, EdgeSecondEnd,
    EdgeDirection, EdgeFalling, LabelElement, LabelZero, LabelEqual, LabelFalling, PropertyElement,
    PropertyEqual, PropertyFalling,
];

/// An image with one damage, and its refusal.
pub fn damaged(source: &mut Source, damage: Damage) -> (Vec<u8>, Refusal) {
    match section_of(damage) {
        Some(section) => {
            let mut draft = rich(source);
            let row = hurt(source, &mut draft, section, damage);
            (draft.image(), Refusal::at(4 + section as u64, row))
        }
        None => damaged_whole(source, damage),
    }
}

/// An image with faulty rows in two sections: the earlier section counts.
pub fn damaged_twice(source: &mut Source) -> (Vec<u8>, Refusal) {
    loop {
        let (one, other) = (source.pick(&ALL), source.pick(&ALL));
        let (Some(early), Some(late)) = (section_of(one), section_of(other)) else { continue };
        if early < late {
            let mut draft = rich(source);
            let row = hurt(source, &mut draft, early, one);
            hurt(source, &mut draft, late, other);
            return (draft.image(), Refusal::at(4 + early as u64, row));
        }
    }
}

/// The section that a damage to a row belongs to.
pub fn section_of(damage: Damage) -> Option<usize> {
    match damage {
        NodeEqual | NodeFalling => Some(0),
        EdgeFirstEnd | EdgeSecondEnd | EdgeDirection | EdgeFalling => Some(1),
        LabelElement | LabelZero | LabelEqual | LabelFalling => Some(2),
        PropertyElement | PropertyEqual | PropertyFalling => Some(3),
        _ => None,
    }
}

/// Makes one row faulty, leaves all rows below it as they should be, and gives the row.
fn hurt(source: &mut Source, draft: &mut Draft, section: usize, damage: Damage) -> usize {
    let (nodes, elements) = (draft.sections[0].len(), draft.elements());
    let rows = &mut draft.sections[section];
    let row = source.between(1, rows.len() - 1);
    let past = |source: &mut Source, bound: usize| source.pick(&[bound, bound + 1, 65535]) as u16;
    match damage {
        NodeEqual | LabelEqual => rows[row] = rows[row - 1].clone(),
        PropertyEqual => rows[row] = vec![rows[row - 1][0], rows[row - 1][1], source.word()],
        NodeFalling | LabelFalling | PropertyFalling => rows.swap(row - 1, row),
        EdgeFirstEnd => rows[row] = vec![past(source, nodes), 0, 1],
        EdgeSecondEnd => rows[row][1] = past(source, nodes),
        EdgeDirection => rows[row][2] = source.pick(&[2, 3, 256, 65535]),
        EdgeFalling => {
            let high = source.between(1, nodes - 1);
            rows[row] = vec![high as u16, source.below(high) as u16, 0];
        }
        LabelElement | PropertyElement => rows[row][0] = past(source, elements),
        LabelZero => rows[row][1] = 0,
        _ => unreachable!("only damages to rows come here"),
    }
    row
}

/// Damages to the directory, the lengths and the counts.
fn damaged_whole(source: &mut Source, damage: Damage) -> (Vec<u8>, Refusal) {
    let mut image = rich(source).image();
    let number = match damage {
        Short => 1,
        TooMany(_) => 3,
        _ => 2,
    };
    match damage {
        Short => image.truncate(source.below(16)),
        FirstOffset => put(&mut image, 0, source.pick(&[0, 15, 17, 18, 65535])),
        NextOffset => {
            let at = source.pick(&[4, 8, 12]);
            let shift = source.pick(&[1, 2, 65534, 65535]);
            let offset = u16::from_le_bytes([image[at], image[at + 1]]);
            put(&mut image, at, offset.wrapping_add(shift));
        }
        Unsorted => image[..8].rotate_left(4),
        CutOff => image.truncate(image.len() - source.between(1, 6)),
        LeftOver => {
            let more = source.between(1, 12);
            image.extend(source.bytes(more));
        }
        HalfRow(section) => image = half_row(source, section),
        Wrapped => image = wrapped(source),
        TooMany(section) => image = too_many(source, section),
        _ => unreachable!("damages to rows go elsewhere"),
    }
    (image, Refusal::of(number))
}

fn put(image: &mut [u8], at: usize, word: u16) {
    image[at..at + 2].copy_from_slice(&word.to_le_bytes());
}

/// A directory without gaps in which one section has a few bytes too many.
fn half_row(source: &mut Source, section: usize) -> Vec<u8> {
    let rows = small(source).sections;
    let mut bytes: [Vec<u8>; 4] =
        std::array::from_fn(|at| rows[at].iter().flatten().flat_map(|word| word.to_le_bytes()).collect());
    let width = [2, 6, 4, 6][section];
    let more = source.between(1, width - 1);
    bytes[section].extend(source.bytes(more));
    assembled(&bytes)
}

/// A directory that would fit only if 65,536 counted as 0.
fn wrapped(source: &mut Source) -> Vec<u8> {
    let directory: [u16; 8] = [16, 65534, 14, 6, 20, 0, 20, 0];
    let mut image: Vec<u8> = directory.iter().flat_map(|word| word.to_le_bytes()).collect();
    image.extend(source.bytes(4));
    image
}

/// One row past the bound of a section.
fn too_many(source: &mut Source, section: usize) -> Vec<u8> {
    let mut counts = [5, 5, 5, 5];
    counts[section] = MOST[section] + 1;
    draft(source, counts).image()
}

/// An image changed blindly: bytes flipped, cut off, or nothing but random bytes.
pub fn scrambled(source: &mut Source) -> Vec<u8> {
    let mut image = rich(source).image();
    match source.below(4) {
        0 => image.truncate(source.below(image.len() + 1)),
        1 => {
            let count = source.below(40);
            image = source.bytes(count);
        }
        _ => {
            for _ in 0..source.between(1, 3) {
                let at = source.below(image.len());
                image[at] ^= 1 << source.below(8);
            }
        }
    }
    image
}
