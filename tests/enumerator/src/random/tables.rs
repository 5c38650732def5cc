//! Random pattern tables of every sort, as words.

use super::faults::{behind_sound_part, both, fault, ALL};
use super::patterns::{grow, laid_out, repetition, Room};
use super::source::Source;
use crate::table::Row;

/// A table and a word on what it is.
pub type Named = (String, Vec<u16>);

/// A table that 11 to 16 give no cause to refuse.
pub fn sound(source: &mut Source, size: usize) -> Vec<u16> {
    loop {
        let pattern = grow(source, Room { size, with_edge: false, depth: 2 });
        let rows = laid_out(source, &pattern);
        if rows.len() <= 64 {
            return rows.concat();
        }
    }
}

/// As `sound`, with a repetition as the whole pattern.
pub fn repeated(source: &mut Source, size: usize) -> Vec<u16> {
    let pattern = repetition(source, Room { size: size + 1, with_edge: true, depth: 2 });
    laid_out(source, &pattern).concat()
}

/// A table of any sort.
pub fn any(source: &mut Source) -> Named {
    match source.below(10) {
        0..=2 => {
            let size = source.below(12);
            (String::from("sound"), sound(source, size))
        }
        3..=5 => faulty(source),
        6 => (String::from("two faults"), two_faults(source)),
        7 | 8 => (String::from("word changed"), word_changed(source)),
        _ => odd(source),
    }
}

fn faulty(source: &mut Source) -> Named {
    let way = source.pick(&ALL);
    let plain = fault(source, way);
    let placed = if source.one_in(3) { plain } else { behind_sound_part(source, &plain) };
    (format!("{way:?}"), placed.rows.concat())
}

fn two_faults(source: &mut Source) -> Vec<u16> {
    let ways = (source.pick(&ALL), source.pick(&ALL));
    let (one, other) = (fault(source, ways.0), fault(source, ways.1));
    both(source, &one, &other).rows.concat()
}

/// A sound table with one number changed; often still sound.
fn word_changed(source: &mut Source) -> Vec<u16> {
    let size = source.between(1, 8);
    let mut words = sound(source, size);
    let at = source.below(words.len());
    words[at] = match source.below(4) {
        0 => source.word(),
        1 => words[at].wrapping_add(1),
        2 => words[at].wrapping_sub(1),
        _ => source.pick(&[0, 1, 2, 5, 6, 7, 8, 9, 16, 17, 18, 19, 20, 65534, 65535]),
    };
    words
}

/// Tables at the bounds of length, conditions that end a table, and noise.
fn odd(source: &mut Source) -> Named {
    let size = source.below(6);
    let named = |note: &str, words: Vec<u16>| (String::from(note), words);
    match source.below(9) {
        0 => named("no rows", vec![]),
        1 => named("64 rows", chain(64).concat()),
        2 => named("65 rows", chain(65).concat()),
        3 => {
            let mut words = sound(source, size);
            words.truncate(words.len() - source.between(1, 4));
            named("not whole rows", words)
        }
        4 => named("ends with a condition", vec![16, 1, 7, 5, 0, 20, 0, 0, 0, 0]),
        5 => {
            let count = source.below(30);
            named("noise", source.words(count))
        }
        6 => named("variable 8 or 9", vec![source.between(1, 4) as u16, source.between(8, 9) as u16, 0, 0, 0]),
        7 => {
            let (least, greatest) = (source.between(65533, 65535) as u16, source.between(65533, 65535) as u16);
            named("great counts", vec![2, 1, 0, 0, 0, 8, 0, 0, least, greatest])
        }
        _ => {
            let mut words = sound(source, size);
            words.extend([16, 1, 7, 5, 0]);
            named("a condition after the whole", words)
        }
    }
}

/// A sound table with exactly so many rows, at least 1: forward edges joined one by
/// one, and a repetition on top where the count is even.
pub fn chain(count: usize) -> Vec<Row> {
    let mut rows: Vec<Row> = vec![[2, 0, 0, 0, 0]];
    while rows.len() + 2 <= count {
        let last = rows.len() as u16 - 1;
        rows.push([2, 0, 0, 0, 0]);
        rows.push([6, last, last + 1, 0, 0]);
    }
    if rows.len() < count {
        let last = rows.len() as u16 - 1;
        rows.push([8, last, 0, 1, 65535]);
    }
    rows
}
