//! Words to judge and bookmarks: records of a listing, near misses and noise.

use super::source::Source;
use crate::joins::Answer;
use crate::listing::Listing;
use crate::path::Path;
use crate::record::{self, Record};
use crate::value::Value;

#[derive(Clone, Copy, PartialEq, Eq, PartialOrd, Ord, Debug)]
pub enum Candidate {
    Empty,
    Record,
    WordChanged,
    WordDropped,
    WordAdded,
    SplitElsewhere,
    ValueOfAnother,
    NamedElsewhere,
    PathsSwapped,
    PathOfAnother,
    ValuesOfAnother,
    Beginning,
    IntoLaterPath,
    IntoValues,
    Noise,
}

use Candidate::*;

/// What is close to a record.
pub const NEAR_MISSES: [Candidate; 9] = [
    WordChanged, WordDropped, WordAdded, SplitElsewhere, ValueOfAnother, NamedElsewhere, PathsSwapped, PathOfAnother,
    ValuesOfAnother,
];

/// Every sort; records stand here more often, as they are what is asked about.
pub const ALL: [Candidate; 17] = [
    Empty, Record, Record, Record, WordChanged, WordDropped, WordAdded, SplitElsewhere, ValueOfAnother, NamedElsewhere,
    PathsSwapped, PathOfAnother, ValuesOfAnother, Beginning, IntoLaterPath, IntoValues, Noise,
];

/// Words of any sort. A sort that the listing has nothing for is left for another.
pub fn any(source: &mut Source, listing: &Listing) -> (Candidate, Record) {
    loop {
        let wanted = source.pick(&ALL);
        if let Some(words) = candidate(source, listing, wanted) {
            return (wanted, words);
        }
    }
}

pub fn candidate(source: &mut Source, listing: &Listing, wanted: Candidate) -> Option<Record> {
    match wanted {
        Empty => return Some(vec![]),
        Noise => return Some(noise(source)),
        _ if listing.records.is_empty() => return None,
        _ => {}
    }
    let mut words = source.pick(&listing.records);
    let at = source.below(words.len());
    match wanted {
        WordChanged => words[at] = changed(source, words[at]),
        WordDropped => drop(words.remove(at)),
        WordAdded => words.insert(source.between(at, words.len()), source.below(4) as u16),
        SplitElsewhere => return rewritten(listing, &words, |answer| split_elsewhere(source, answer)),
        ValueOfAnother => return rewritten(listing, &words, |answer| swap_values(source, answer)),
        NamedElsewhere => return rewritten(listing, &words, |answer| name_elsewhere(source, answer)),
        PathsSwapped => return rewritten(listing, &words, |answer| swap_paths(source, answer)),
        PathOfAnother | ValuesOfAnother => return mixed(source, listing, &words, wanted),
        Beginning => words.truncate(at),
        IntoLaterPath | IntoValues => words.truncate(cut(source, listing, &words, wanted)?),
        _ => {}
    }
    if matches!(wanted, Beginning | IntoLaterPath | IntoValues) && source.one_in(2) {
        words.push(source.pick(&[0, 1, 2, 3, 65535]));
    }
    Some(words)
}

fn noise(source: &mut Source) -> Record {
    let count = source.below(12);
    (0..count).map(|_| if source.one_in(6) { source.word() } else { source.below(4) as u16 }).collect()
}

fn changed(source: &mut Source, word: u16) -> u16 {
    match source.below(4) {
        0 => word.wrapping_add(1),
        1 => word.wrapping_sub(1),
        2 => 65535,
        _ => source.below(6) as u16,
    }
}

/// Reads a record, changes the answer if it can be changed so, and writes it again.
fn rewritten(listing: &Listing, words: &[u16], change: impl FnOnce(&mut Answer) -> Option<()>) -> Option<Record> {
    let mut answer = answer(listing, words)?;
    change(&mut answer)?;
    Some(record::write(&answer))
}

fn answer(listing: &Listing, words: &[u16]) -> Option<Answer> {
    record::read(listing.parts, &listing.types, words).map(|(answer, _)| answer)
}

/// A place behind the first path: before the paths end, or among the values.
fn cut(source: &mut Source, listing: &Listing, words: &[u16], wanted: Candidate) -> Option<usize> {
    let (paths, _) = answer(listing, words)?;
    let length = |paths: &[Path]| paths.iter().map(|path| 2 + 2 * path.length()).sum::<usize>();
    let (first, all) = (length(&paths[..1]), length(&paths));
    let (from, to) = if wanted == IntoLaterPath { (first, all) } else { (all, words.len()) };
    (from < to).then(|| source.between(from, to - 1))
}

/// Gives a path name another path: a part of its own, or that of another part.
fn name_elsewhere(source: &mut Source, answer: &mut Answer) -> Option<()> {
    let names: Vec<u16> = answer.1.keys().copied().filter(|name| *name > 8).collect();
    if names.is_empty() {
        return None;
    }
    let name = source.pick(&names);
    let other = source.pick(&answer.0);
    let Value::Path(path) = &answer.1[&name] else { return None };
    let path = match path.length() {
        0 => other,
        length => path.part(0, source.below(length)),
    };
    answer.1.insert(name, Value::Path(path));
    Some(())
}

fn swap_paths(source: &mut Source, answer: &mut Answer) -> Option<()> {
    let count = answer.0.len();
    if count < 2 {
        return None;
    }
    let one = source.below(count);
    answer.0.swap(one, (one + source.between(1, count - 1)) % count);
    Some(())
}

/// One path, or the values of some variables, are those of another record.
fn mixed(source: &mut Source, listing: &Listing, words: &[u16], wanted: Candidate) -> Option<Record> {
    let (mut one, other) = (answer(listing, words)?, answer(listing, &source.pick(&listing.records))?);
    if wanted == PathOfAnother {
        let at = source.below(one.0.len());
        one.0[at] = other.0[at].clone();
    } else {
        for (variable, value) in other.1 {
            if source.one_in(2) {
                one.1.insert(variable, value);
            }
        }
    }
    Some(record::write(&one))
}

/// Moves the border between two neighbouring factors of a group, or merges the two,
/// or parts one in two.
fn split_elsewhere(source: &mut Source, answer: &mut Answer) -> Option<()> {
    let groups = answer.1.values_mut().filter_map(|value| match value {
        Value::Group(factors) if !factors.is_empty() => Some(factors),
        _ => None,
    });
    let mut groups: Vec<_> = groups.collect();
    if groups.is_empty() {
        return None;
    }
    let chosen = source.below(groups.len());
    let factors = &mut groups[chosen];
    let at = source.below(factors.len());
    if at + 1 < factors.len() {
        let (next, value) = factors.remove(at + 1);
        let here = &mut factors[at].0;
        here.nodes.extend(&next.nodes[1..]);
        here.edges.extend(&next.edges);
        if source.one_in(2) {
            return Some(());
        }
        part_factor(source, factors, at, value);
        return Some(());
    }
    let value = factors[at].1.clone();
    part_factor(source, factors, at, value);
    Some(())
}

/// Parts the factor at a place in two; the second takes the value given.
fn part_factor(source: &mut Source, factors: &mut Vec<(Path, Value)>, at: usize, value: Value) {
    let whole = factors[at].0.clone();
    let cut = source.between(0, whole.length());
    factors[at].0 = whole.part(0, cut);
    factors.insert(at + 1, (whole.part(cut, whole.length()), value));
}

/// Gives a variable the value of another one.
fn swap_values(source: &mut Source, answer: &mut Answer) -> Option<()> {
    let variables: Vec<u16> = answer.1.keys().copied().collect();
    if variables.len() < 2 {
        return None;
    }
    let one = source.below(variables.len());
    let other = (one + source.between(1, variables.len() - 1)) % variables.len();
    let value = answer.1[&variables[other]].clone();
    answer.1.insert(variables[one], value);
    Some(())
}
