//! Queries (02, Q-1): one to four parts, each a pattern with its restrictor and a path
//! name. Refusals 31, 32 and 33 beside 11 to 16 of each part.

use crate::answers::Restrictor;
use crate::pattern::{Pattern, Variable};
use crate::refusal::Refusal;
use crate::typing::{self, Type, Types};

/// A part as it is lent; name 0 is none.
#[derive(Clone, PartialEq, Eq, Debug)]
pub struct Part {
    pub restrictor: u16,
    pub name: u16,
    pub pattern: Vec<u16>,
}

/// A part whose pattern nothing gives cause to refuse.
#[derive(Clone, PartialEq, Eq, Debug)]
pub struct Checked {
    pub restrictor: u16,
    pub name: Option<Variable>,
    pub pattern: Pattern,
    /// The path name's type among them.
    pub types: Types,
}

#[derive(Clone, PartialEq, Eq, Debug)]
pub struct Query {
    pub parts: Vec<Checked>,
    pub types: Types,
}

/// All of the checker's causes but 17: 31, 32, 11 to 16 of each part in turn, 33.
pub fn check(words: &[u16]) -> Result<Query, Refusal> {
    let parts = parts(words).ok_or(Refusal::of(31))?;
    if misnamed(&parts) {
        return Err(Refusal::of(32));
    }
    let parts = parts.iter().map(checked).collect::<Result<Vec<Checked>, Refusal>>()?;
    let types = joined_types(&parts).ok_or(Refusal::of(33))?;
    Ok(Query { parts, types })
}

/// The parts, if the words are laid out as such: the number of parts, for each its
/// restrictor, path name and pattern length, then the patterns and nothing more.
pub fn parts(words: &[u16]) -> Option<Vec<Part>> {
    let (count, rest) = words.split_first()?;
    if !(1..=4).contains(count) {
        return None;
    }
    let (heads, mut patterns) = rest.split_at_checked(3 * *count as usize)?;
    let mut parts = Vec::new();
    for head in heads.chunks(3) {
        let (pattern, later) = patterns.split_at_checked(head[2] as usize)?;
        parts.push(Part { restrictor: head[0], name: head[1], pattern: pattern.to_vec() });
        patterns = later;
    }
    patterns.is_empty().then_some(parts)
}

/// The words of parts, whatever their number.
pub fn words(parts: &[Part]) -> Vec<u16> {
    let mut words = vec![parts.len() as u16];
    for part in parts {
        words.extend([part.restrictor, part.name, part.pattern.len() as u16]);
    }
    words.extend(parts.iter().flat_map(|part| &part.pattern));
    words
}

/// One part with no path name.
pub fn alone(restrictor: u16, pattern: &[u16]) -> Vec<u16> {
    words(&[Part { restrictor, name: 0, pattern: pattern.to_vec() }])
}

/// A name outside 0 and 9 to 12, or one of 9 to 12 used twice.
fn misnamed(parts: &[Part]) -> bool {
    let names: Vec<u16> = parts.iter().map(|part| part.name).filter(|&name| name != 0).collect();
    let outside = names.iter().any(|name| !(9..=12).contains(name));
    outside || (0..names.len()).any(|at| names[..at].contains(&names[at]))
}

fn checked(part: &Part) -> Result<Checked, Refusal> {
    let (pattern, mut types) = typing::check(&part.pattern)?;
    let name = (part.name != 0).then_some(part.name);
    types.extend(name.map(|name| (name, Type::Path)));
    Ok(Checked { restrictor: part.restrictor, name, pattern, types })
}

/// The schema of the join, if each variable of two parts is Node in both or Edge in both.
fn joined_types(parts: &[Checked]) -> Option<Types> {
    parts.iter().try_fold(Types::new(), |types, part| typing::joined(types, part.types.clone()))
}

impl Query {
    /// The restrictor of each part, or nothing if one is outside 1 to 4.
    pub fn restrictors(&self) -> Option<Vec<Restrictor>> {
        self.parts.iter().map(|part| Restrictor::of(part.restrictor)).collect()
    }
}
