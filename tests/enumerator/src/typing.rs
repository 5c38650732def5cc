//! The typing rules of the paper's Figure 2.

use crate::pattern::{Condition, Form, Pattern, Variable};
use crate::refusal::Refusal;
use crate::table;
use std::collections::BTreeMap;

#[derive(Clone, PartialEq, Eq, Debug)]
pub enum Type {
    Node,
    Edge,
    Path,
    Maybe(Box<Type>),
    Group(Box<Type>),
}

/// The schema: the type of each variable present.
pub type Types = BTreeMap<Variable, Type>;

/// Six for each of the variables 1 to 8 and the path names 9 to 12.
pub const TYPE_WORDS: usize = 72;

/// The causes that one part's pattern may give: 11 to 15 from the table, then 16.
pub fn check(words: &[u16]) -> Result<(Pattern, Types), Refusal> {
    let pattern = table::read(words)?;
    let types = types(&pattern).map_err(|row| Refusal::at(16, row))?;
    Ok((pattern, types))
}

/// The schema, or the lowest row that has no type.
pub fn types(pattern: &Pattern) -> Result<Types, usize> {
    let faulty = Err(pattern.row);
    match &pattern.form {
        Form::Node { variable, .. } => Ok(variable.iter().map(|&v| (v, Type::Node)).collect()),
        Form::Edge { variable, .. } => Ok(variable.iter().map(|&v| (v, Type::Edge)).collect()),
        Form::Union(left, right) => {
            let (left, right) = both(types(left), types(right))?;
            union(left, right).map_or(faulty, Ok)
        }
        Form::Concatenation(left, right) => {
            let (left, right) = both(types(left), types(right))?;
            joined(left, right).map_or(faulty, Ok)
        }
        Form::Conditioned(part, condition) => {
            let types = types(part)?;
            if typed(condition, &types) { Ok(types) } else { faulty }
        }
        Form::Repetition { body, .. } => {
            Ok(types(body)?.into_iter().map(|(v, t)| (v, Type::Group(Box::new(t)))).collect())
        }
    }
}

/// Of two faults the lower row counts.
fn both(left: Result<Types, usize>, right: Result<Types, usize>) -> Result<(Types, Types), usize> {
    match (left, right) {
        (Ok(left), Ok(right)) => Ok((left, right)),
        (Err(left), Err(right)) => Err(left.min(right)),
        (Err(row), Ok(_)) | (Ok(_), Err(row)) => Err(row),
    }
}

/// `τ?` of the paper: Maybe of Maybe is never formed.
fn maybe(inner: Type) -> Type {
    match inner {
        Type::Maybe(_) => inner,
        _ => Type::Maybe(Box::new(inner)),
    }
}

fn is_maybe_of(outer: &Type, inner: &Type) -> bool {
    matches!(outer, Type::Maybe(held) if **held == *inner)
}

fn union(left: Types, right: Types) -> Option<Types> {
    let mut joined = Types::new();
    for (variable, one) in &left {
        let joint = match right.get(variable) {
            None => maybe(one.clone()),
            Some(other) if one == other => one.clone(),
            Some(other) if is_maybe_of(other, one) => other.clone(),
            Some(other) if is_maybe_of(one, other) => one.clone(),
            Some(_) => return None,
        };
        joined.insert(*variable, joint);
    }
    for (variable, other) in right {
        joined.entry(variable).or_insert(maybe(other));
    }
    Some(joined)
}

/// The rule of concatenations, and of joins: a variable of both is Node in both or Edge in both.
pub fn joined(left: Types, right: Types) -> Option<Types> {
    let mut joined = left;
    for (variable, other) in right {
        match joined.get(&variable) {
            Some(one) if *one != other || !is_singleton(one) => return None,
            _ => joined.insert(variable, other),
        };
    }
    Some(joined)
}

fn is_singleton(one: &Type) -> bool {
    matches!(one, Type::Node | Type::Edge)
}

/// A condition may name only variables that its pattern types Node or Edge.
fn typed(condition: &Condition, types: &Types) -> bool {
    condition.variables().iter().all(|variable| types.get(variable).is_some_and(is_singleton))
}

impl Type {
    /// The numbers of a type, without padding.
    pub fn numbers(&self) -> Vec<u16> {
        match self {
            Type::Node => vec![1],
            Type::Edge => vec![2],
            Type::Path => vec![5],
            Type::Maybe(inner) => [vec![3], inner.numbers()].concat(),
            Type::Group(inner) => [vec![4], inner.numbers()].concat(),
        }
    }
}

/// Six numbers for each variable and path name, variable 1 first, zeros where there is nothing.
pub fn type_words(types: &Types) -> [u16; TYPE_WORDS] {
    let mut words = [0; TYPE_WORDS];
    for (variable, one) in types {
        let start = (*variable as usize - 1) * 6;
        let numbers = one.numbers();
        words[start..start + numbers.len()].copy_from_slice(&numbers);
    }
    words
}
