//! Patterns and conditions as trees, with the syntactic tests of 14 and 15.

use crate::refusal::Refusal;
use std::collections::BTreeSet;

pub type Variable = u16;

/// A pattern and the table row it stands in.
#[derive(Clone, PartialEq, Eq, Debug)]
pub struct Pattern {
    pub row: usize,
    pub form: Form,
}

#[derive(Clone, PartialEq, Eq, Debug)]
pub enum Form {
    Node { variable: Option<Variable>, label: Option<u16> },
    Edge { direction: Direction, variable: Option<Variable>, label: Option<u16> },
    Union(Box<Pattern>, Box<Pattern>),
    Concatenation(Box<Pattern>, Box<Pattern>),
    Conditioned(Box<Pattern>, Condition),
    /// No greatest count means no bound.
    Repetition { body: Box<Pattern>, least: u16, greatest: Option<u16> },
}

#[derive(Clone, Copy, PartialEq, Eq, Debug)]
pub enum Direction {
    Forward,
    Backward,
    Undirected,
}

#[derive(Clone, PartialEq, Eq, Debug)]
pub enum Condition {
    Constant { variable: Variable, key: u16, constant: u16 },
    Equal { left: (Variable, u16), right: (Variable, u16) },
    And(Box<Condition>, Box<Condition>),
    Or(Box<Condition>, Box<Condition>),
    Not(Box<Condition>),
}

impl Pattern {
    /// The patterns this one is built from.
    pub fn parts(&self) -> Vec<&Pattern> {
        match &self.form {
            Form::Node { .. } | Form::Edge { .. } => vec![],
            Form::Union(left, right) | Form::Concatenation(left, right) => vec![left, right],
            Form::Conditioned(part, _) => vec![part],
            Form::Repetition { body, .. } => vec![body],
        }
    }

    /// The variables that node and edge patterns bind. A well-typed condition adds none.
    pub fn variables(&self) -> BTreeSet<Variable> {
        match &self.form {
            Form::Node { variable, .. } | Form::Edge { variable, .. } => variable.iter().copied().collect(),
            _ => self.parts().iter().flat_map(|part| part.variables()).collect(),
        }
    }

    /// Whether the pattern can match without an edge, by its syntax alone.
    pub fn edgeless(&self) -> bool {
        match &self.form {
            Form::Node { .. } => true,
            Form::Edge { .. } => false,
            Form::Union(left, right) => left.edgeless() || right.edgeless(),
            Form::Concatenation(left, right) => left.edgeless() && right.edgeless(),
            Form::Conditioned(part, _) => part.edgeless(),
            Form::Repetition { least, .. } => *least == 0,
        }
    }

    /// How many repetitions lie around one another.
    pub fn depth(&self) -> usize {
        let inner = self.parts().iter().map(|part| part.depth()).max().unwrap_or(0);
        match &self.form {
            Form::Repetition { .. } => inner + 1,
            _ => inner,
        }
    }

    /// The most edges a match can have; none where there is no bound.
    pub fn longest(&self) -> Option<usize> {
        match &self.form {
            Form::Node { .. } => Some(0),
            Form::Edge { .. } => Some(1),
            Form::Union(left, right) => Some(left.longest()?.max(right.longest()?)),
            Form::Concatenation(left, right) => Some(left.longest()? + right.longest()?),
            Form::Conditioned(part, _) => part.longest(),
            Form::Repetition { body, greatest, .. } => Some(body.longest()? * (*greatest)? as usize),
        }
    }

    /// The lowest row of a pattern in the tree for which the test holds.
    fn lowest(&self, test: &dyn Fn(&Pattern) -> bool) -> Option<usize> {
        let here = test(self).then_some(self.row);
        self.parts().iter().filter_map(|part| part.lowest(test)).chain(here).min()
    }

    /// 14 over the whole table, then 15 over the whole table.
    pub fn refuse_repetitions(&self) -> Result<(), Refusal> {
        let edgeless_body = |pattern: &Pattern| match &pattern.form {
            Form::Repetition { body, .. } => body.edgeless(),
            _ => false,
        };
        let third = |pattern: &Pattern| match &pattern.form {
            Form::Repetition { .. } => pattern.depth() > 2,
            _ => false,
        };
        let refuse = |number, row: Option<usize>| row.map_or(Ok(()), |row| Err(Refusal::at(number, row)));
        refuse(14, self.lowest(&edgeless_body))?;
        refuse(15, self.lowest(&third))
    }
}

impl Condition {
    pub fn variables(&self) -> BTreeSet<Variable> {
        match self {
            Condition::Constant { variable, .. } => [*variable].into(),
            Condition::Equal { left, right } => [left.0, right.0].into(),
            Condition::And(left, right) | Condition::Or(left, right) => {
                left.variables().union(&right.variables()).copied().collect()
            }
            Condition::Not(inner) => inner.variables(),
        }
    }
}
