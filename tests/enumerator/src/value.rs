//! Values and assignments.

use crate::graph::{Edge, Node};
use crate::path::Path;
use crate::pattern::Variable;
use std::collections::BTreeMap;

#[derive(Clone, PartialEq, Eq, PartialOrd, Ord, Debug)]
pub enum Value {
    Node(Node),
    Edge(Edge),
    Path(Path),
    Nothing,
    /// Each factor's path with the variable's value there, in walk order.
    Group(Vec<(Path, Value)>),
}

/// Ordered throughout, so that equal assignments of two derivations merge in a set.
pub type Assignment = BTreeMap<Variable, Value>;
