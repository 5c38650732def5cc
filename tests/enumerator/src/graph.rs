//! A property graph as the image gives it. Node 5 and edge 5 are different things,
//! so each sort of number has a type of its own.

use std::collections::{BTreeMap, BTreeSet};

#[derive(Clone, Copy, PartialEq, Eq, PartialOrd, Ord, Debug)]
pub struct Node(pub u16);

#[derive(Clone, Copy, PartialEq, Eq, PartialOrd, Ord, Debug)]
pub struct Edge(pub u16);

#[derive(Clone, Copy, PartialEq, Eq, Debug)]
pub struct Ends {
    pub first: Node,
    pub second: Node,
    pub directed: bool,
}

#[derive(Clone, Copy, PartialEq, Eq, Debug)]
pub enum Element {
    Node(Node),
    Edge(Edge),
}

#[derive(Clone, PartialEq, Eq, Debug)]
pub struct Graph {
    /// The outer number of each node.
    pub nodes: Vec<u16>,
    pub edges: Vec<Ends>,
    /// Pairs of element number and label.
    pub labels: BTreeSet<(u16, u16)>,
    /// From element number and key to value.
    pub properties: BTreeMap<(u16, u16), u16>,
}

impl Graph {
    pub fn ends(&self, edge: Edge) -> Ends {
        self.edges[edge.0 as usize]
    }

    /// Nodes come first in the numbering of elements, then edges.
    pub fn element_number(&self, element: Element) -> u16 {
        match element {
            Element::Node(node) => node.0,
            Element::Edge(edge) => self.nodes.len() as u16 + edge.0,
        }
    }

    /// A label that is absent from the pattern asks for nothing.
    pub fn carries(&self, element: Element, label: Option<u16>) -> bool {
        label.map_or(true, |label| self.labels.contains(&(self.element_number(element), label)))
    }

    pub fn property(&self, element: Element, key: u16) -> Option<u16> {
        self.properties.get(&(self.element_number(element), key)).copied()
    }
}
