//! Paths: nodes and edges in turn, a node at both ends.

use crate::graph::{Edge, Graph, Node};

#[derive(Clone, PartialEq, Eq, PartialOrd, Ord, Debug)]
pub struct Path {
    /// One node more than edges.
    pub nodes: Vec<Node>,
    pub edges: Vec<Edge>,
}

impl Path {
    pub fn of_node(node: Node) -> Path {
        Path { nodes: vec![node], edges: Vec::new() }
    }

    /// The number of edges.
    pub fn length(&self) -> usize {
        self.edges.len()
    }

    pub fn first(&self) -> Node {
        self.nodes[0]
    }

    pub fn last(&self) -> Node {
        self.nodes[self.length()]
    }

    /// The part between the nodes at two places.
    pub fn part(&self, from: usize, to: usize) -> Path {
        Path { nodes: self.nodes[from..=to].to_vec(), edges: self.edges[from..to].to_vec() }
    }

    pub fn extended(&self, edge: Edge, node: Node) -> Path {
        let mut longer = self.clone();
        longer.edges.push(edge);
        longer.nodes.push(node);
        longer
    }

    pub fn is_trail(&self) -> bool {
        all_different(&self.edges)
    }

    pub fn is_simple(&self) -> bool {
        all_different(&self.nodes)
    }
}

/// Every step by one edge away from a node, whichever way the edge points: the
/// pattern decides later which way it wants. A loop is one step, not two.
pub fn steps(graph: &Graph, from: Node) -> Vec<(Edge, Node)> {
    let mut found = Vec::new();
    for (number, ends) in graph.edges.iter().enumerate() {
        let edge = Edge(number as u16);
        if ends.first == from {
            found.push((edge, ends.second));
        } else if ends.second == from {
            found.push((edge, ends.first));
        }
    }
    found
}

fn all_different<T: PartialEq>(items: &[T]) -> bool {
    (0..items.len()).all(|i| !items[..i].contains(&items[i]))
}
