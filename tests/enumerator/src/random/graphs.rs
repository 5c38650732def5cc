//! Random graphs, as the rows of their sections, and the images of such rows.

use super::source::Source;
use super::{KEYS, LABELS, VALUES};
use std::collections::{BTreeMap, BTreeSet};

/// The most rows of each section that a valid image has.
pub const MOST: [usize; 4] = [200, 200, 800, 2000];

/// The rows of nodes, edges, labels and properties.
#[derive(Clone, PartialEq, Eq, Debug)]
pub struct Draft {
    pub sections: [Vec<Vec<u16>>; 4],
}

impl Draft {
    pub fn image(&self) -> Vec<u8> {
        let bytes = |rows: &Vec<Vec<u16>>| rows.iter().flatten().flat_map(|word| word.to_le_bytes()).collect();
        assembled(&std::array::from_fn(|section| bytes(&self.sections[section])))
    }

    pub fn elements(&self) -> usize {
        self.sections[0].len() + self.sections[1].len()
    }
}

/// A directory that fits the sections, then the sections.
pub fn assembled(sections: &[Vec<u8>; 4]) -> Vec<u8> {
    let mut image = Vec::new();
    let mut offset = 16;
    for section in sections {
        image.extend((offset as u16).to_le_bytes());
        image.extend((section.len() as u16).to_le_bytes());
        offset += section.len();
    }
    image.extend(sections.concat());
    image
}

/// Small enough to walk: up to 6 nodes and 8 edges.
pub fn small(source: &mut Source) -> Draft {
    let nodes = source.below(7);
    let edges = source.below(9);
    with_counts(source, nodes, edges)
}

/// At least two rows in every section, so that each kind of damage finds a place.
pub fn rich(source: &mut Source) -> Draft {
    loop {
        let (nodes, edges) = (source.between(2, 6), source.between(2, 8));
        let draft = with_counts(source, nodes, edges);
        if draft.sections.iter().all(|rows| rows.len() >= 2) {
            return draft;
        }
    }
}

/// A chain or a ring with a few edges more: long walks, but few of them.
pub fn long(source: &mut Source) -> Draft {
    let nodes = source.between(5, 12);
    let mut draft = with_counts(source, nodes, 0);
    let count = nodes - source.below(2);
    draft.sections[1] = (0..count).map(|at| link(source, at % nodes, (at + 1) % nodes)).collect();
    draft
}

/// Every element has some of the keys that come with it and lacks others; the values are
/// those given. Some are tiny, for a prover that evaluates a call.
pub fn with_gaps(source: &mut Source, values: &[u16]) -> (Draft, &'static [u16]) {
    let (mut draft, keys) = match source.below(6) {
        0 => (long(source), &KEYS[..]),
        1 | 2 => (sized(source, 2, 2), &KEYS[1..3]),
        _ => (sized(source, 5, 9), &KEYS[..]),
    };
    let gaps = source.between(2, 4);
    let all = (0..draft.elements() as u16).flat_map(|element| keys.iter().map(move |&key| (element, key)));
    let present: Vec<(u16, u16)> = all.filter(|_| !source.one_in(gaps)).collect();
    draft.sections[3] = present.iter().map(|&(element, key)| vec![element, key, source.pick(values)]).collect();
    (draft, keys)
}

fn sized(source: &mut Source, most_nodes: usize, most_edges: usize) -> Draft {
    let (nodes, edges) = (source.between(1, most_nodes), source.between(1, most_edges));
    with_counts(source, nodes, edges)
}

/// A directed line with a few edges more, on which simple paths part and meet; its ends have the values 1 and 2 of the first key.
pub fn journey(source: &mut Source) -> Draft {
    let nodes = source.between(9, 11);
    let mut draft = line(nodes);
    for _ in 0..source.between(1, 4) {
        let (one, other) = (source.below(nodes), source.below(nodes));
        draft.sections[1].push(link(source, one, other));
    }
    draft.sections[3] = vec![vec![0, KEYS[0], 1], vec![nodes as u16 - 1, KEYS[0], 2]];
    draft
}

/// A directed line without labels and properties.
pub fn line(nodes: usize) -> Draft {
    let outer = (0..nodes as u16).map(|node| vec![node]).collect();
    let edges = (1..nodes as u16).map(|node| vec![node - 1, node, 1]).collect();
    Draft { sections: [outer, edges, vec![], vec![]] }
}

/// An edge row between two nodes, directed either way or undirected.
fn link(source: &mut Source, one: usize, other: usize) -> Vec<u16> {
    let (low, high) = (one.min(other) as u16, one.max(other) as u16);
    match source.below(6) {
        0 => vec![low, high, 0],
        1 => vec![other as u16, one as u16, 1],
        _ => vec![one as u16, other as u16, 1],
    }
}

/// Large, for the reader alone: at, near and sometimes one past the bounds.
pub fn large(source: &mut Source) -> Draft {
    let counts = MOST.map(|most| match source.below(12) {
        0 => most + 1,
        1..=3 => most,
        4 => most - 1,
        5 => 0,
        _ => source.between(1, most),
    });
    draft(source, counts)
}

fn with_counts(source: &mut Source, nodes: usize, edges: usize) -> Draft {
    let elements = nodes + if nodes == 0 { 0 } else { edges };
    let labels = source.below(elements + 3);
    // Enough of them that a condition is often known to be true or false.
    let properties = source.below(2 * elements + 1);
    draft(source, [nodes, edges, labels, properties])
}

/// Valid rows in the counts asked for, as far as the graph has room for them.
pub fn draft(source: &mut Source, counts: [usize; 4]) -> Draft {
    let nodes = rising(source, counts[0]);
    let edges = if counts[0] == 0 { Vec::new() } else { edge_rows(source, counts[0], counts[1]) };
    let elements = nodes.len() + edges.len();
    let labels = pairs(source, elements, counts[2], &LABELS);
    let pairs = pairs(source, elements, counts[3], &KEYS);
    let valued: BTreeMap<(u16, u16), u16> = pairs.iter().map(|&pair| (pair, source.pick(&VALUES))).collect();
    Draft {
        sections: [
            nodes.iter().map(|&outer| vec![outer]).collect(),
            edges,
            labels.iter().map(|&(element, label)| vec![element, label]).collect(),
            valued.iter().map(|(&(element, key), &value)| vec![element, key, value]).collect(),
        ],
    }
}

/// Strictly rising numbers.
fn rising(source: &mut Source, count: usize) -> Vec<u16> {
    let mut outer = source.below(5) as u16;
    (0..count)
        .map(|_| {
            outer += 1 + source.below(300) as u16;
            outer
        })
        .collect()
}

fn edge_rows(source: &mut Source, nodes: usize, count: usize) -> Vec<Vec<u16>> {
    (0..count)
        .map(|_| {
            let (one, other) = (source.below(nodes), source.below(nodes));
            match source.one_in(3) {
                true => vec![one.min(other) as u16, one.max(other) as u16, 0],
                false => vec![one as u16, other as u16, 1],
            }
        })
        .collect()
}

/// Different pairs of an element and a number: first the common numbers, then, where
/// these do not suffice, others.
fn pairs(source: &mut Source, elements: usize, count: usize, common: &[u16]) -> BTreeSet<(u16, u16)> {
    let mut found = BTreeSet::new();
    while elements > 0 && found.len() < count {
        let element = source.below(elements) as u16;
        let number = if count > elements * 2 { 1 + source.below(4000) as u16 } else { source.pick(common) };
        found.insert((element, number));
    }
    found
}
