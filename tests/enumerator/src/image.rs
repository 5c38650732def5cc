//! Reading a graph image: refusals 1 to 7 in their order, or the graph.

use crate::graph::{Ends, Graph, Node};
use crate::refusal::{refuse_lowest, Refusal};

/// Bytes of a row, and the most rows, for nodes, edges, labels and properties.
const WIDTHS: [usize; 4] = [2, 6, 4, 6];
const MOST: [usize; 4] = [200, 200, 800, 2000];

type Rows = Vec<Vec<u16>>;

pub fn read(image: &[u8]) -> Result<Graph, Refusal> {
    if image.len() < 16 {
        return Err(Refusal::of(1));
    }
    let [nodes, edges, labels, properties] = sections(image)?;
    let counts = [nodes.len(), edges.len(), labels.len(), properties.len()];
    if (0..4).any(|section| counts[section] > MOST[section]) {
        return Err(Refusal::of(3));
    }
    let elements = nodes.len() + edges.len();
    refuse_lowest(4, counts[0], |row| out_of_order(&nodes, row, 1))?;
    refuse_lowest(5, counts[1], |row| faulty_edge(&edges[row], nodes.len()))?;
    refuse_lowest(6, counts[2], |row| {
        labels[row][0] as usize >= elements || labels[row][1] == 0 || out_of_order(&labels, row, 2)
    })?;
    refuse_lowest(7, counts[3], |row| {
        properties[row][0] as usize >= elements || out_of_order(&properties, row, 2)
    })?;
    Ok(graph(&nodes, &edges, &labels, &properties))
}

/// Reads the directory and parts the image into rows of numbers. Offsets and lengths
/// are added as whole numbers, so nothing wraps at 65,536.
fn sections(image: &[u8]) -> Result<[Rows; 4], Refusal> {
    let directory = words(&image[..16]);
    let mut end = 16;
    let mut rows = [Vec::new(), Vec::new(), Vec::new(), Vec::new()];
    for section in 0..4 {
        let (offset, length) = (directory[2 * section] as usize, directory[2 * section + 1] as usize);
        if offset != end || length % WIDTHS[section] != 0 || offset + length > image.len() {
            return Err(Refusal::of(2));
        }
        end = offset + length;
        rows[section] = image[offset..end].chunks(WIDTHS[section]).map(words).collect();
    }
    if end != image.len() {
        return Err(Refusal::of(2));
    }
    Ok(rows)
}

/// 16-bit numbers, low byte first.
fn words(bytes: &[u8]) -> Vec<u16> {
    bytes.chunks_exact(2).map(|pair| u16::from_le_bytes([pair[0], pair[1]])).collect()
}

/// Whether the first `keys` numbers of a row fail to rise strictly from the row before.
fn out_of_order(rows: &[Vec<u16>], row: usize, keys: usize) -> bool {
    row > 0 && rows[row][..keys] <= rows[row - 1][..keys]
}

fn faulty_edge(row: &[u16], nodes: usize) -> bool {
    let (first, second, direction) = (row[0], row[1], row[2]);
    first as usize >= nodes
        || second as usize >= nodes
        || direction > 1
        || (direction == 0 && first > second)
}

fn graph(nodes: &Rows, edges: &Rows, labels: &Rows, properties: &Rows) -> Graph {
    let ends = |row: &Vec<u16>| Ends { first: Node(row[0]), second: Node(row[1]), directed: row[2] == 1 };
    Graph {
        nodes: nodes.iter().map(|row| row[0]).collect(),
        edges: edges.iter().map(ends).collect(),
        labels: labels.iter().map(|row| (row[0], row[1])).collect(),
        properties: properties.iter().map(|row| ((row[0], row[1]), row[2])).collect(),
    }
}
