//! Records: the words of an answer, and the answer that words stand for.

use crate::graph::{Edge, Node};
use crate::joins::Answer;
use crate::path::Path;
use crate::typing::{Type, Types};
use crate::value::{Assignment, Value};

pub type Record = Vec<u16>;

const NOTHING: u16 = 65535;

/// The paths in part order, then the values by rising variable, path names last. The order of records, word by word with a proper beginning first, is the order of
/// vectors of words.
pub fn write(answer: &Answer) -> Record {
    let (paths, assignment) = answer;
    let mut words: Record = paths.iter().flat_map(path_words).collect();
    for value in assignment.values() {
        words.extend(value_words(value));
    }
    words
}

fn path_words(path: &Path) -> Record {
    let mut words = vec![path.length() as u16, path.first().0];
    for (edge, node) in path.edges.iter().zip(&path.nodes[1..]) {
        words.extend([edge.0, node.0]);
    }
    words
}

fn value_words(value: &Value) -> Record {
    match value {
        Value::Node(node) => vec![node.0],
        Value::Edge(edge) => vec![edge.0],
        Value::Path(path) => path_words(path),
        Value::Nothing => vec![NOTHING],
        Value::Group(factors) => {
            let mut words = vec![factors.len() as u16];
            for (path, value) in factors {
                words.extend(path_words(path));
                words.extend(value_words(value));
            }
            words
        }
    }
}

/// The answer that the first words stand for, and the words left over. The number of
/// parts says how many paths there are, the types where each value ends.
pub fn read<'a>(parts: usize, types: &Types, words: &'a [u16]) -> Option<(Answer, &'a [u16])> {
    let (mut paths, mut rest) = (Vec::new(), words);
    for _ in 0..parts {
        let (path, left) = read_path(rest)?;
        paths.push(path);
        rest = left;
    }
    let mut assignment = Assignment::new();
    for (variable, one) in types {
        let (value, left) = read_value(one, rest)?;
        assignment.insert(*variable, value);
        rest = left;
    }
    Some(((paths, assignment), rest))
}

fn read_path(words: &[u16]) -> Option<(Path, &[u16])> {
    let (length, rest) = words.split_first()?;
    let (first, mut rest) = rest.split_first()?;
    let mut path = Path::of_node(Node(*first));
    for _ in 0..*length {
        let (step, left) = rest.split_at_checked(2)?;
        path = path.extended(Edge(step[0]), Node(step[1]));
        rest = left;
    }
    Some((path, rest))
}

fn read_value<'a>(one: &Type, words: &'a [u16]) -> Option<(Value, &'a [u16])> {
    let (first, rest) = words.split_first()?;
    match one {
        Type::Path => read_path(words).map(|(path, rest)| (Value::Path(path), rest)),
        Type::Node => Some((Value::Node(Node(*first)), rest)),
        Type::Edge => Some((Value::Edge(Edge(*first)), rest)),
        Type::Maybe(_) if *first == NOTHING => Some((Value::Nothing, rest)),
        Type::Maybe(inner) => read_value(inner, words),
        Type::Group(inner) => {
            let mut factors = Vec::new();
            let mut rest = rest;
            for _ in 0..*first {
                let (path, left) = read_path(rest)?;
                let (value, left) = read_value(inner, left)?;
                factors.push((path, value));
                rest = left;
            }
            Some((Value::Group(factors), rest))
        }
    }
}
