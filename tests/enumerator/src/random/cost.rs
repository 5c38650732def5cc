//! A cheap upper estimate of the work of a listing, so that no case blows up.

use crate::graph::{Edge, Graph, Node};
use crate::joins::{join, of_part};
use crate::path::steps;
use crate::pattern::{Form, Pattern};
use crate::query::{self, Query};
use crate::image;
use std::collections::BTreeSet;

/// The most steps that a case may take by the estimate.
const LIMIT: u64 = 60_000;
/// The most paths that a part may walk.
const MOST_PATHS: u64 = 6_000;
/// The most pairs of answers that the joins of a case may try.
const MOST_PAIRS: usize = 20_000;

/// Whether the listing is cheap enough. What is refused costs nothing.
pub fn affordable(image: &[u8], query: &[u16]) -> bool {
    let (Ok(graph), Ok(query)) = (image::read(image), query::check(query)) else { return true };
    if query.restrictors().is_none() {
        return true;
    }
    let total = query.parts.iter().try_fold(0u64, |sum, part| Some(sum.saturating_add(bound(&graph, &part.pattern)?)));
    total.is_some_and(|total| total <= LIMIT) && pairs(&graph, &query) <= MOST_PAIRS
}

/// At most so many steps for one part, or nothing if there are too many paths.
fn bound(graph: &Graph, pattern: &Pattern) -> Option<u64> {
    let longest = pattern.longest().unwrap_or(usize::MAX).min(graph.edges.len());
    let lengths = trail_lengths(graph, longest)?;
    let work = work(pattern, longest);
    Some(lengths.iter().zip(&work.steps).fold(0u64, |sum, (paths, steps)| {
        sum.saturating_add(paths.saturating_mul(*steps))
    }))
}

/// How many pairs of answers the joins try, one part after the other; counted no further
/// than over the bound. The parts themselves are affordable by then.
fn pairs(graph: &Graph, query: &Query) -> usize {
    let restrictors = query.restrictors().expect("looked at before");
    let mut joined = BTreeSet::from([(vec![], Default::default())]);
    let mut tried = 0;
    for (part, restrictor) in query.parts.iter().zip(restrictors) {
        let answers = of_part(graph, part, restrictor);
        tried += joined.len() * answers.len();
        if tried > MOST_PAIRS {
            break;
        }
        joined = join(&joined, &answers);
    }
    tried
}

/// How many trails there are of each length, or none if there are too many. Simple
/// paths are trails, so this bounds them as well.
fn trail_lengths(graph: &Graph, longest: usize) -> Option<Vec<u64>> {
    let mut lengths = vec![0; longest + 1];
    for node in 0..graph.nodes.len() {
        count(graph, Node(node as u16), &mut Vec::new(), &mut lengths)?;
    }
    Some(lengths)
}

fn count(graph: &Graph, at: Node, used: &mut Vec<Edge>, lengths: &mut [u64]) -> Option<()> {
    lengths[used.len()] += 1;
    if lengths.iter().sum::<u64>() > MOST_PATHS {
        return None;
    }
    if used.len() + 1 < lengths.len() {
        for (edge, node) in steps(graph, at) {
            if !used.contains(&edge) {
                used.push(edge);
                count(graph, node, used, lengths)?;
                used.pop();
            }
        }
    }
    Some(())
}

/// For a path of each length: at most so many derivations, and so many steps to find them.
struct Work {
    derivations: Vec<u64>,
    steps: Vec<u64>,
}

fn work(pattern: &Pattern, longest: usize) -> Work {
    let only = |length: usize| (0..=longest).map(|at| (at == length) as u64).collect();
    let parts: Vec<Work> = pattern.parts().into_iter().map(|part| work(part, longest)).collect();
    match &pattern.form {
        Form::Node { .. } => Work { derivations: only(0), steps: vec![1; longest + 1] },
        Form::Edge { .. } => Work { derivations: only(1), steps: vec![1; longest + 1] },
        Form::Union(..) => Work {
            derivations: added(&parts[0].derivations, &parts[1].derivations),
            steps: added(&parts[0].steps, &parts[1].steps),
        },
        Form::Concatenation(..) => concatenated(&parts[0], &parts[1], longest),
        Form::Conditioned(..) => parts.into_iter().next().expect("one part"),
        Form::Repetition { .. } => repeated(&parts[0], longest),
    }
}

fn added(one: &[u64], other: &[u64]) -> Vec<u64> {
    one.iter().zip(other).map(|(a, b)| a.saturating_add(*b)).collect()
}

fn concatenated(left: &Work, right: &Work, longest: usize) -> Work {
    let mut joint = Work { derivations: vec![0; longest + 1], steps: vec![1; longest + 1] };
    for length in 0..=longest {
        for cut in 0..=length {
            let both = left.derivations[cut].saturating_mul(right.derivations[length - cut]);
            let tried = left.steps[cut].saturating_add(right.steps[length - cut]);
            joint.derivations[length] = joint.derivations[length].saturating_add(both);
            joint.steps[length] = joint.steps[length].saturating_add(both).saturating_add(tried);
        }
    }
    joint
}

/// Counts are left out of the estimate: it is as if every count were allowed.
fn repeated(body: &Work, longest: usize) -> Work {
    let mut joint = Work { derivations: vec![0; longest + 1], steps: vec![1; longest + 1] };
    joint.derivations[0] = 1;
    for length in 1..=longest {
        for cut in 1..=length {
            let both = body.derivations[cut].saturating_mul(joint.derivations[length - cut]);
            let rest = if body.derivations[cut] > 0 { joint.steps[length - cut] } else { 0 };
            let tried = body.steps[cut].saturating_add(rest);
            joint.derivations[length] = joint.derivations[length].saturating_add(both);
            joint.steps[length] = joint.steps[length].saturating_add(both).saturating_add(tried);
        }
    }
    joint
}
