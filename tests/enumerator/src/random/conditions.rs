//! Queries whose conditions ask for properties that some elements have and others lack.

use super::parts::{after, direction, edge, of};
use super::patterns::{laid_out, repeated, with_condition, Terms};
use super::source::Source;
use super::subjects::Subject;
use super::{graphs, VALUES};
use crate::listing::Listing;
use crate::pattern::{Form, Pattern, Variable};
use crate::query::{self, words, Part};
use crate::record::Record;

/// A listing with conditions.
pub struct Conditioned {
    pub subject: Subject,
    pub listing: Listing,
    /// The records of the same query without conditions and without asking for the
    /// shortest: those that the conditions choose from.
    pub unconditioned: Vec<Record>,
}

/// The variables of a walk in their order; what comes after the last has none.
struct Names {
    nodes: &'static [Variable],
    edges: &'static [Variable],
}

const WHOLE: Names = Names { nodes: &[1, 2, 3], edges: &[5, 6] };
/// Two walks that share a node.
const FIRST: Names = Names { nodes: &[1, 2], edges: &[5] };
const SECOND: Names = Names { nodes: &[2, 3], edges: &[6] };
/// Those of a repetition's body are its own: beside it they would have no type.
const BODY: Names = Names { nodes: &[4], edges: &[7, 8] };

/// Mostly one part. What is refused or costs too much is drawn again, and mostly also
/// what leaves the conditions little choice, or of which they leave nothing.
pub fn any(source: &mut Source) -> Conditioned {
    loop {
        // Graph and conditions have the same two values, so that constants hit often.
        let values = [source.pick(&VALUES), source.pick(&VALUES)];
        let (draft, keys) = graphs::with_gaps(source, &values);
        let patterns = patterns(source, Terms { keys, values: &values });
        let bare: Vec<_> = patterns.iter().map(|(pattern, restrictor)| (bare(pattern), 2 - restrictor % 2)).collect();
        let subject = Subject { image: draft.image(), query: query(source, &patterns) };
        let bare = Subject { image: draft.image(), query: query(source, &bare) };
        // What conditions drop costs nothing more, so the bare query bounds the other.
        if query::check(&subject.query).is_err() || !bare.affordable() {
            continue;
        }
        let unconditioned = bare.listing().records;
        if unconditioned.len() <= source.below(12) && !source.one_in(16) {
            continue;
        }
        let listing = subject.listing();
        if !listing.records.is_empty() || source.one_in(2) {
            return Conditioned { subject, listing, unconditioned };
        }
    }
}

fn query(source: &mut Source, patterns: &[(Pattern, u16)]) -> Vec<u16> {
    let part = |(pattern, restrictor): &(Pattern, u16)| Part {
        restrictor: *restrictor,
        name: 0,
        pattern: laid_out(source, pattern).concat(),
    };
    words(&patterns.iter().map(part).collect::<Vec<_>>())
}

/// The pattern and the restrictor of each part. Of two parts none is large.
fn patterns(source: &mut Source, terms: Terms) -> Vec<(Pattern, u16)> {
    let count = if source.one_in(3) { 2 } else { 1 };
    let draw = |_| {
        let size = source.below(4 - count);
        let whole = stacked(source, terms, &WHOLE, size);
        let depth = source.pick(&[1, 2, 3, 4, 4]);
        (with_condition(source, whole, terms, depth), source.between(1, 4) as u16)
    };
    (0..count).map(draw).collect()
}

/// A pattern whose parts mostly have conditions of their own.
fn stacked(source: &mut Source, terms: Terms, names: &Names, size: usize) -> Pattern {
    let shape = if size == 0 { 0 } else { source.below(4) };
    let part = |source: &mut Source, names: &Names| {
        let part = stacked(source, terms, names, size - 1);
        perhaps_with_condition(source, terms, part)
    };
    match shape {
        0 => walk(source, names, 0),
        1 => around_repetition(source, terms, names),
        2 => {
            let (left, right) = (part(source, names), part(source, names));
            of(Form::Union(Box::new(left), Box::new(right)))
        }
        _ => after(part(source, &FIRST), part(source, &SECOND)),
    }
}

fn perhaps_with_condition(source: &mut Source, terms: Terms, part: Pattern) -> Pattern {
    match source.below(5) {
        depth @ 0..=2 => with_condition(source, part, terms, depth),
        _ => part,
    }
}

/// A repetition, now and then two deep, between two nodes, which a condition may compare
/// before what lies between them is known.
fn around_repetition(source: &mut Source, terms: Terms, names: &Names) -> Pattern {
    let body = walk(source, &BODY, 1);
    let mut body = perhaps_with_condition(source, terms, body);
    if source.one_in(5) {
        body = repeated(source, body, true);
    }
    let [first, last] = [0, 1].map(|at| node(Some(names.nodes[at])));
    after(after(first, repeated(source, body, false)), last)
}

/// Nodes and edges in turn, with at least so many edges and mostly more. A node beside an
/// edge may be left out.
fn walk(source: &mut Source, names: &Names, least: usize) -> Pattern {
    let most = names.edges.len();
    let count = source.between(least, most).max(source.between(least, most));
    let (mut nodes, mut edges) = (names.nodes.iter(), names.edges.iter());
    let mut elements = Vec::new();
    for at in 0..=count {
        if count == 0 || !source.one_in(3) {
            let next = nodes.next().copied();
            elements.push(node(perhaps_another(source, next, names.nodes)));
        }
        if at < count {
            let next = edges.next().copied();
            elements.push(edge(direction(source), perhaps_another(source, next, names.edges)));
        }
    }
    concatenated(source, &elements)
}

/// Now and then a variable that stands elsewhere too.
fn perhaps_another(source: &mut Source, variable: Option<Variable>, names: &[Variable]) -> Option<Variable> {
    if source.one_in(12) { Some(source.pick(names)) } else { variable }
}

fn node(variable: Option<Variable>) -> Pattern {
    of(Form::Node { variable, label: None })
}

/// The elements one after another, bracketed at random.
fn concatenated(source: &mut Source, elements: &[Pattern]) -> Pattern {
    if let [only] = elements {
        return only.clone();
    }
    let (left, right) = elements.split_at(source.between(1, elements.len() - 1));
    after(concatenated(source, left), concatenated(source, right))
}

/// The pattern with its conditions left out.
fn bare(pattern: &Pattern) -> Pattern {
    let part = |part: &Pattern| Box::new(bare(part));
    of(match &pattern.form {
        Form::Conditioned(part, _) => return bare(part),
        Form::Union(left, right) => Form::Union(part(left), part(right)),
        Form::Concatenation(left, right) => Form::Concatenation(part(left), part(right)),
        Form::Repetition { body, least, greatest } => {
            Form::Repetition { body: part(body), least: *least, greatest: *greatest }
        }
        Form::Node { .. } | Form::Edge { .. } => pattern.form.clone(),
    })
}
