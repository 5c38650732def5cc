//! What a listing keeps fixed, drawn at random: image and query.

use super::cost::affordable;
use super::source::Source;
use super::{damage, graphs, parts, queries, query_faults, KEYS};
use crate::image;
use crate::joins::{of_part, Answer};
use crate::listing::Listing;
use crate::query::{self, words, Part};
use crate::record::{self, Record};

#[derive(Clone, Debug)]
pub struct Subject {
    pub image: Vec<u8>,
    pub query: Vec<u16>,
}

impl Subject {
    pub fn listing(&self) -> Listing {
        Listing::new(&self.image, &self.query)
    }

    pub fn affordable(&self) -> bool {
        affordable(&self.image, &self.query)
    }
}

/// Nothing fixed gives cause for a refusal, and the listing is cheap. Cases that cost
/// too much are thrown away and drawn again.
pub fn sound(source: &mut Source) -> Subject {
    loop {
        let draft = if source.one_in(5) { graphs::long(source) } else { graphs::small(source) };
        let subject = Subject { image: draft.image(), query: words(&parts::sound(source)) };
        if subject.affordable() {
            return subject;
        }
    }
}

/// Long paths from one node to another, each given by a property; mostly simple ones, and
/// now and then beside a second part that starts where they end.
pub fn journey(source: &mut Source) -> Subject {
    let rows = [
        [1, 1, 0, 0, 0],
        [2, 0, 0, 0, 0],
        [8, 1, 0, 1, 65535],
        [6, 0, 2, 0, 0],
        [1, 2, 0, 0, 0],
        [6, 3, 4, 0, 0],
        [16, 1, KEYS[0], 1, 0],
        [16, 2, KEYS[0], 2, 0],
        [18, 6, 7, 0, 0],
        [7, 5, 8, 0, 0],
    ];
    let onward = [[1, 2, 0, 0, 0], [3, 0, 0, 0, 0], [8, 1, 0, 0, 65535], [6, 0, 2, 0, 0]];
    loop {
        let image = graphs::journey(source).image();
        let restrictor = if source.one_in(4) { source.between(1, 4) as u16 } else { 2 };
        let mut parts = vec![Part { restrictor, name: source.pick(&[0, 9]), pattern: rows.concat() }];
        if source.one_in(3) {
            parts.push(Part { restrictor, name: source.pick(&[0, 10]), pattern: onward.concat() });
        }
        let subject = Subject { image, query: words(&parts) };
        if subject.affordable() {
            return subject;
        }
    }
}

/// Hundreds of short records: each node beside each node. The image is too large for a
/// prover that evaluates calls on small ones.
fn crowd(source: &mut Source) -> Subject {
    let nodes = source.between(17, 30);
    let image = graphs::draft(source, [nodes, 10, 10, 0]).image();
    let restrictors = [source.between(1, 4), source.between(1, 4)];
    let node = |restrictor| Part { restrictor: restrictor as u16, name: 0, pattern: vec![1, 0, 0, 0, 0] };
    Subject { image, query: words(&restrictors.map(node)) }
}

/// As `any`, and now and then a crowd, so that a page's count may be more than a byte.
pub fn for_pages(source: &mut Source) -> Subject {
    if source.one_in(40) { crowd(source) } else { any(source) }
}

/// As `sound`, and the listing has records.
pub fn fruitful(source: &mut Source) -> (Subject, Listing) {
    loop {
        let subject = sound(source);
        let listing = subject.listing();
        if !listing.records.is_empty() {
            return (subject, listing);
        }
    }
}

/// Mostly sound; sometimes one or more of the fixed things gives cause for a refusal.
pub fn any(source: &mut Source) -> Subject {
    loop {
        let mut subject = if source.one_in(4) { sound(source) } else { fruitful(source).0 };
        if source.one_in(16) {
            let way = source.pick(&damage::ALL);
            subject.image = damage::damaged(source, way).0;
        }
        match source.below(32) {
            0 | 1 => subject.query = queries::any(source).1,
            2 => {
                let ways = query_faults::ways(source);
                subject.query = query_faults::faulty(source, &ways).words;
            }
            _ => {}
        }
        if source.one_in(16) {
            subject.query = changed(&subject.query, |parts| {
                let at = source.below(parts.len());
                parts[at].restrictor = source.pick(&[0, 5, 6, 256, 257, 65535]);
            });
        }
        if subject.affordable() {
            return subject;
        }
    }
}

/// The query with its parts changed; as it is where it has none.
fn changed(query: &[u16], change: impl FnOnce(&mut Vec<Part>)) -> Vec<u16> {
    let Some(mut parts) = query::parts(query) else { return query.to_vec() };
    change(&mut parts);
    words(&parts)
}

/// A record of the same query with another restrictor at one part: a match that goes
/// over an edge or a node twice, or is not the shortest, unless it is an answer here too.
pub fn of_another_restrictor(source: &mut Source, subject: &Subject) -> Option<Record> {
    let query = changed(&subject.query, |parts| {
        let at = source.below(parts.len());
        parts[at].restrictor = source.between(1, 4) as u16;
    });
    of_another(source, subject, query)
}

/// A record of the same parts in another order.
pub fn of_another_order(source: &mut Source, subject: &Subject) -> Option<Record> {
    let query = changed(&subject.query, |parts| parts.rotate_left(1));
    of_another(source, subject, query)
}

fn of_another(source: &mut Source, subject: &Subject, query: Vec<u16>) -> Option<Record> {
    let other = Subject { query, ..subject.clone() };
    if other.query == subject.query || !other.affordable() {
        return None;
    }
    let records = other.listing().records;
    (!records.is_empty()).then(|| source.pick(&records))
}

/// An answer of each part side by side, whether they unify or not: of two values of a
/// variable the later part's counts.
pub fn side_by_side(source: &mut Source, subject: &Subject) -> Option<Record> {
    let (graph, query) = (image::read(&subject.image).ok()?, query::check(&subject.query).ok()?);
    let mut both: Answer = Default::default();
    for (part, restrictor) in query.parts.iter().zip(query.restrictors()?) {
        let answers: Vec<Answer> = of_part(&graph, part, restrictor).into_iter().collect();
        if answers.is_empty() {
            return None;
        }
        let (paths, one) = source.pick(&answers);
        both.0.extend(paths);
        both.1.extend(one);
    }
    (query.parts.len() > 1).then(|| record::write(&both))
}
