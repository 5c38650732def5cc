//! What must hold of every listing, tried on random ones.

mod common;
use common::*;
use enumerator::answers::{paths, Restrictor};
use enumerator::graph::Graph;
use enumerator::joins::{answers, Answer};
use enumerator::meaning::assignments;
use enumerator::path::Path;
use enumerator::query::{self, alone, Query};
use enumerator::random::source::Source;
use enumerator::random::subjects;
use enumerator::typing::{type_words, Type};
use enumerator::value::Value;
use enumerator::{image, record};

/// Whether each edge of a path joins the nodes beside it.
fn in_graph(graph: &Graph, path: &Path) -> bool {
    path.nodes.iter().all(|node| (node.0 as usize) < graph.nodes.len())
        && path.edges.iter().enumerate().all(|(at, edge)| {
            let (ends, pair) = (graph.ends(*edge), (path.nodes[at], path.nodes[at + 1]));
            pair == (ends.first, ends.second) || pair == (ends.second, ends.first)
        })
}

/// Whether a value is of a type, and lies on the path it is bound on.
fn conforms(value: &Value, one: &Type, path: &Path) -> bool {
    match (value, one) {
        (Value::Node(node), Type::Node) => path.nodes.contains(node),
        (Value::Edge(edge), Type::Edge) => path.edges.contains(edge),
        (Value::Path(named), Type::Path) => named == path,
        (Value::Nothing, Type::Maybe(_)) => true,
        (value, Type::Maybe(inner)) => conforms(value, inner, path),
        (Value::Group(factors), Type::Group(inner)) => {
            let edges: Vec<_> = factors.iter().flat_map(|(factor, _)| factor.edges.clone()).collect();
            let one_piece = edges.is_empty() || path.edges.windows(edges.len()).any(|part| part == edges);
            one_piece && factors.iter().all(|(factor, value)| factor.length() > 0 && conforms(value, inner, factor))
        }
        _ => false,
    }
}

#[test]
fn answers_are_paths_of_the_graph_and_conform_to_the_schema() {
    let mut source = Source::new(9);
    let mut seen = 0;
    for _ in 0..600 {
        let subject = subjects::sound(&mut source);
        let graph = image::read(&subject.image).unwrap();
        let query = query::check(&subject.query).unwrap();
        for (paths, one) in all(&graph, &query) {
            assert_eq!(paths.len(), query.parts.len());
            assert!(one.keys().eq(query.types.keys()));
            for (path, part) in paths.iter().zip(&query.parts) {
                assert!(in_graph(&graph, path));
                assert!(if part.restrictor % 2 == 1 { path.is_trail() } else { path.is_simple() });
                // A variable of two parts lies on both paths.
                assert!(part.types.iter().all(|(variable, of)| conforms(&one[variable], of, path)), "{subject:?}");
            }
            seen += 1;
        }
    }
    assert!(seen > 1000, "{seen}");
}

fn all(graph: &Graph, query: &Query) -> std::collections::BTreeSet<Answer> {
    answers(graph, query, &query.restrictors().unwrap())
}

#[test]
fn records_rise_begin_no_other_and_read_back() {
    let mut source = Source::new(20);
    for _ in 0..600 {
        let (subject, listing) = subjects::fruitful(&mut source);
        for pair in listing.records.windows(2) {
            assert!(pair[0] < pair[1]);
            // In rising order a record that begins another begins the next one too.
            assert!(!pair[1].starts_with(&pair[0]), "{subject:?}");
        }
        for words in &listing.records {
            assert!(words.len() <= 20_000);
            let (answer, rest) = record::read(listing.parts, &listing.types, words).unwrap();
            assert!(rest.is_empty());
            assert_eq!(record::write(&answer), *words);
        }
        let all = listing.records.concat();
        let mut rest = &all[..];
        for words in &listing.records {
            let (answer, left) = record::read(listing.parts, &listing.types, rest).unwrap();
            assert_eq!(record::write(&answer), *words);
            rest = left;
        }
        assert!(rest.is_empty());
    }
}

#[test]
fn different_answers_have_different_records() {
    let mut source = Source::new(21);
    for _ in 0..300 {
        let (subject, listing) = subjects::fruitful(&mut source);
        let graph = image::read(&subject.image).unwrap();
        let query = query::check(&subject.query).unwrap();
        assert_eq!(all(&graph, &query).len(), listing.records.len());
    }
}

#[test]
fn leaving_out_paths_that_are_too_long_changes_nothing() {
    let mut source = Source::new(22);
    let mut bounded = 0;
    for _ in 0..300 {
        let subject = subjects::sound(&mut source);
        let graph = image::read(&subject.image).unwrap();
        let pattern = &query::check(&subject.query).unwrap().parts[0].pattern;
        let Some(longest) = pattern.longest() else { continue };
        let every = paths(&graph, Restrictor::Trail, usize::MAX);
        if every.len() > 5_000 {
            continue;
        }
        for path in every.iter().filter(|path| path.length() > longest && path.length() < 7) {
            assert!(assignments(&graph, pattern, path).is_empty(), "{subject:?}");
            bounded += 1;
        }
    }
    assert!(bounded > 1000, "{bounded}");
}

#[test]
fn trails_and_simple_paths_are_all_there() {
    // Three nodes joined all to all: 3 edgeless, 6 of one edge, 6 of two, 6 of three.
    let ring = image::read(&plain(3, &[[0, 1, 1], [1, 2, 0], [2, 0, 1]])).unwrap();
    let lengths = |restrictor| {
        let all = paths(&ring, restrictor, usize::MAX);
        [0, 1, 2, 3, 4].map(|length| all.iter().filter(|path| path.length() == length).count())
    };
    assert_eq!(lengths(Restrictor::Trail), [3, 6, 6, 6, 0]);
    assert_eq!(lengths(Restrictor::Simple), [3, 6, 6, 0, 0]);
    // One node with two loops: the node, each loop, and both in either order.
    let loops = image::read(&plain(1, &[[0, 0, 1], [0, 0, 0]])).unwrap();
    assert_eq!(paths(&loops, Restrictor::Trail, usize::MAX).len(), 5);
    assert_eq!(paths(&loops, Restrictor::Simple, usize::MAX).len(), 1);
}

/// Seven nodes and an edge, all eight variables, repeated once and then often.
fn widest(count: u16) -> Vec<[u16; 5]> {
    let mut rows: Vec<[u16; 5]> = vec![[2, 8, 0, 0, 0]];
    for variable in 1..=7 {
        let last = rows.len() as u16 - 1;
        rows.push([1, variable, 0, 0, 0]);
        rows.push([6, last + 1, last, 0, 0]);
    }
    rows.push([8, 14, 0, 1, 1]);
    rows.push([8, 15, 0, count, count]);
    rows
}

/// The most words a record of paths of `edges` edges can have: four paths, each of 8
/// variables a group of groups, every edge a factor of both, and four named paths.
fn most_words(edges: usize) -> usize {
    8 * (2 + 2 * edges) + 8 * (1 + edges * (4 + 1 + 4 + 1))
}

#[test]
fn the_longest_record_stays_under_20_000_words() {
    let count = 10;
    let line: Vec<[u16; 3]> = (0..count).map(|at| [at, at + 1, 1]).collect();
    let image = plain(count as usize + 1, &line);
    let rows = widest(count);
    let whole: &[[u16; 5]] = &[[2, 0, 0, 0, 0], [8, 0, 0, count, count]];
    let widest = query(&[(1, 12, whole), (2, 9, &rows), (3, 10, whole), (4, 11, whole)]);
    let types = query::check(&widest).unwrap().types;
    assert_eq!(type_words(&types)[42..], [[4, 4, 2, 0, 0, 0], [5, 0, 0, 0, 0, 0], [5, 0, 0, 0, 0, 0],
        [5, 0, 0, 0, 0, 0], [5, 0, 0, 0, 0, 0]].concat());
    let records = joined(&image, &widest);
    assert_eq!(records.len(), 1);
    assert_eq!(records[0].len(), most_words(10));
    assert_eq!(most_words(200), 19_224);
}

/// A part with no path name has the listing that its pattern and restrictor had.
#[test]
fn one_part_with_a_name_has_its_path_written_again() {
    let named = query(&[(1, 11, &[[2, 1, 0, 0, 0]])]);
    let path_then_value = |words: &Vec<u16>| [&words[..], &words[..4]].concat();
    let plain: Vec<Vec<u16>> = joined(&t(), &alone(1, &[2, 1, 0, 0, 0])).iter().map(path_then_value).collect();
    assert_eq!(joined(&t(), &named), plain);
}
