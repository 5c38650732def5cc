//! Random words of a query of every sort.

use super::source::Source;
use super::tables::{self, Named};
use super::{parts, query_faults};
use crate::query::{words, Part};

/// Mostly one part, its pattern of any sort, or several that fit together; then faults of
/// every number, alone and together.
pub fn any(source: &mut Source) -> Named {
    match source.below(20) {
        0..=6 => one_part(source),
        7..=10 => (String::from("sound"), words(&with_restrictors(source))),
        11..=15 => {
            let ways = query_faults::ways(source);
            (format!("{ways:?}"), query_faults::faulty(source, &ways).words)
        }
        16 | 17 => (String::from("word changed"), word_changed(source)),
        18 => (String::from("parts of any sort"), words(&of_any_sort(source))),
        _ => {
            let count = source.below(40);
            (String::from("noise"), (0..count).map(|_| source.below(6) as u16).collect())
        }
    }
}

fn one_part(source: &mut Source) -> Named {
    let (note, pattern) = tables::any(source);
    let name = source.pick(&[0, 0, 0, 9, 10, 11, 12]);
    (note, words(&[Part { restrictor: source.between(1, 4) as u16, name, pattern }]))
}

/// Parts that fit together, now and then with a restrictor that there is not: the checker looks at none.
fn with_restrictors(source: &mut Source) -> Vec<Part> {
    let mut parts = parts::sound(source);
    if source.one_in(3) {
        let at = source.below(parts.len());
        parts[at].restrictor = source.pick(&[0, 5, 65535]);
    }
    parts
}

/// Parts that were not made to fit together, each of any sort.
fn of_any_sort(source: &mut Source) -> Vec<Part> {
    let mut parts = parts::sound(source);
    for part in &mut parts {
        if source.one_in(2) {
            part.pattern = tables::any(source).1;
        }
    }
    parts
}

/// One number of a sound query is changed, mostly of its layout; it is often still sound.
fn word_changed(source: &mut Source) -> Vec<u16> {
    let parts = parts::sound(source);
    let mut query = words(&parts);
    let head = 1 + 3 * parts.len();
    let at = if source.one_in(2) { source.below(head) } else { source.below(query.len()) };
    query[at] = match source.below(4) {
        0 => source.word(),
        1 => query[at].wrapping_add(1),
        2 => query[at].wrapping_sub(1),
        _ => source.pick(&[0, 1, 4, 5, 8, 9, 12, 13, 65535]),
    };
    query
}
