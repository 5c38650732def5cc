//! Lent memory of random lengths, with contents that show what a call has written.

use super::sittings;
use super::source::Source;
use crate::machine::Lent;
use crate::operations::fitting;
use crate::record::Record;

/// Mostly one word over and over, so that dumps stay short; now and then all random.
fn guard_words(source: &mut Source, length: usize) -> Vec<u16> {
    if length < 64 || source.one_in(50) {
        return source.words(length);
    }
    let filler = source.word() | 1;
    let mut words = vec![filler; length];
    for _ in 0..6 {
        let at = source.below(length);
        words[at] = source.word();
    }
    words
}

/// Usually enough for the eight numbers.
pub fn report(source: &mut Source) -> Vec<u8> {
    let length = match source.below(40) {
        0 => source.below(64),
        1 => 63,
        2 => 0,
        3..=8 => source.between(65, 80),
        _ => 64,
    };
    source.bytes(length)
}

/// Usually enough for the 72 words.
pub fn types(source: &mut Source) -> Vec<u16> {
    let length = match source.below(30) {
        0 => source.below(72),
        1 => 71,
        2 => 0,
        3 | 4 => 73,
        5 | 6 => source.between(74, 90),
        _ => 72,
    };
    source.words(length)
}

/// Usually enough for the work of a listing.
pub fn work(source: &mut Source) -> Vec<u16> {
    let length = match source.below(40) {
        0 => source.below(20_000),
        1 => 19_999,
        2 => 0,
        3..=15 => source.between(20_001, 20_010),
        _ => 20_000,
    };
    guard_words(source, length)
}

/// Around the length of the record that comes next, of a few records, or anything.
fn page(source: &mut Source, next: usize) -> Vec<u16> {
    let length = match source.below(10) {
        0 => next.saturating_sub(1),
        1 => next,
        2 => next + 1,
        3 => source.below(next + 1),
        4..=6 => next + source.below(3 * next + 1),
        7 => source.below(60),
        8 => source.between(100, 2_000),
        _ => 0,
    };
    guard_words(source, length)
}

/// All that a call to fill a page is lent but the bookmark, which these records come after.
/// Where hundreds of them are left, half of the pages are for all.
pub fn lent(source: &mut Source, later: &[Record]) -> Lent {
    if later.len() > 255 && source.one_in(2) {
        return lent_for_all(source, later);
    }
    let next = later.first().map_or(5, Vec::len);
    let page = page(source, next);
    lent_with(source, page, later)
}

/// The same with a page for several lengths of a listing, or so wide that the bookmark's own length is read from a trie.
pub fn lent_widely(source: &mut Source, later: &[Record]) -> Lent {
    let length = if source.one_in(3) { source.between(16_384, 17_000) } else { source.between(500, 3_000) };
    let page = guard_words(source, length);
    lent_with(source, page, later)
}

/// The same with a page for all of these records, one word less, or a few more.
pub fn lent_for_all(source: &mut Source, later: &[Record]) -> Lent {
    let all: usize = later.iter().map(Vec::len).sum();
    let length = (all + source.below(6)).saturating_sub(1);
    let page = guard_words(source, length);
    lent_with(source, page, later)
}

/// The sitting goes by how many of the records the page takes.
fn lent_with(source: &mut Source, page: Vec<u16>, later: &[Record]) -> Lent {
    let sitting = sittings::any(source, fitting(later, page.len()));
    Lent { sitting, page, work: work(source), report: report(source) }
}
