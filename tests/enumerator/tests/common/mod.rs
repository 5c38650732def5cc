//! What the tests share: the graph T, the pattern P, and short ways to make calls.
#![allow(dead_code)]

pub mod read;

use enumerator::listing::Listing;
use enumerator::operations::{numbers, Numbers};
use enumerator::query::{alone, words, Part};

/// The word that fills lent memory before a call.
pub const GUARD: u16 = 0xa5c3;

pub const P: [u16; 10] = [2, 1, 0, 0, 0, 8, 0, 0, 1, 65535];

/// The image of T, number by number.
pub fn t() -> Vec<u8> {
    let words = [16, 6, 22, 18, 40, 0, 40, 0, 10, 20, 30, 0, 1, 1, 1, 2, 1, 0, 2, 0];
    bytes(&words)
}

pub fn bytes(words: &[u16]) -> Vec<u8> {
    words.iter().flat_map(|word| word.to_le_bytes()).collect()
}

/// An image with a directory that fits.
pub fn image(nodes: &[u16], edges: &[[u16; 3]], labels: &[[u16; 2]], properties: &[[u16; 3]]) -> Vec<u8> {
    let lengths = [2 * nodes.len(), 6 * edges.len(), 4 * labels.len(), 6 * properties.len()];
    let mut words = Vec::new();
    let mut offset = 16;
    for length in lengths {
        words.extend([offset as u16, length as u16]);
        offset += length;
    }
    words.extend(nodes);
    words.extend(edges.concat());
    words.extend(labels.concat());
    words.extend(properties.concat());
    bytes(&words)
}

pub fn plain(nodes: usize, edges: &[[u16; 3]]) -> Vec<u8> {
    let outer: Vec<u16> = (0..nodes as u16).collect();
    image(&outer, edges, &[], &[])
}

/// The records of a listing that nothing gives cause to refuse.
pub fn records(image: &[u8], rows: &[[u16; 5]], restrictor: u16) -> Vec<Vec<u16>> {
    joined(image, &alone(restrictor, &rows.concat()))
}

/// The same of a query's words.
pub fn joined(image: &[u8], query: &[u16]) -> Vec<Vec<u16>> {
    let listing = Listing::new(image, query);
    assert_eq!(listing.cause, None);
    listing.records
}

/// The words of a query: for each part its restrictor, its path name and its rows.
pub fn query(parts: &[(u16, u16, &[[u16; 5]])]) -> Vec<u16> {
    let part = |(restrictor, name, rows): &(u16, u16, &[[u16; 5]])| Part {
        restrictor: *restrictor,
        name: *name,
        pattern: rows.concat(),
    };
    words(&parts.iter().map(part).collect::<Vec<_>>())
}

/// The number and row by which the fixed things are refused; zeros if they are not.
pub fn cause(image: &[u8], query: &[u16]) -> (u64, u64) {
    let listing = Listing::new(image, query);
    listing.cause.map_or((0, 0), |cause| (cause.number, cause.row))
}

/// The number and row of the checker alone, for one part.
pub fn checked(rows: &[[u16; 5]]) -> (u64, u64) {
    checked_words(&rows.concat())
}

pub fn checked_words(words: &[u16]) -> (u64, u64) {
    checked_query(&alone(1, words))
}

/// The same for a query's words.
pub fn checked_query(words: &[u16]) -> (u64, u64) {
    let (mut types, mut report) = ([GUARD; 72], [0xee; 64]);
    assert_eq!(enumerator::operations::check_query(words, &mut types, &mut report), 1);
    let told = numbers(&report);
    assert_eq!(told[2..], [0; 6]);
    if told[0] != 0 {
        assert_eq!(types, [0; 72]);
    }
    (told[0], told[1])
}

/// The number and row of the reader alone.
pub fn read(image: &[u8]) -> (u64, u64) {
    let mut report = [0xee; 64];
    assert_eq!(enumerator::operations::read_image(image, &mut report), 1);
    let told = numbers(&report);
    assert_eq!(told[2..], [0; 6]);
    (told[0], told[1])
}

pub struct Filled {
    pub told: Numbers,
    pub page: Vec<u16>,
    pub work: Vec<u16>,
}

/// One page call with guarded memory and a fresh sitting; the work buffer has three words to spare.
pub fn fill(image: &[u8], pattern: &[u16], restrictor: u16, bookmark: &[u16], page_words: usize) -> Filled {
    fill_joined(image, &alone(restrictor, pattern), bookmark, page_words)
}

/// The same of a query's words.
pub fn fill_joined(image: &[u8], query: &[u16], bookmark: &[u16], page_words: usize) -> Filled {
    let (mut page, mut work, mut report) = (vec![GUARD; page_words], vec![GUARD; 20_003], vec![0xee; 70]);
    let mut sitting = [0; 4];
    let result =
        enumerator::operations::fill_page(image, query, bookmark, &mut sitting, &mut page, &mut work, &mut report);
    assert_eq!(result, 1);
    assert_eq!(report[64..], [0xee; 6]);
    let told = numbers(&report);
    assert_eq!(u64::from(u32::from_le_bytes(sitting)), told[2]);
    Filled { told, page, work }
}

/// Whether a work buffer is as an accepted call leaves it.
pub fn cleared(work: &[u16]) -> bool {
    work[..20_000].iter().all(|&word| word == 0) && work[20_000..].iter().all(|&word| word == GUARD)
}
