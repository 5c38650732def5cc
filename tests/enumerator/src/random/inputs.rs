//! What the program that prints a listing reads from standard input.

use super::source::Source;
use super::subjects::Subject;
use super::{damage, graphs, tables};
use crate::query::alone;

/// The input of a listing as it should be, then with its end cut off, with lengths that do not
/// fit, or longer than its lengths say; now and then nothing but random bytes, or a long pattern.
pub fn any(source: &mut Source) -> (&'static str, Vec<u8>) {
    match source.below(100) {
        0..=4 => ("cut off", cut_off(source)),
        5..=9 => ("other lengths", other_lengths(source)),
        10..=14 => ("left over", left_over(source)),
        15..=17 => ("noise", noise(source)),
        18..=20 => ("long pattern", long_pattern(source)),
        21 => ("many pages", many_pages(source)),
        _ => ("whole", whole(source)),
    }
}

/// Image length in bytes, pattern length in words, restrictor, image, pattern.
pub fn input(image: &[u8], pattern: &[u16], restrictor: u16) -> Vec<u8> {
    let head = [image.len() as u16, pattern.len() as u16, restrictor];
    let mut bytes: Vec<u8> = head.iter().flat_map(|word| word.to_le_bytes()).collect();
    bytes.extend(image);
    bytes.extend(pattern.iter().flat_map(|word| word.to_le_bytes()));
    bytes
}

/// Image, pattern and restrictor of a listing that is cheap; now and then one of them
/// gives cause for a refusal.
fn whole(source: &mut Source) -> Vec<u8> {
    loop {
        let mut image = if source.one_in(5) { graphs::long(source) } else { graphs::small(source) }.image();
        let size = source.below(7);
        let mut pattern = if source.one_in(3) { tables::repeated(source, size) } else { tables::sound(source, size) };
        let mut restrictor = source.between(1, 4) as u16;
        match source.below(48) {
            0..=2 => {
                let way = source.pick(&damage::ALL);
                image = damage::damaged(source, way).0;
            }
            3..=5 => pattern = tables::any(source).1,
            6..=8 => restrictor = source.pick(&[0, 5, 257, 65535]),
            _ => {}
        }
        if affordable(&image, &pattern, restrictor) {
            return input(&image, &pattern, restrictor);
        }
    }
}

fn affordable(image: &[u8], pattern: &[u16], restrictor: u16) -> bool {
    Subject { image: image.to_vec(), query: alone(restrictor, pattern) }.affordable()
}

fn cut_off(source: &mut Source) -> Vec<u8> {
    let mut bytes = whole(source);
    bytes.truncate(source.below(bytes.len() + 1));
    bytes
}

/// The image's length or the pattern's is another one; it shifts what is read as the pattern, so
/// that hardly anything but a refusal can come of it.
fn other_lengths(source: &mut Source) -> Vec<u8> {
    let mut bytes = whole(source);
    let at = source.pick(&[0, 2]);
    let length = source.pick(&[0, 1, 15, 16, 321, 322, 65535]);
    bytes[at..at + 2].copy_from_slice(&(length as u16).to_le_bytes());
    bytes
}

fn left_over(source: &mut Source) -> Vec<u8> {
    let mut bytes = whole(source);
    let count = source.between(1, 40);
    bytes.extend(source.bytes(count));
    bytes
}

fn noise(source: &mut Source) -> Vec<u8> {
    let count = source.below(60);
    source.bytes(count)
}

/// Around 64 rows and around the 321 words that are read.
fn long_pattern(source: &mut Source) -> Vec<u8> {
    let words = source.pick(&[315usize, 319, 320, 321, 322, 325, 400]);
    let mut pattern = tables::chain(words.div_ceil(5)).concat();
    pattern.truncate(words);
    loop {
        let image = graphs::small(source).image();
        if affordable(&image, &pattern, 1) {
            return input(&image, &pattern, 1);
        }
    }
}

/// Every stretch of a directed line with its group: more words than a page of 20,000 has.
fn many_pages(source: &mut Source) -> Vec<u8> {
    let nodes = source.between(28, 40);
    let restrictor = source.between(1, 4) as u16;
    input(&graphs::line(nodes).image(), &[2, 1, 0, 0, 0, 8, 0, 0, 1, 65535], restrictor)
}
