//! The text of the program that prints a listing.

use crate::listing::Listing;
use crate::query::alone;

/// One word more than 64 rows: enough to be refused by 11.
const MOST_PATTERN_WORDS: usize = 321;

/// From the bytes of standard input to the printed text. The query has one part and no path name.
pub fn print(input: &[u8]) -> String {
    let (image, pattern, restrictor) = parts(input);
    let listing = Listing::new(&image, &alone(restrictor, &pattern));
    match listing.cause {
        Some(cause) => format!("refused {} row {}\n", cause.number, cause.row),
        None => text(&listing),
    }
}

/// Input that ends early counts as far as it goes: a header cut short has zeros where
/// it is missing, and half a word at the end of the pattern is dropped.
fn parts(input: &[u8]) -> (Vec<u8>, Vec<u16>, u16) {
    let byte = |at: usize| input.get(at).copied().unwrap_or(0);
    let word = |at: usize| u16::from_le_bytes([byte(at), byte(at + 1)]);
    let rest = input.get(6..).unwrap_or(&[]);
    let (image, rest) = rest.split_at(rest.len().min(word(0) as usize));
    let words = rest.chunks_exact(2).map(|pair| u16::from_le_bytes([pair[0], pair[1]]));
    let pattern = words.take((word(2) as usize).min(MOST_PATTERN_WORDS)).collect();
    (image.to_vec(), pattern, word(4))
}

fn text(listing: &Listing) -> String {
    let mut text = String::from("types");
    for (variable, one) in &listing.types {
        text += &format!(" {variable}:{}", joined(&one.numbers(), "."));
    }
    text += "\n";
    for record in &listing.records {
        text += &joined(record, " ");
        text += "\n";
    }
    text + &format!("done {}\n", listing.records.len())
}

fn joined(words: &[u16], between: &str) -> String {
    words.iter().map(u16::to_string).collect::<Vec<_>>().join(between)
}
