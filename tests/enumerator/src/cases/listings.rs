//! Cases of the program that prints a listing: its standard input, and all that it must print.

use super::dump::Case;
use crate::program;
use crate::random::inputs;
use crate::random::source::Source;

pub fn batch(source: &mut Source) -> Vec<String> {
    let (note, input) = inputs::any(source);
    let text = program::print(&input);
    vec![Case::new(note).bytes("input", &input).bytes("text", text.as_bytes()).lines]
}
