//! Cases of reading an image.

use super::dump::Case;
use crate::operations::read_image;
use crate::random::source::Source;
use crate::random::{buffers, damage, graphs};

pub fn batch(source: &mut Source) -> Vec<String> {
    let (note, image) = image(source);
    let mut report = buffers::report(source);
    let lent = Case::new(&note).bytes("image", &image).bytes("report", &report);
    let result = read_image(&image, &mut report);
    vec![lent.number("result", result).bytes("report-after", &report).lines]
}

fn image(source: &mut Source) -> (String, Vec<u8>) {
    match source.below(8) {
        0 => (String::from("small"), graphs::small(source).image()),
        1 => (String::from("large"), graphs::large(source).image()),
        2 => (String::from("damaged twice"), damage::damaged_twice(source).0),
        3 | 4 => (String::from("scrambled"), damage::scrambled(source)),
        _ => {
            let way = source.pick(&damage::ALL);
            (format!("{way:?}"), damage::damaged(source, way).0)
        }
    }
}
