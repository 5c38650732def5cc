//! How long the full listing takes, for the bench.

use crate::listing::Listing;
use std::thread;
use std::time::{Duration, Instant};

/// Works the listing out and tells answers, words and seconds; or `over` after so
/// many seconds, by ending the process, since the enumerator looks at no clock.
pub fn time(image: &[u8], query: &[u8], limit: f64) -> String {
    thread::spawn(move || {
        thread::sleep(Duration::from_secs_f64(limit));
        println!("over");
        std::process::exit(0);
    });
    let words: Vec<u16> = query.chunks_exact(2).map(|pair| u16::from_le_bytes([pair[0], pair[1]])).collect();
    let start = Instant::now();
    let listing = Listing::new(image, &words);
    let seconds = start.elapsed().as_secs_f64();
    let total: usize = listing.records.iter().map(Vec::len).sum();
    match listing.cause {
        Some(cause) => format!("refused {} row {}", cause.number, cause.row),
        None => format!("{} {total} {seconds:.9}", listing.records.len()),
    }
}
