//! The full listing of an image and a query, worked out once.

use crate::image;
use crate::joins::answers;
use crate::query;
use crate::record::{self, Record};
use crate::refusal::Refusal;
use crate::typing::Types;

pub struct Listing {
    /// What the fixed things give cause for, of 1 to 7, 31, 32, 11 to 16, 33 and 21.
    pub cause: Option<Refusal>,
    /// How many parts the query has; 0 where there is a cause.
    pub parts: usize,
    pub types: Types,
    /// Rising, each a single time; empty where there is a cause.
    pub records: Vec<Record>,
}

impl Listing {
    pub fn new(image: &[u8], query: &[u16]) -> Listing {
        match Listing::tried(image, query) {
            Ok(listing) => listing,
            Err(cause) => Listing { cause: Some(cause), parts: 0, types: Types::new(), records: Vec::new() },
        }
    }

    /// The records after a bookmark of any words.
    pub fn after(&self, bookmark: &[u16]) -> &[Record] {
        let first = self.records.iter().position(|one| one.as_slice() > bookmark);
        &self.records[first.unwrap_or(self.records.len())..]
    }

    fn tried(image: &[u8], query: &[u16]) -> Result<Listing, Refusal> {
        let graph = image::read(image)?;
        let query = query::check(query)?;
        let restrictors = query.restrictors().ok_or(Refusal::of(21))?;
        let mut records: Vec<Record> = answers(&graph, &query, &restrictors).iter().map(record::write).collect();
        records.sort();
        records.dedup();
        Ok(Listing { cause: None, parts: query.parts.len(), types: query.types, records })
    }
}
