//! Cases of checking a query.

use super::dump::Case;
use crate::operations::check_query;
use crate::random::source::Source;
use crate::random::{buffers, queries};

pub fn batch(source: &mut Source) -> Vec<String> {
    let (note, query) = queries::any(source);
    let (mut types, mut report) = (buffers::types(source), buffers::report(source));
    let lent = Case::new(&note).words("query", &query).words("types", &types).bytes("report", &report);
    let result = check_query(&query, &mut types, &mut report);
    let left = lent.number("result", result).words("types-after", &types).bytes("report-after", &report);
    vec![left.lines]
}
