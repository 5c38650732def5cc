//! Cases of conditions on properties that elements may lack: the whole listing on one
//! page, a page after a bookmark, or a record judged. Bookmark and judged record are of
//! the query without its conditions, so that these alone tell them from answers.

use super::pages::filled;
use super::records;
use crate::random::buffers;
use crate::random::conditions::{self, Conditioned};
use crate::random::source::Source;
use crate::record::Record;

/// A listing has one case, so that a run tries as many conditions as it has cases.
pub fn batch(source: &mut Source) -> Vec<String> {
    let Conditioned { subject, listing, unconditioned } = conditions::any(source);
    let chosen = if unconditioned.is_empty() { Record::new() } else { source.pick(&unconditioned) };
    let case = match source.below(8) {
        0..=3 => {
            let lent = buffers::lent_for_all(source, &listing.records);
            filled("whole listing", &subject, &listing, &[], &lent)
        }
        4 => {
            let lent = buffers::lent(source, listing.after(&chosen));
            filled("after a bookmark", &subject, &listing, &chosen, &lent)
        }
        _ => records::case(source, "judged", &subject, &listing, &chosen),
    };
    vec![case]
}
