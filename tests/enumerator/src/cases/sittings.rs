//! Cases of lists of page calls that are one sitting over changing listings: each call is
//! lent the sitting that the one before left.

use super::dump::Case;
use super::pages::{call, fixed, outcome};
use crate::random::hosts::Host;
use crate::random::source::Source;
use crate::random::{buffers, candidates, subjects};

pub fn batch(source: &mut Source) -> Vec<String> {
    let subjects: Vec<_> = (0..source.between(1, 3)).map(|_| subjects::for_pages(source)).collect();
    let listings: Vec<_> = subjects.iter().map(|subject| subject.listing()).collect();
    let lines = listings.iter().map(|listing| listing.records.len()).sum();
    let mut host = Host::keeping(source, lines);
    let mut case = Case::new("sitting");
    for at in 0..source.between(1, 9) {
        let chosen = source.below(subjects.len());
        let (_, bookmark) = candidates::any(source, &listings[chosen]);
        let drawn = buffers::lent(source, listings[chosen].after(&bookmark));
        let lent = host.lend(source, drawn);
        let outcome = outcome(&listings[chosen], &bookmark, &lent);
        host.take_back(&outcome);
        case = fixed(case.number("call", at as u64), &subjects[chosen]);
        case = call(case, &bookmark, &lent, &outcome);
    }
    vec![case.lines]
}
