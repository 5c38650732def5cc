//! Cases of whole lists of page calls over one listing, which the plain machine answers:
//! each bookmark is a copy of the last record printed before.

use super::dump::Case;
use super::pages::{call, fixed};
use crate::machine::Machine;
use crate::random::hosts::Host;
use crate::random::source::Source;
use crate::random::{buffers, subjects};

pub fn batch(source: &mut Source) -> Vec<String> {
    let long = source.one_in(25);
    let subject = if long { subjects::journey(source) } else { subjects::for_pages(source) };
    let listing = subject.listing();
    let mut machine = Machine { listing: &listing, printed: 0 };
    let mut host = Host::any(source, listing.records.len());
    let mut case = fixed(Case::new("list"), &subject);
    for at in 0..source.between(1, 9) {
        let bookmark = machine.bookmark();
        let later = &listing.records[machine.printed..];
        let wide = long && source.one_in(2);
        let drawn = if wide { buffers::lent_widely(source, later) } else { buffers::lent(source, later) };
        let lent = host.lend(source, drawn);
        let outcome = machine.call(&lent);
        host.take_back(&outcome);
        case = call(case.number("call", at as u64), &bookmark, &lent, &outcome);
    }
    vec![case.lines]
}
