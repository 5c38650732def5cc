//! The sittings that the cases draw: at every edge, beside every other cause, and seldom
//! enough in the way that the other comparisons stay strong.

mod common;
use common::read::*;
use enumerator::listing::Listing;
use enumerator::machine::Outcome;
use enumerator::operations::{fitting, numbers};
use std::collections::BTreeSet;
use std::sync::OnceLock;

const LIMIT: u64 = 4_294_967_295;

/// What a call of a case is about.
struct Drawn {
    lent: Vec<u8>,
    left: Vec<u8>,
    total: u64,
    /// How many records the page takes as full as it can be.
    count: u64,
    /// The number that the call gets, if it is told any.
    number: Option<u64>,
    /// The number that it would get with a fresh sitting.
    other: Option<u64>,
}

impl Drawn {
    fn of(call: &Call, listing: &Listing) -> Drawn {
        let (bookmark, lent, outcome) = (words(call, "bookmark"), lent(call), outcome(call));
        let total = lent.sitting.iter().take(4).rev().fold(0, |total, byte| 256 * total + u64::from(*byte));
        let count = fitting(listing.after(&bookmark), lent.page.len()) as u64;
        let mut fresh = Outcome { result: 0, left: lent.clone() };
        let left = &mut fresh.left;
        fresh.result =
            listing.fill_page(&bookmark, &mut [0; 4], &mut left.page, &mut left.work, &mut left.report);
        let (number, other) = (told(&outcome), told(&fresh));
        Drawn { lent: lent.sitting, left: outcome.left.sitting, total, count, number, other }
    }

    fn short(&self) -> bool {
        self.lent.len() < 4
    }

    /// Whether the total has no room for the page's count, or for a line where none is placed.
    fn past(&self) -> bool {
        !self.short() && self.total + self.count.max(1) > LIMIT
    }

    /// Whether the call places records.
    fn places(&self) -> bool {
        self.number == Some(0) && self.count > 0
    }
}

fn told(outcome: &Outcome) -> Option<u64> {
    (outcome.result == 1).then(|| numbers(&outcome.left.report)[0])
}

fn drawn(sort: &str, count: usize) -> Vec<Vec<Drawn>> {
    let of_case = |calls: &Vec<Call>| calls.iter().zip(listings(calls)).map(|(call, of)| Drawn::of(call, &of)).collect();
    read(sort, 1, count).iter().map(of_case).collect()
}

fn pages() -> impl Iterator<Item = &'static Drawn> {
    static PAGES: OnceLock<Vec<Vec<Drawn>>> = OnceLock::new();
    PAGES.get_or_init(|| drawn("pages", 3000)).iter().flatten()
}

fn lists() -> &'static [Vec<Drawn>] {
    static LISTS: OnceLock<Vec<Vec<Drawn>>> = OnceLock::new();
    LISTS.get_or_init(|| drawn("lists", 800))
}

#[test]
fn pages_meet_34_alone_and_behind_other_causes() {
    assert!(pages().filter(|one| one.number == Some(34)).count() > 100);
    let behind: BTreeSet<u64> = pages().filter(|one| one.past()).filter_map(|one| one.number).collect();
    let of = |mut numbers: BTreeSet<u64>| {
        numbers.retain(|number| behind.contains(number));
        numbers.len()
    };
    assert!(of((1..=7).collect()) >= 5 && of((11..=16).chain(31..=33).collect()) >= 5, "{behind:?}");
    assert_eq!(of([0, 21, 22, 23].into()), 4, "{behind:?}");
    // Without the short work the page would take records that the total has no room for.
    assert!(pages().any(|one| one.past() && one.count > 0 && one.number == Some(22)));
}

#[test]
fn short_sittings_meet_other_causes_and_short_reports() {
    assert!(pages().filter(|one| one.short()).all(|one| one.number.is_none()));
    let others: BTreeSet<Option<u64>> = pages().filter(|one| one.short()).map(|one| one.other).collect();
    for other in [None, Some(0), Some(21), Some(22), Some(23), Some(31)] {
        assert!(others.contains(&other), "{other:?}");
    }
    assert!((1..=7).any(|number| others.contains(&Some(number))), "{others:?}");
    assert!((11..=16).any(|number| others.contains(&Some(number))), "{others:?}");
}

#[test]
fn sittings_have_every_length_and_totals_from_0_to_the_limit() {
    let lengths: BTreeSet<usize> = pages().map(|one| one.lent.len()).collect();
    assert!((0..=12).all(|length| lengths.contains(&length)), "{lengths:?}");
    let totals: BTreeSet<u64> = pages().map(|one| one.total).collect();
    assert!([0, 1, LIMIT].iter().all(|total| totals.contains(total)));
}

/// The calls that would place records in a fresh sitting.
fn placing() -> impl Iterator<Item = &'static Drawn> {
    pages().filter(|one| one.count > 0 && one.other == Some(0) && !one.short())
}

#[test]
fn totals_lie_on_both_sides_of_the_limit() {
    for past in -3..=3 {
        let found = placing().any(|one| (one.total + one.count) as i64 - LIMIT as i64 == past);
        assert!(found, "{past}");
    }
    let of_hundreds: BTreeSet<Option<u64>> = placing().filter(|one| one.count > 255).map(|one| one.number).collect();
    assert_eq!(of_hundreds, [Some(0), Some(34)].into());
}

#[test]
fn totals_lie_on_both_sides_of_each_carry() {
    for byte in 1..=3 {
        let carries = |one: &Drawn, count: u64| one.total >> (8 * byte) < (one.total + count) >> (8 * byte);
        let carried = placing().filter(|one| one.places() && carries(one, one.count)).count();
        let nearly = placing().filter(|one| !carries(one, one.count) && carries(one, one.count + 1)).count();
        assert!(carried > 10 && nearly > 5, "{byte} {carried} {nearly}");
    }
}

#[test]
fn few_calls_are_refused_for_their_sitting() {
    let sittings = drawn("sittings", 600);
    let sorts: [Vec<&Drawn>; 3] =
        [pages().collect(), lists().iter().flatten().collect(), sittings.iter().flatten().collect()];
    for (at, calls) in sorts.iter().enumerate() {
        let share = |of: usize| 1000 * of / calls.len();
        let refused = share(calls.iter().filter(|one| one.number == Some(34)).count());
        let short = share(calls.iter().filter(|one| one.short()).count());
        assert!((50..100).contains(&refused) && (25..60).contains(&short), "{at} {refused} {short}");
    }
}

/// Whether a call is lent what the one before left, as far as both see it.
fn goes_on(pair: &[Drawn]) -> bool {
    pair[0].left.iter().zip(&pair[1].lent).all(|(left, lent)| left == lent)
}

#[test]
fn lists_have_one_sitting_or_several() {
    let one = lists().iter().filter(|calls| calls.len() > 2 && calls.windows(2).all(goes_on)).count();
    let several = lists().iter().filter(|calls| !calls.windows(2).all(goes_on)).count();
    assert!(one > 100 && several > 100, "{one} {several}");
}

/// After 34 a list goes on: refused again, with a page that takes fewer records, or with
/// a fresh sitting.
#[test]
fn lists_go_on_after_34_in_each_way() {
    let pairs = lists().iter().flat_map(|calls| calls.windows(2));
    let after: Vec<&[Drawn]> = pairs.filter(|pair| pair[0].number == Some(34)).collect();
    let count = |holds: &dyn Fn(&[Drawn]) -> bool| after.iter().filter(|pair| holds(pair)).count();
    let again = count(&|pair| goes_on(pair) && pair[1].number == Some(34));
    let fewer = count(&|pair| goes_on(pair) && pair[1].places());
    let fresh = count(&|pair| pair[1].total == 0 && pair[1].places());
    assert!(again > 20 && fewer >= 2 && fresh > 20, "{again} {fewer} {fresh}");
    let in_the_midst = lists().iter().filter(|calls| {
        let first = calls.iter().position(|one| one.number == Some(34));
        first.is_some_and(|first| calls[..first].iter().any(Drawn::places))
    });
    assert!(in_the_midst.count() > 40);
}
