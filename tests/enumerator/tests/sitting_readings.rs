//! Plausible misreadings of Q-3: the random cases that are compared through C tell each of
//! them from the right reading.

mod common;
use common::read::*;
use enumerator::listing::Listing;
use enumerator::machine::{Lent, Outcome};
use enumerator::operations::{fitting, numbers, tell};

const LIMIT: u64 = 4_294_967_295;

/// A call as a case lends it.
struct Page<'a> {
    listing: &'a Listing,
    bookmark: &'a [u16],
    lent: &'a Lent,
}

type Reading = fn(&Page) -> Outcome;

fn total(sitting: &[u8]) -> u64 {
    sitting.iter().take(4).enumerate().map(|(at, byte)| u64::from(*byte) << (8 * at)).sum()
}

fn set_total(outcome: &mut Outcome, total: u64) {
    outcome.left.sitting[..4].copy_from_slice(&total.to_le_bytes()[..4]);
}

impl Page<'_> {
    fn right(&self) -> Outcome {
        self.with(|_| {})
    }

    /// The right outcome of a call that is lent something else.
    fn with(&self, change: impl Fn(&mut Lent)) -> Outcome {
        let mut left = self.lent.clone();
        change(&mut left);
        let Lent { sitting, page, work, report } = &mut left;
        let result = self.listing.fill_page(self.bookmark, sitting, page, work, report);
        Outcome { result, left }
    }

    /// The right outcome of a call that is lent another total, but for the sitting that it leaves.
    fn as_if_at(&self, total: u32) -> Outcome {
        let mut outcome = self.with(|lent| lent.sitting = total.to_le_bytes().to_vec());
        outcome.left.sitting = self.lent.sitting.clone();
        outcome
    }

    fn as_if_fresh(&self) -> Outcome {
        self.as_if_at(0)
    }

    /// How many records the page takes as full as it can be.
    fn count(&self) -> u64 {
        fitting(self.listing.after(self.bookmark), self.lent.page.len()) as u64
    }

    fn total(&self) -> u64 {
        total(&self.lent.sitting)
    }

    fn short(&self) -> bool {
        self.lent.sitting.len() < 4 && self.lent.report.len() >= 64
    }

    /// The call refused by 34, with the work as it was lent.
    fn refused(&self) -> Outcome {
        let mut left = self.lent.clone();
        let result = tell(&mut left.report, [34, 0, 0, 0, 0, 0, 0, 0]);
        Outcome { result, left }
    }
}

/// The number that a call was refused by, 0 for an answer.
fn number_of(outcome: &Outcome) -> Option<u64> {
    (outcome.result == 1).then(|| numbers(&outcome.left.report)[0])
}

/// The right outcome, changed where the call gets this number.
fn changed(page: &Page, number: u64, change: impl Fn(&mut Outcome)) -> Outcome {
    let mut outcome = page.right();
    if number_of(&outcome) == Some(number) {
        change(&mut outcome);
    }
    outcome
}

/// Refuses by 34 at the limit, whatever the page takes, where these numbers come otherwise.
fn at_the_limit_before(page: &Page, before: impl Fn(u64) -> bool) -> Outcome {
    let outcome = page.right();
    match number_of(&outcome) {
        Some(number) if before(number) && page.total() == LIMIT => page.refused(),
        _ => outcome,
    }
}

fn before_page(page: &Page) -> Outcome {
    at_the_limit_before(page, |number| number == 23)
}

fn before_work(page: &Page) -> Outcome {
    at_the_limit_before(page, |number| number == 22)
}

fn before_the_fixed(page: &Page) -> Outcome {
    at_the_limit_before(page, |number| ![0, 22, 23, 34].contains(&number))
}

fn a_page_without_records_is_refused(page: &Page) -> Outcome {
    changed(page, 0, |outcome| {
        if page.total() == LIMIT {
            tell(&mut outcome.left.report, [34, 0, 0, 0, 0, 0, 0, 0]);
        }
    })
}

fn reaching_the_limit_is_refused(page: &Page) -> Outcome {
    changed(page, 0, |outcome| {
        if page.total() + page.count() == LIMIT {
            *outcome = page.as_if_at(u32::MAX);
        }
    })
}

fn one_past_the_limit_is_answered(page: &Page) -> Outcome {
    changed(page, 34, |outcome| {
        if page.total() + page.count() == LIMIT + 1 {
            *outcome = page.as_if_fresh();
            set_total(outcome, 0);
        }
    })
}

fn total_wraps(page: &Page) -> Outcome {
    changed(page, 34, |outcome| {
        *outcome = page.as_if_fresh();
        set_total(outcome, page.total() + page.count());
    })
}

fn total_stays_at_the_limit(page: &Page) -> Outcome {
    changed(page, 34, |outcome| {
        *outcome = page.as_if_fresh();
        set_total(outcome, LIMIT);
    })
}

fn raised_to_the_limit_by_34(page: &Page) -> Outcome {
    changed(page, 34, |outcome| set_total(outcome, LIMIT))
}

fn wraps_by_34(page: &Page) -> Outcome {
    changed(page, 34, |outcome| set_total(outcome, page.total() + page.count()))
}

fn raised_by_23(page: &Page) -> Outcome {
    changed(page, 23, |outcome| set_total(outcome, page.total() + 1))
}

fn raised_by_22(page: &Page) -> Outcome {
    changed(page, 22, |outcome| set_total(outcome, page.total() + page.count()))
}

/// Adds the count to a total of so many bytes: what they carry into the next is lost.
fn carry_lost(page: &Page, bytes: u32) -> Outcome {
    let low = (1 << (8 * bytes)) - 1;
    changed(page, 0, |outcome| set_total(outcome, (page.total() & !low) | ((page.total() + page.count()) & low)))
}

fn carry_past_the_fourth(page: &Page) -> Outcome {
    changed(page, 34, |outcome| {
        if page.lent.sitting.len() > 4 {
            *outcome = page.as_if_fresh();
            set_total(outcome, page.total() + page.count());
            outcome.left.sitting[4] = outcome.left.sitting[4].wrapping_add(1);
        }
    })
}

fn high_byte_first(page: &Page) -> Outcome {
    let turned = |sitting: &mut Vec<u8>| {
        let whole = sitting.len().min(4);
        sitting[..whole].reverse();
    };
    let mut outcome = page.with(|lent| turned(&mut lent.sitting));
    turned(&mut outcome.left.sitting);
    outcome
}

fn signed(page: &Page) -> Outcome {
    changed(page, 0, |outcome| {
        if page.total() + page.count() > LIMIT / 2 {
            *outcome = page.as_if_at(u32::MAX);
        }
    })
}

/// The page takes as many records as the total has room for.
fn cut(page: &Page) -> Outcome {
    changed(page, 34, |outcome| {
        let room = (LIMIT - page.total()) as usize;
        let words: usize = page.listing.after(page.bookmark)[..room].iter().map(Vec::len).sum();
        if room > 0 {
            let whole = outcome.left.page[words..].to_vec();
            *outcome = page.with(|lent| lent.page.truncate(words));
            outcome.left.page.extend(whole);
        }
    })
}

fn work_left_by_34(page: &Page) -> Outcome {
    changed(page, 34, |outcome| outcome.left.work = page.lent.work.clone())
}

fn page_written_by_34(page: &Page) -> Outcome {
    changed(page, 34, |outcome| outcome.left.page = page.as_if_fresh().left.page)
}

fn count_told_by_34(page: &Page) -> Outcome {
    changed(page, 34, |outcome| {
        tell(&mut outcome.left.report, [34, 0, page.count(), 0, 0, 0, 0, 0]);
    })
}

fn lines_of_the_last_page_only(page: &Page) -> Outcome {
    changed(page, 0, |outcome| set_total(outcome, page.count()))
}

fn count_in_a_byte(page: &Page) -> Outcome {
    changed(page, 0, |outcome| set_total(outcome, page.total() + page.count() % 256))
}

fn words_counted(page: &Page) -> Outcome {
    changed(page, 0, |outcome| set_total(outcome, page.total() + numbers(&outcome.left.report)[3]))
}

fn calls_counted(page: &Page) -> Outcome {
    changed(page, 0, |outcome| set_total(outcome, page.total() + 1))
}

fn bytes_past_cleared(page: &Page) -> Outcome {
    changed(page, 0, |outcome| outcome.left.sitting[4..].fill(0))
}

fn longer_than_4_bytes_is_wrong(page: &Page) -> Outcome {
    if page.lent.sitting.len() > 4 { Outcome { result: 0, left: page.lent.clone() } } else { page.right() }
}

fn short_gets_34(page: &Page) -> Outcome {
    if page.short() { page.refused() } else { page.right() }
}

fn short_comes_after_the_causes(page: &Page) -> Outcome {
    let otherwise = page.as_if_fresh();
    if page.short() && number_of(&otherwise) != Some(0) { otherwise } else { page.right() }
}

fn short_is_filled_up(page: &Page) -> Outcome {
    let mut outcome = page.with(|lent| lent.sitting.resize(lent.sitting.len().max(4), 0));
    outcome.left.sitting.truncate(page.lent.sitting.len());
    outcome
}

fn three_bytes_are_enough(page: &Page) -> Outcome {
    if page.lent.sitting.len() == 3 { short_is_filled_up(page) } else { page.right() }
}

fn none_is_no_sitting(page: &Page) -> Outcome {
    if page.lent.sitting.is_empty() { page.as_if_fresh() } else { page.right() }
}

const WRONG: [(&str, Reading); 33] = [
    ("34 tried before 23", before_page),
    ("34 tried before 22", before_work),
    ("34 tried before the fixed causes", before_the_fixed),
    ("34 for a page without records", a_page_without_records_is_refused),
    ("34 for a total that reaches the limit", reaching_the_limit_is_refused),
    ("no 34 for a total one past the limit", one_past_the_limit_is_answered),
    ("no 34, the total wraps", total_wraps),
    ("no 34, the total stays at the limit", total_stays_at_the_limit),
    ("total at the limit after 34", raised_to_the_limit_by_34),
    ("total wraps at 34", wraps_by_34),
    ("total raised by 23", raised_by_23),
    ("total raised by 22", raised_by_22),
    ("carry into the second byte lost", |page| carry_lost(page, 1)),
    ("carry into the third byte lost", |page| carry_lost(page, 2)),
    ("carry into the fourth byte lost", |page| carry_lost(page, 3)),
    ("carry into a fifth byte", carry_past_the_fourth),
    ("high byte first", high_byte_first),
    ("a signed total", signed),
    ("page cut to what the total allows", cut),
    ("work left alone by 34", work_left_by_34),
    ("page written by 34", page_written_by_34),
    ("count told by 34", count_told_by_34),
    ("lines of the last page only", lines_of_the_last_page_only),
    ("only the low byte of the count", count_in_a_byte),
    ("words counted", words_counted),
    ("calls counted", calls_counted),
    ("bytes past the fourth cleared", bytes_past_cleared),
    ("over 4 bytes treated as short", longer_than_4_bytes_is_wrong),
    ("a short sitting gets 34", short_gets_34),
    ("a short sitting after the other causes", short_comes_after_the_causes),
    ("a short sitting filled up with 0", short_is_filled_up),
    ("3 bytes are enough", three_bytes_are_enough),
    ("no bytes are no sitting", none_is_no_sitting),
];

/// Which readings get a call wrong.
fn misread(call: &Call, listing: &Listing) -> Vec<bool> {
    let (bookmark, lent, expected) = (words(call, "bookmark"), lent(call), outcome(call));
    let page = Page { listing, bookmark: &bookmark, lent: &lent };
    assert_eq!(page.right(), expected);
    WRONG.iter().map(|(_, reading)| reading(&page) != expected).collect()
}

/// Each reading gets at least three calls of these cases wrong.
fn assert_told(sort: &str, count: usize) {
    let calls = read(sort, 1, count).concat();
    let wrong: Vec<Vec<bool>> = calls.iter().zip(listings(&calls)).map(|(call, of)| misread(call, &of)).collect();
    for (at, (name, _)) in WRONG.iter().enumerate() {
        let told = wrong.iter().filter(|one| one[at]).count();
        assert!(told >= 3, "{name}: {told}");
    }
}

#[test]
fn pages_tell_misreadings() {
    assert_told("pages", 1500);
}

#[test]
fn lists_tell_misreadings() {
    assert_told("lists", 300);
}

#[test]
fn sittings_tell_misreadings() {
    assert_told("sittings", 300);
}
