//! The text of the listing program.

mod common;
use common::*;
use enumerator::program::print;
use enumerator::query::alone;

fn input(header: [u16; 3], image: &[u8], pattern: &[u16]) -> Vec<u8> {
    [bytes(&header), image.to_vec(), bytes(pattern)].concat()
}

#[test]
fn types_stand_alone_without_variables() {
    assert_eq!(print(&input([40, 5, 1], &t(), &[4, 0, 0, 0, 0])), "types\n1 0 2 2\n1 2 2 0\ndone 2\n");
}

#[test]
fn types_rise_and_leave_off_zeros() {
    let rows = [[1, 8, 0, 0, 0], [2, 2, 0, 0, 0], [8, 1, 0, 9, 9], [5, 0, 2, 0, 0]];
    let text = print(&input([40, 20, 2], &t(), &rows.concat()));
    assert_eq!(text, "types 2:3.4.2 8:3.1\n0 0 65535 0\n0 1 65535 1\n0 2 65535 2\ndone 3\n");
}

#[test]
fn a_refusal_prints_nothing_else() {
    assert_eq!(print(&input([40, 10, 0], &t(), &P)), "refused 21 row 0\n");
    let ill = [[1, 1, 0, 0, 0], [2, 1, 0, 0, 0], [6, 0, 1, 0, 0]].concat();
    assert_eq!(print(&input([40, 15, 1], &t(), &ill)), "refused 16 row 2\n");
    let falling = image(&[3, 2], &[], &[], &[]);
    assert_eq!(print(&input([20, 15, 1], &falling, &ill)), "refused 4 row 1\n");
}

#[test]
fn input_that_ends_early_counts_as_far_as_it_goes() {
    for length in 0..=21 {
        let whole = input([40, 10, 1], &t(), &P);
        assert_eq!(print(&whole[..length]), "refused 1 row 0\n", "{length}");
    }
    let whole = input([40, 10, 1], &t(), &P);
    assert_eq!(print(&whole[..40]), "refused 2 row 0\n");
    assert_eq!(print(&whole[..46]), "refused 11 row 0\n");
    // One row of P and half of a word: the half is dropped and the row is a pattern.
    let one_row = "types 1:2\n1 0 0 1 0\n1 1 1 2 1\ndone 2\n";
    assert_eq!(print(&whole[..56]), one_row);
    assert_eq!(print(&whole[..57]), one_row);
    assert_eq!(print(&whole[..58]), "refused 11 row 0\n");
}

#[test]
fn input_past_the_end_does_not_count() {
    let mut longer = input([40, 10, 1], &t(), &P);
    let text = print(&longer);
    longer.extend([1, 2, 3]);
    assert_eq!(print(&longer), text);
    assert_eq!(print(&input([40, 5, 1], &t(), &P)), "types 1:2\n1 0 0 1 0\n1 1 1 2 1\ndone 2\n");
}

#[test]
fn of_a_long_pattern_321_words_are_used() {
    let mut long = vec![0; 400];
    assert_eq!(print(&input([40, 400, 1], &t(), &long)), "refused 11 row 0\n");
    long.truncate(320);
    // 400 words are announced, but only 320 come: 64 rows, the first of them malformed.
    assert_eq!(print(&input([40, 400, 1], &t(), &long)), "refused 12 row 0\n");
    assert_eq!(print(&input([40, 65535, 1], &t(), &[1, 0, 0, 0, 0])), "types\n0 0\n0 1\n0 2\ndone 3\n");
}

#[test]
fn a_timed_listing_tells_answers_and_words() {
    let told = enumerator::timed::time(&t(), &bytes(&alone(1, &P)), 600.0);
    assert!(told.starts_with("3 37 "), "{told}");
    assert_eq!(enumerator::timed::time(&t(), &bytes(&alone(5, &P)), 600.0), "refused 21 row 0");
}
