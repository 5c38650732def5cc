//! Each refusal with its row, and the order between two causes.

mod common;
use common::*;
use enumerator::operations::{check_query, fill_page, judge_record, numbers, read_image};
use enumerator::query::alone;
use enumerator::random::malformed::all_malformed_rows;

#[test]
fn reader_1_under_16_bytes() {
    for length in 0..16 {
        assert_eq!(read(&t()[..length]), (1, 0));
    }
    assert_eq!(read(&t()[..16]), (2, 0));
}

#[test]
fn reader_2_directory() {
    let directories: [[u16; 8]; 9] = [
        [18, 6, 24, 18, 42, 0, 42, 0],
        [16, 6, 23, 18, 41, 0, 41, 0],
        [16, 6, 22, 18, 41, 0, 41, 0],
        [16, 6, 22, 18, 40, 0, 39, 0],
        [16, 6, 22, 12, 34, 0, 34, 0],
        [16, 6, 22, 18, 40, 0, 40, 6],
        [16, 0, 16, 24, 40, 1, 41, 0],
        [22, 18, 16, 6, 40, 0, 40, 0],
        [16, 5, 21, 18, 39, 0, 39, 1],
    ];
    for directory in directories {
        let mut image = t();
        image[..16].copy_from_slice(&bytes(&directory));
        assert_eq!(read(&image), (2, 0), "{directory:?}");
    }
    let mut long = t();
    long.push(0);
    assert_eq!(read(&long), (2, 0));
}

#[test]
fn reader_2_adds_without_wrapping() {
    let image = bytes(&[16, 65534, 14, 6, 20, 0, 20, 0, 1, 2]);
    assert_eq!(read(&image), (2, 0));
}

#[test]
fn reader_3_each_section() {
    let loops = |count: usize| vec![[0, 0, 1]; count];
    let labels = |count: u16| (1..=count).map(|label| [0, label]).collect::<Vec<_>>();
    let properties = |count: u16| (0..count).map(|key| [0, key, 9]).collect::<Vec<_>>();
    assert_eq!(read(&plain(1, &loops(200))), (0, 0));
    assert_eq!(read(&plain(1, &loops(201))), (3, 0));
    assert_eq!(read(&image(&[4], &[], &labels(800), &[])), (0, 0));
    assert_eq!(read(&image(&[4], &[], &labels(801), &[])), (3, 0));
    assert_eq!(read(&image(&[4], &[], &[], &properties(2000))), (0, 0));
    assert_eq!(read(&image(&[4], &[], &[], &properties(2001))), (3, 0));
}

#[test]
fn reader_4_nodes() {
    assert_eq!(read(&image(&[5, 5], &[], &[], &[])), (4, 1));
    assert_eq!(read(&image(&[1, 7, 6, 5], &[], &[], &[])), (4, 2));
    assert_eq!(read(&image(&[0, 256, 65535], &[], &[], &[])), (0, 0));
}

#[test]
fn reader_5_edges() {
    assert_eq!(read(&plain(2, &[[0, 1, 1], [2, 0, 1]])), (5, 1));
    assert_eq!(read(&plain(2, &[[0, 2, 1]])), (5, 0));
    assert_eq!(read(&plain(2, &[[0, 0, 0], [0, 1, 0], [0, 1, 2]])), (5, 2));
    assert_eq!(read(&plain(2, &[[1, 0, 0]])), (5, 0));
    assert_eq!(read(&plain(2, &[[1, 0, 1], [1, 0, 1], [1, 1, 0]])), (0, 0));
    assert_eq!(read(&plain(0, &[[0, 0, 1]])), (5, 0));
}

#[test]
fn reader_6_labels() {
    let labelled = |rows: &[[u16; 2]]| read(&image(&[1, 2], &[[0, 1, 1]], rows, &[]));
    assert_eq!(labelled(&[[0, 1], [0, 2], [2, 1]]), (0, 0));
    assert_eq!(labelled(&[[0, 1], [3, 1]]), (6, 1));
    assert_eq!(labelled(&[[0, 0]]), (6, 0));
    assert_eq!(labelled(&[[0, 1], [1, 3], [1, 3]]), (6, 2));
    assert_eq!(labelled(&[[1, 1], [0, 2]]), (6, 1));
    assert_eq!(labelled(&[[0, 2], [0, 1]]), (6, 1));
}

#[test]
fn reader_7_properties() {
    let with = |rows: &[[u16; 3]]| read(&image(&[1, 2], &[[0, 1, 1]], &[], rows));
    assert_eq!(with(&[[0, 0, 0], [0, 1, 0], [2, 0, 65535]]), (0, 0));
    assert_eq!(with(&[[3, 0, 0]]), (7, 0));
    assert_eq!(with(&[[0, 1, 4], [0, 1, 5]]), (7, 1));
    assert_eq!(with(&[[0, 1, 4], [1, 2, 3], [1, 1, 9]]), (7, 2));
}

#[test]
fn reader_tries_causes_in_order() {
    // 2 before 3: too many nodes, and bytes left over.
    let mut many = plain(201, &[]);
    many.push(0);
    assert_eq!(read(&many), (2, 0));
    // 3 before 4: 2,001 properties, and nodes that fall.
    let properties: Vec<[u16; 3]> = (0..2001).map(|key| [0, key, 0]).collect();
    assert_eq!(read(&image(&[2, 1], &[], &[], &properties)), (3, 0));
    // 4 to 7, whatever the rows.
    let (nodes, edges, labels, properties) = ([1, 2, 2], [[9, 0, 1]], [[0, 0]], [[99, 0, 0]]);
    assert_eq!(read(&image(&nodes, &edges, &labels, &properties)), (4, 2));
    assert_eq!(read(&image(&nodes[..2], &edges, &labels, &properties)), (5, 0));
    assert_eq!(read(&image(&nodes[..2], &[], &labels, &properties)), (6, 0));
    assert_eq!(read(&image(&nodes[..2], &[], &[], &properties)), (7, 0));
}

#[test]
fn checker_11_lengths() {
    assert_eq!(checked_words(&[]), (11, 0));
    assert_eq!(checked_words(&P[..9]), (11, 0));
    assert_eq!(checked_words(&[0; 320]), (12, 0));
    assert_eq!(checked_words(&[0; 321]), (11, 0));
    assert_eq!(checked_words(&[0; 325]), (11, 0));
}

#[test]
fn checker_12_each_malformed_row() {
    let sound = [[1, 1, 0, 0, 0], [16, 1, 7, 5, 0]];
    for row in all_malformed_rows() {
        assert_eq!(checked(&[sound[0], sound[1], *row]), (12, 2), "{row:?}");
    }
}

#[test]
fn checker_12_not_for_numbers_that_are_allowed() {
    let sound: [&[[u16; 5]]; 6] = [
        &[[1, 8, 65535, 0, 0]],
        &[[2, 0, 0, 0, 0], [8, 0, 0, 65534, 65534]],
        &[[2, 0, 0, 0, 0], [8, 0, 0, 65534, 65535]],
        &[[2, 0, 0, 0, 0], [8, 0, 0, 0, 0]],
        &[[1, 8, 0, 0, 0], [16, 8, 65535, 65535, 0], [7, 0, 1, 0, 0]],
        &[[1, 8, 0, 0, 0], [17, 8, 65535, 8, 65535], [7, 0, 1, 0, 0]],
    ];
    for rows in sound {
        assert_eq!(checked(rows), (0, 0), "{rows:?}");
    }
}

#[test]
fn checker_13_naming() {
    let node = [1, 0, 0, 0, 0];
    assert_eq!(checked(&[node, [6, 0, 0, 0, 0]]), (13, 0));
    assert_eq!(checked(&[node, node]), (13, 0));
    assert_eq!(checked(&[node, node, [6, 0, 0, 0, 0]]), (13, 0));
    assert_eq!(checked(&[node, node, node, [6, 0, 2, 0, 0]]), (13, 1));
    assert_eq!(checked(&[[16, 1, 7, 5, 0]]), (13, 0));
    assert_eq!(checked(&[[16, 1, 7, 5, 0], [20, 0, 0, 0, 0]]), (13, 1));
    assert_eq!(checked(&[node, [16, 1, 7, 5, 0]]), (13, 0));
}

#[test]
fn checker_14_edgeless_bodies() {
    let (node, edge) = ([1, 0, 0, 0, 0], [3, 0, 0, 0, 0]);
    assert_eq!(checked(&[node, [8, 0, 0, 0, 0]]), (14, 1));
    assert_eq!(checked(&[edge, node, [5, 0, 1, 0, 0], [8, 2, 0, 1, 1]]), (14, 3));
    assert_eq!(checked(&[edge, node, [6, 0, 1, 0, 0], [8, 2, 0, 1, 1]]), (0, 0));
    assert_eq!(checked(&[node, node, [6, 0, 1, 0, 0], [8, 2, 0, 1, 1]]), (14, 3));
    assert_eq!(checked(&[edge, [8, 0, 0, 0, 0], [8, 1, 0, 1, 1]]), (14, 2));
    assert_eq!(checked(&[edge, [8, 0, 0, 1, 1], [8, 1, 0, 0, 1]]), (0, 0));
    // Two such repetitions: the lower counts, though the table names it last.
    assert_eq!(checked(&[node, [8, 0, 0, 1, 1], node, [8, 2, 0, 1, 1], [6, 3, 1, 0, 0]]), (14, 1));
}

#[test]
fn checker_15_depth() {
    let edge = [3, 0, 0, 0, 0];
    let once = |body: u16| [8, body, 0, 1, 1];
    assert_eq!(checked(&[edge, once(0), once(1)]), (0, 0));
    assert_eq!(checked(&[edge, once(0), once(1), once(2)]), (15, 3));
    assert_eq!(checked(&[edge, once(0), once(1), once(2), once(3)]), (15, 3));
    // Side by side does not add up.
    let beside = [edge, once(0), edge, once(2), [6, 1, 3, 0, 0], once(4)];
    assert_eq!(checked(&beside), (0, 0));
}

#[test]
fn checker_tries_causes_in_order() {
    let (node, edge) = ([1, 1, 0, 0, 0], [2, 1, 0, 0, 0]);
    let once = |body: u16| [8, body, 0, 1, 1];
    // The later cause has the lower row each time.
    assert_eq!(checked(&[node, node, [9, 0, 0, 0, 0]]), (12, 2));
    assert_eq!(checked(&[node, once(0), node, [5, 1, 1, 0, 0]]), (13, 1));
    assert_eq!(checked(&[node, once(0), node, edge, [5, 1, 3, 0, 0]]), (13, 2));
    let deep = [edge, once(0), once(1), once(2)];
    assert_eq!(checked(&[&deep[..], &[node, once(4), [6, 3, 5, 0, 0]]].concat()), (14, 5));
    let ill = [node, edge, [6, 0, 1, 0, 0]];
    let rows = [&ill[..], &[edge, once(3), once(4), once(5), [5, 2, 6, 0, 0]]].concat();
    assert_eq!(checked(&rows), (15, 6));
    assert_eq!(checked(&[&ill[..], &[node, once(3), [5, 2, 4, 0, 0]]].concat()), (14, 4));
}

#[test]
fn checker_17_comes_first_and_leaves_the_area() {
    for query in [alone(1, &P), alone(1, &[]), alone(1, &[9, 0, 0, 0, 0]), vec![], vec![1, 1, 8, 0]] {
        let (mut types, mut report) = ([GUARD; 71], [0xee; 64]);
        assert_eq!(check_query(&query, &mut types, &mut report), 1);
        assert_eq!(numbers(&report), [17, 0, 0, 0, 0, 0, 0, 0]);
        assert_eq!(types, [GUARD; 71]);
    }
}

#[test]
fn checker_clears_72_words_and_no_more() {
    let clash = query(&[(1, 0, &[[1, 1, 0, 0, 0]]), (1, 0, &[[2, 1, 0, 0, 0]])]);
    let refused = [(12, alone(1, &[9, 0, 0, 0, 0])), (31, vec![]), (32, vec![1, 1, 8, 0]), (33, clash)];
    for (number, query) in refused {
        let (mut types, mut report) = ([GUARD; 76], [0xee; 64]);
        assert_eq!(check_query(&query, &mut types, &mut report), 1);
        assert_eq!(numbers(&report), [number, 0, 0, 0, 0, 0, 0, 0]);
        assert_eq!((&types[..72], &types[72..]), (&[0; 72][..], &[GUARD; 4][..]));
    }
}

/// The report of judging with a work buffer of the given length, and that buffer.
fn judged(image: &[u8], query: &[u16], record: &[u16], work: usize) -> ([u64; 8], Vec<u16>) {
    let (mut work, mut report) = (vec![GUARD; work], [0xee; 64]);
    assert_eq!(judge_record(image, query, record, &mut work, &mut report), 1);
    (numbers(&report), work)
}

#[test]
fn judge_says_yes_and_no() {
    let (told, work) = judged(&t(), &alone(1, &P), &[1, 0, 0, 1, 1, 1, 0, 0, 1, 0], 20_003);
    assert_eq!(told, [0, 0, 1, 0, 0, 0, 0, 0]);
    assert!(cleared(&work));
    let misses: [&[u16]; 6] = [
        &[],
        &[1, 0, 0, 1, 1, 1, 0, 0, 1],
        &[1, 0, 0, 1, 1, 1, 0, 0, 1, 0, 0],
        &[1, 0, 0, 1, 1, 1, 0, 0, 1, 1],
        &[2, 0, 0, 1, 1, 2, 1, 2, 0, 0, 1, 1, 2, 1],
        &[65535; 40],
    ];
    for record in misses {
        let (told, work) = judged(&t(), &alone(1, &P), record, 20_003);
        assert_eq!(told, [0; 8], "{record:?}");
        assert!(cleared(&work));
    }
}

#[test]
fn judge_and_page_refuse_in_order() {
    let bad_image = plain(2, &[[0, 1, 1], [0, 5, 1]]);
    let bad_pattern = [1, 9, 0, 0, 0];
    let (node, edge): (&[[u16; 5]], &[[u16; 5]]) = (&[[1, 1, 0, 0, 0]], &[[2, 1, 0, 0, 0]]);
    let cases: [(&[u8], Vec<u16>, usize, [u64; 2]); 11] = [
        (&bad_image, vec![], 0, [5, 1]),
        (&t(), vec![], 0, [31, 0]),
        (&t(), query(&[(0, 9, &[]), (0, 9, &[])]), 0, [32, 0]),
        (&t(), alone(0, &bad_pattern), 0, [12, 0]),
        (&t(), query(&[(1, 0, node), (0, 0, edge), (1, 0, &[])]), 0, [11, 0]),
        (&t(), query(&[(1, 0, node), (0, 0, edge)]), 0, [33, 0]),
        (&t(), query(&[(1, 0, node), (1, 0, node), (5, 0, node)]), 0, [21, 0]),
        (&t(), alone(0, &P), 0, [21, 0]),
        (&t(), alone(5, &P), 20_000, [21, 0]),
        (&t(), alone(257, &P), 20_000, [21, 0]),
        (&t(), alone(4, &P), 19_999, [22, 0]),
    ];
    for (image, query, length, expected) in cases {
        let (told, work) = judged(image, &query, &[0; 4], length);
        assert_eq!(told, [expected[0], expected[1], 0, 0, 0, 0, 0, 0]);
        assert!(work.iter().all(|&word| word == GUARD));
        let (mut page, mut work, mut report) = (vec![GUARD; 3], vec![GUARD; length], [0xee; 64]);
        assert_eq!(fill_page(image, &query, &[], &mut [0; 4], &mut page, &mut work, &mut report), 1);
        assert_eq!(numbers(&report), [expected[0], expected[1], 0, 0, 0, 0, 0, 0]);
        assert_eq!(page, [GUARD; 3]);
        assert!(work.iter().all(|&word| word == GUARD));
    }
}

#[test]
fn page_23_only_where_the_next_answer_is_too_long() {
    let last: &[u16] = &[2, 0, 0, 1, 1, 2, 2, 1, 0, 0, 1, 0, 1, 1, 1, 2, 1];
    assert_eq!(fill(&t(), &P, 1, &[], 9).told, [23, 0, 0, 0, 0, 10, 0, 0]);
    assert_eq!(fill(&t(), &P, 1, &[1, 0, 0, 1, 1, 1, 0, 0, 1], 0).told, [23, 0, 0, 0, 0, 10, 0, 0]);
    assert_eq!(fill(&t(), &P, 1, last, 0).told, [0, 0, 0, 0, 1, 0, 0, 0]);
    assert_eq!(fill(&t(), &P, 1, &last[..16], 16).told, [23, 0, 0, 0, 0, 17, 0, 0]);
    assert_eq!(fill(&t(), &P, 1, &[65535], 0).told, [0, 0, 0, 0, 1, 0, 0, 0]);
}

#[test]
fn page_after_a_bookmark_that_is_no_record() {
    // An answer that is a proper beginning of the bookmark is not after it.
    let filled = fill(&t(), &[1, 0, 0, 0, 0], 1, &[0, 1, 0], 9);
    assert_eq!(filled.told, [0, 0, 1, 2, 1, 0, 0, 0]);
    assert_eq!(filled.page[..2], [0, 2]);
    // A bookmark that is a proper beginning of an answer has it after it.
    let filled = fill(&t(), &[1, 0, 0, 0, 0], 1, &[0], 9);
    assert_eq!(filled.told, [0, 0, 3, 6, 1, 0, 0, 0]);
}

#[test]
fn a_page_stops_at_the_first_record_that_does_not_fit() {
    // The first two records take 10 words each.
    let filled = fill(&t(), &P, 1, &[], 19);
    assert_eq!(filled.told, [0, 0, 1, 10, 0, 0, 0, 0]);
    assert_eq!(filled.page[10..], [GUARD; 9]);
    // A short record that would fit must not overtake the long one before it.
    let rows = [[2, 1, 0, 0, 0], [8, 0, 0, 2, 2], [2, 2, 0, 0, 0], [3, 0, 0, 0, 0], [6, 2, 3, 0, 0], [5, 1, 4, 0, 0]];
    let image = plain(3, &[[0, 1, 1], [1, 2, 1], [2, 1, 1]]);
    let all = records(&image, &rows, 1);
    let falls = (1..all.len()).find(|&at| all[at].len() < all[at - 1].len()).expect("a shorter one after a longer");
    let bookmark = if falls < 2 { vec![] } else { all[falls - 2].clone() };
    let room = all[falls].len();
    let filled = fill(&image, &rows.concat(), 1, &bookmark, room);
    assert_eq!(filled.told, [23, 0, 0, 0, 0, all[falls - 1].len() as u64, 0, 0]);
}

#[test]
fn a_short_report_area_leaves_everything() {
    for length in [0, 1, 63] {
        let (mut report, mut types) = (vec![0xee; length], [GUARD; 72]);
        let (mut page, mut work) = ([GUARD; 30], vec![GUARD; 20_000]);
        assert_eq!(read_image(&t(), &mut report), 0);
        assert_eq!(check_query(&alone(1, &P), &mut types, &mut report), 0);
        assert_eq!(judge_record(&t(), &alone(1, &P), &[0], &mut work, &mut report), 0);
        let mut sitting = [0; 4];
        assert_eq!(fill_page(&t(), &alone(1, &P), &[], &mut sitting, &mut page, &mut work, &mut report), 0);
        assert_eq!(report, vec![0xee; length]);
        assert_eq!((types, page, sitting), ([GUARD; 72], [GUARD; 30], [0; 4]));
        assert!(work.iter().all(|&word| word == GUARD));
    }
}

#[test]
fn a_long_report_area_keeps_what_is_past() {
    let mut report = [0xee; 72];
    assert_eq!(read_image(&plain(2, &[[0, 9, 1]]), &mut report), 1);
    assert_eq!(numbers(&report), [5, 0, 0, 0, 0, 0, 0, 0]);
    assert_eq!(report[64..], [0xee; 8]);
}

#[test]
fn a_refused_listing_is_empty() {
    assert_eq!(cause(&t(), &alone(0, &P)), (21, 0));
    assert_eq!(cause(&t()[..9], &alone(0, &P)), (1, 0));
    assert_eq!(cause(&t(), &alone(0, &P[..4])), (11, 0));
    assert!(enumerator::listing::Listing::new(&t(), &alone(0, &P)).records.is_empty());
}
