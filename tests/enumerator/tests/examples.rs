//! Every example of the scope, those marked with a star and the others.

mod common;
use common::*;
use enumerator::listing::Listing;
use enumerator::machine::{run, Lent};
use enumerator::operations::numbers;
use enumerator::program;
use enumerator::query::alone;

const RECORDS: [&[u16]; 3] = [
    &[1, 0, 0, 1, 1, 1, 0, 0, 1, 0],
    &[1, 1, 1, 2, 1, 1, 1, 1, 2, 1],
    &[2, 0, 0, 1, 1, 2, 2, 1, 0, 0, 1, 0, 1, 1, 1, 2, 1],
];

#[test]
fn t_and_p_have_three_records() {
    assert_eq!(Listing::new(&t(), &alone(1, &P)).records, RECORDS);
}

#[test]
fn the_program_prints_t_and_p_byte_for_byte() {
    let mut input = bytes(&[40, 10, 1]);
    input.extend(t());
    input.extend(bytes(&P));
    let expected = "types 1:4.2\n\
                    1 0 0 1 1 1 0 0 1 0\n\
                    1 1 1 2 1 1 1 1 2 1\n\
                    2 0 0 1 1 2 2 1 0 0 1 0 1 1 1 2 1\n\
                    done 3\n";
    assert_eq!(program::print(&input), expected);
}

#[test]
fn pages_of_ten_words_then_23_needing_17() {
    let mut bookmark: &[u16] = &[];
    for record in &RECORDS[..2] {
        let filled = fill(&t(), &P, 1, bookmark, 10);
        assert_eq!(filled.told, [0, 0, 1, 10, 0, 0, 0, 0]);
        assert_eq!(filled.page, *record);
        assert!(cleared(&filled.work));
        bookmark = record;
    }
    let filled = fill(&t(), &P, 1, bookmark, 10);
    assert_eq!(filled.told, [23, 0, 0, 0, 0, 17, 0, 0]);
    assert_eq!(filled.page, [GUARD; 10]);
    assert!(cleared(&filled.work));
    let filled = fill(&t(), &P, 1, bookmark, 17);
    assert_eq!(filled.told, [0, 0, 1, 17, 1, 0, 0, 0]);
    assert_eq!(filled.page, RECORDS[2]);
}

#[test]
fn the_machine_gives_the_same_pages() {
    let call = Lent { sitting: vec![0; 4], page: vec![GUARD; 10], work: vec![GUARD; 20_003], report: vec![0xee; 64] };
    let outcomes = run(&Listing::new(&t(), &alone(1, &P)), &vec![call; 4]);
    for (outcome, record) in outcomes.iter().zip(&RECORDS[..2]) {
        assert_eq!(numbers(&outcome.left.report), [0, 0, 1, 10, 0, 0, 0, 0]);
        assert_eq!(outcome.left.page, *record);
    }
    for outcome in &outcomes[2..] {
        assert_eq!(numbers(&outcome.left.report), [23, 0, 0, 0, 0, 17, 0, 0]);
        assert_eq!(outcome.left.page, [GUARD; 10]);
        assert!(cleared(&outcome.left.work));
    }
}

#[test]
fn a_page_with_room_to_spare_keeps_what_is_past() {
    let filled = fill(&t(), &P, 1, &[], 40);
    assert_eq!(filled.told, [0, 0, 3, 37, 1, 0, 0, 0]);
    assert_eq!(filled.page[..37], RECORDS.concat());
    assert_eq!(filled.page[37..], [GUARD; 3]);
}

#[test]
fn no_nodes_give_done_and_count_0() {
    let empty = bytes(&[16, 0, 16, 0, 16, 0, 16, 0]);
    let patterns: [&[[u16; 5]]; 6] = [
        &[[2, 1, 0, 0, 0], [8, 0, 0, 1, 65535]],
        &[[1, 1, 0, 0, 0]],
        &[[4, 0, 0, 0, 0]],
        &[[2, 1, 0, 0, 0], [8, 0, 0, 0, 0]],
        &[[1, 1, 0, 0, 0], [2, 2, 0, 0, 0], [5, 0, 1, 0, 0]],
        &[[1, 1, 0, 0, 0], [16, 1, 7, 5, 0], [20, 1, 0, 0, 0], [7, 0, 2, 0, 0]],
    ];
    for rows in patterns {
        for restrictor in 1..=4 {
            assert_eq!(records(&empty, rows, restrictor), Vec::<Vec<u16>>::new());
            let filled = fill(&empty, &rows.concat(), restrictor, &[], 0);
            assert_eq!(filled.told, [0, 0, 0, 0, 1, 0, 0, 0]);
        }
    }
}

#[test]
fn an_undirected_edge_is_walked_either_way() {
    assert_eq!(records(&t(), &[[4, 0, 0, 0, 0]], 1), [[1, 0, 2, 2], [1, 2, 2, 0]]);
}

#[test]
fn a_directed_loop_walked_both_ways_is_one_record() {
    let image = plain(1, &[[0, 0, 1]]);
    let rows = [[2, 1, 0, 0, 0], [3, 1, 0, 0, 0], [5, 0, 1, 0, 0]];
    assert_eq!(records(&image, &rows, 1), [[1, 0, 0, 0, 0]]);
    assert_eq!(records(&image, &rows, 2), Vec::<Vec<u16>>::new());
}

#[test]
fn a_union_fills_with_nothing() {
    let rows = [[1, 1, 0, 0, 0], [2, 2, 0, 0, 0], [5, 0, 1, 0, 0]];
    let expected: [&[u16]; 5] = [
        &[0, 0, 0, 65535],
        &[0, 1, 1, 65535],
        &[0, 2, 2, 65535],
        &[1, 0, 0, 1, 65535, 0],
        &[1, 1, 1, 2, 65535, 1],
    ];
    assert_eq!(records(&t(), &rows, 1), expected);
}

#[test]
fn count_0_gives_each_node_and_empty_groups() {
    let rows = [[2, 1, 0, 0, 0], [8, 0, 0, 0, 0]];
    assert_eq!(records(&t(), &rows, 1), [[0, 0, 0], [0, 1, 0], [0, 2, 0]]);
}

#[test]
fn refused_examples() {
    assert_eq!(checked(&[[1, 1, 0, 0, 0], [2, 1, 0, 0, 0], [6, 0, 1, 0, 0]]), (16, 2));
    assert_eq!(checked(&[[1, 0, 0, 0, 0], [8, 0, 0, 1, 2]]), (14, 1));
    assert_eq!(checked(&[[2, 0, 0, 0, 0], [8, 0, 0, 2, 1]]), (12, 1));
}

/// As Q-2 changes it: not unknown is unknown, and no match is kept.
#[test]
fn not_of_an_absent_key_gives_no_match() {
    let rows = [[1, 1, 0, 0, 0], [16, 1, 7, 5, 0], [20, 1, 0, 0, 0], [7, 0, 2, 0, 0]];
    assert_eq!(records(&plain(1, &[]), &rows, 1), Vec::<Vec<u16>>::new());
    // With another value it is false that they are equal, and the node matches.
    let valued = image(&[1], &[], &[], &[[0, 7, 4]]);
    assert_eq!(records(&valued, &rows, 1), [[0, 0, 0]]);
}

#[test]
fn shortest_trails_of_t_by_forward_or_undirected_edges() {
    let rows = [[2, 0, 0, 0, 0], [4, 0, 0, 0, 0], [5, 0, 1, 0, 0], [8, 2, 0, 1, 65535]];
    let expected: [&[u16]; 9] = [
        &[1, 0, 0, 1],
        &[1, 0, 2, 2],
        &[1, 1, 1, 2],
        &[1, 2, 2, 0],
        &[2, 1, 1, 2, 2, 0],
        &[2, 2, 2, 0, 0, 1],
        &[3, 0, 0, 1, 1, 2, 2, 0],
        &[3, 1, 1, 2, 2, 0, 0, 1],
        &[3, 2, 2, 0, 0, 1, 1, 2],
    ];
    assert_eq!(records(&t(), &rows, 3), expected);
}

#[test]
fn bounds_of_nodes_rows_and_variables() {
    assert_eq!(read(&plain(200, &[])), (0, 0));
    assert_eq!(read(&plain(201, &[])), (3, 0));
    // Forward edges joined by unions make 63 rows; one more of either sort ends the table.
    let mut rows = vec![[2, 0, 0, 0, 0]];
    while rows.len() < 63 {
        let last = rows.len() as u16 - 1;
        rows.extend([[2, 0, 0, 0, 0], [5, last, last + 1, 0, 0]]);
    }
    let repeated = [&rows[..], &[[8, 62, 0, 0, 65535]]].concat();
    assert_eq!((repeated.len(), checked(&repeated)), (64, (0, 0)));
    let joined = [&rows[..], &[[1, 0, 0, 0, 0], [6, 62, 63, 0, 0]]].concat();
    assert_eq!((joined.len(), checked(&joined)), (65, (11, 0)));
    for kind in 1..=4 {
        assert_eq!(checked(&[[kind, 8, 0, 0, 0]]), (0, 0));
        assert_eq!(checked(&[[kind, 9, 0, 0, 0]]), (12, 0));
    }
}
