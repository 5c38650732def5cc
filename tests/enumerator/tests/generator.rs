//! The generators do what they say: each way of damage gives its refusal, and each
//! sort of case occurs.

mod common;
use common::*;
use enumerator::pattern::{Condition, Form, Pattern};
use enumerator::query::{self, alone, words};
use enumerator::random::source::Source;
use enumerator::random::{buffers, candidates, conditions, cost, damage, faults, graphs, parts, queries, query_faults, subjects, tables};
use std::collections::BTreeSet;

#[test]
fn each_damage_gives_its_refusal() {
    let mut rows = BTreeSet::new();
    for way in damage::ALL {
        for seed in 0..40 {
            let (image, refusal) = damage::damaged(&mut Source::new(seed), way);
            assert_eq!(read(&image), (refusal.number, refusal.row), "{way:?} {seed}");
            rows.insert((refusal.number, refusal.row));
        }
    }
    for number in 1..=7 {
        let of_number = rows.iter().filter(|(found, _)| *found == number).count();
        assert!(if number < 4 { of_number == 1 } else { of_number > 3 }, "{number} {of_number}");
    }
}

#[test]
fn two_damages_give_the_earlier_one() {
    let mut numbers = BTreeSet::new();
    for seed in 0..200 {
        let (image, refusal) = damage::damaged_twice(&mut Source::new(seed));
        assert_eq!(read(&image), (refusal.number, refusal.row), "{seed}");
        numbers.insert(refusal.number);
    }
    assert_eq!(numbers, BTreeSet::from([4, 5, 6]));
}

#[test]
fn graphs_without_damage_are_read() {
    let mut source = Source::new(1);
    let mut sizes = BTreeSet::new();
    for _ in 0..300 {
        let draft = graphs::small(&mut source);
        sizes.insert(draft.sections[0].len());
        assert_eq!(read(&draft.image()), (0, 0));
        assert_eq!(read(&graphs::rich(&mut source).image()), (0, 0));
        assert_eq!(read(&graphs::long(&mut source).image()), (0, 0));
    }
    assert_eq!(sizes, (0..=6).collect());
}

#[test]
fn large_graphs_reach_and_pass_the_bounds() {
    let mut source = Source::new(2);
    let mut seen = BTreeSet::new();
    for _ in 0..120 {
        let draft = graphs::large(&mut source);
        let past = (0..4).any(|section| draft.sections[section].len() > graphs::MOST[section]);
        assert_eq!(read(&draft.image()), if past { (3, 0) } else { (0, 0) });
        for section in 0..4 {
            let over = draft.sections[section].len() as i64 - graphs::MOST[section] as i64;
            seen.extend((0..=1).contains(&over).then_some((section, over)));
        }
    }
    assert_eq!(seen.len(), 8, "{seen:?}");
}

#[test]
fn scrambled_images_differ_in_refusal() {
    let numbers: BTreeSet<u64> =
        (0..400).map(|seed| read(&damage::scrambled(&mut Source::new(seed))).0).collect();
    assert!(numbers.len() >= 6, "{numbers:?}");
}

#[test]
fn each_fault_gives_its_refusal() {
    let mut numbers = BTreeSet::new();
    for way in faults::ALL {
        for seed in 0..60 {
            let mut source = Source::new(seed);
            let plain = faults::fault(&mut source, way);
            let placed = faults::behind_sound_part(&mut source, &plain);
            for fault in [&plain, &placed] {
                let expected = (fault.refusal.number, fault.refusal.row);
                assert_eq!(checked(&fault.rows), expected, "{way:?} {seed} {:?}", fault.rows);
            }
            numbers.insert(plain.refusal.number);
        }
    }
    assert_eq!(numbers, (12..=16).collect());
}

#[test]
fn two_faults_give_the_smaller_number_then_the_lower_row() {
    let mut source = Source::new(12);
    for one in faults::ALL {
        for other in faults::ALL {
            let (low, high) = (faults::fault(&mut source, one), faults::fault(&mut source, other));
            let both = faults::both(&mut source, &low, &high);
            let expected = (both.refusal.number, both.refusal.row);
            assert_eq!(checked(&both.rows), expected, "{one:?} {other:?} {:?}", both.rows);
        }
    }
}

#[test]
fn sound_tables_are_accepted() {
    let mut source = Source::new(6);
    let (mut kinds, mut most) = (BTreeSet::new(), 0);
    for _ in 0..2000 {
        let size = source.below(14);
        let words = tables::sound(&mut source, size);
        assert_eq!(checked_words(&words), (0, 0), "{words:?}");
        let repeated = tables::repeated(&mut source, 4);
        assert_eq!(checked_words(&repeated), (0, 0), "{repeated:?}");
        kinds.extend(words.chunks(5).map(|row| row[0]));
        most = most.max(words.len() / 5);
    }
    assert_eq!(kinds, (1..=8).chain(16..=20).collect());
    assert!(most > 25, "{most}");
    for count in 1..=64 {
        assert_eq!((tables::chain(count).len(), checked(&tables::chain(count))), (count, (0, 0)));
    }
    assert_eq!(checked(&tables::chain(65)), (11, 0));
}

#[test]
fn tables_of_any_sort_meet_every_refusal() {
    let mut source = Source::new(8);
    let numbers: BTreeSet<u64> = (0..1500).map(|_| checked_words(&tables::any(&mut source).1).0).collect();
    assert_eq!(numbers, [0, 11, 12, 13, 14, 15, 16].into());
    let mut source = Source::new(8);
    let notes: BTreeSet<String> = (0..3000).map(|_| tables::any(&mut source).0).collect();
    for way in faults::ALL {
        assert!(notes.contains(&format!("{way:?}")), "{way:?}");
    }
}

/// The checker does not see 21; all that the fixed things give cause for does.
fn assert_refused(faulty: &query_faults::Faulty, ways: &[query_faults::Way]) {
    let expected = (faulty.refusal.number, faulty.refusal.row);
    let by_checker = if expected.0 == 21 { (0, 0) } else { expected };
    assert_eq!(checked_query(&faulty.words), by_checker, "{ways:?} {:?}", faulty.words);
    assert_eq!(cause(&plain(0, &[]), &faulty.words), expected, "{ways:?} {:?}", faulty.words);
}

#[test]
fn each_fault_of_a_query_gives_its_refusal() {
    let mut numbers = BTreeSet::new();
    for way in query_faults::ALL {
        for seed in 0..40 {
            let faulty = query_faults::faulty(&mut Source::new(seed), &[way]);
            assert_refused(&faulty, &[way]);
            numbers.insert(faulty.refusal.number);
        }
    }
    assert_eq!(numbers, [11, 12, 16, 21, 31, 32, 33].into());
}

#[test]
fn two_and_three_faults_of_a_query_give_the_earliest() {
    let mut source = Source::new(14);
    for one in query_faults::ALL {
        for other in query_faults::ALL {
            let faulty = query_faults::faulty(&mut source, &[one, other]);
            assert_refused(&faulty, &[one, other]);
        }
    }
    let mut seen = BTreeSet::new();
    for _ in 0..4000 {
        let ways = query_faults::ways(&mut source);
        let faulty = query_faults::faulty(&mut source, &ways);
        assert_refused(&faulty, &ways);
        seen.insert((faulty.refusal.number, ways.len() > 1));
    }
    for number in (11..=16).chain([31, 32, 33]) {
        assert!([false, true].iter().all(|others| seen.contains(&(number, *others))), "{number}");
    }
}

#[test]
fn sound_parts_fit_together() {
    let mut source = Source::new(15);
    let (mut counts, mut names, mut shared, mut apart) = ([0; 5], BTreeSet::new(), BTreeSet::new(), 0);
    for _ in 0..3000 {
        let parts = parts::sound(&mut source);
        let query = query::check(&words(&parts)).unwrap();
        counts[parts.len()] += 1;
        names.insert(parts.iter().map(|part| part.name).filter(|name| *name > 0).collect::<Vec<_>>());
        let of_two = |variable: &&u16| query.parts.iter().filter(|part| part.types.contains_key(variable)).count() > 1;
        let both: Vec<u16> = query.types.keys().filter(of_two).copied().collect();
        apart += (parts.len() > 1 && both.is_empty()) as usize;
        shared.extend(both.iter().map(|variable| query.types[variable].numbers()));
    }
    assert!(counts[1..].iter().all(|&count| count > 300), "{counts:?}");
    assert!(names.len() > 40 && names.contains(&vec![12, 9]) && names.contains(&vec![9, 12]), "{names:?}");
    assert_eq!(shared, [vec![1], vec![2]].into());
    assert!(apart > 300, "{apart}");
}

#[test]
fn queries_of_any_sort_meet_every_refusal() {
    let mut source = Source::new(8);
    let numbers: BTreeSet<u64> = (0..3000).map(|_| checked_query(&queries::any(&mut source).1).0).collect();
    assert_eq!(numbers, [0, 11, 12, 13, 14, 15, 16, 31, 32, 33].into());
}

#[test]
fn subjects_of_any_sort_meet_every_cause() {
    let mut source = Source::new(16);
    let mut numbers = BTreeSet::new();
    for _ in 0..4000 {
        let subject = subjects::any(&mut source);
        numbers.insert(cause(&subject.image, &subject.query).0);
    }
    assert_eq!(numbers, (0..=7).chain(11..=16).chain([21, 31, 32, 33]).collect());
}

fn depth(condition: &Condition) -> usize {
    match condition {
        Condition::Constant { .. } | Condition::Equal { .. } => 0,
        Condition::And(left, right) | Condition::Or(left, right) => 1 + depth(left).max(depth(right)),
        Condition::Not(inner) => 1 + depth(inner),
    }
}

/// Each condition with the kinds of the rows around its pattern.
fn placed<'a>(pattern: &'a Pattern, mut around: BTreeSet<u16>, found: &mut Vec<(&'a Condition, BTreeSet<u16>)>) {
    let kind = match &pattern.form {
        Form::Node { .. } | Form::Edge { .. } => return,
        Form::Union(..) => 5,
        Form::Concatenation(..) => 6,
        Form::Conditioned(_, condition) => {
            found.push((condition, around.clone()));
            7
        }
        Form::Repetition { .. } => 8,
    };
    around.insert(kind);
    pattern.parts().into_iter().for_each(|part| placed(part, around.clone(), found));
}

#[test]
fn conditions_are_deep_and_stand_within_every_kind() {
    let mut source = Source::new(18);
    let (mut depths, mut places, mut variables) = ([0; 5], BTreeSet::new(), BTreeSet::new());
    let (mut counts, mut widest) = ([0; 3], 0);
    for _ in 0..1000 {
        let subject = conditions::any(&mut source).subject;
        let query = query::check(&subject.query).unwrap();
        counts[query.parts.len()] += 1;
        let mut found = Vec::new();
        query.parts.iter().for_each(|part| placed(&part.pattern, BTreeSet::new(), &mut found));
        for (condition, around) in found {
            depths[depth(condition)] += 1;
            places.extend(around);
            widest = widest.max(condition.variables().len());
            variables.extend(condition.variables());
        }
    }
    assert!(depths.iter().all(|&count| count > 100) && depths[4] > 300, "{depths:?}");
    assert_eq!(places, (5..=8).collect());
    assert_eq!(variables, (1..=8).collect());
    assert!(widest >= 4 && counts[1] > 500 && counts[2] > 100, "{widest} {counts:?}");
}

/// A condition only ever takes records away, and both sorts of record occur to be judged.
#[test]
fn conditions_choose_among_the_unconditioned_records() {
    let mut source = Source::new(19);
    let mut kept = BTreeSet::new();
    for _ in 0..300 {
        let drawn = conditions::any(&mut source);
        assert!(drawn.listing.records.iter().all(|record| drawn.unconditioned.contains(record)), "{:?}", drawn.subject);
        kept.extend(drawn.unconditioned.iter().map(|record| drawn.listing.records.contains(record)));
    }
    assert_eq!(kept, BTreeSet::from([false, true]));
}

#[test]
fn candidates_of_each_sort_occur_and_both_judgements() {
    let mut source = Source::new(10);
    let (mut seen, mut rewritten) = (BTreeSet::new(), BTreeSet::new());
    for _ in 0..1200 {
        let (_, listing) = subjects::fruitful(&mut source);
        let (sort, words) = candidates::any(&mut source, &listing);
        let yes = listing.records.contains(&words);
        seen.insert((sort, yes));
        if let Some(words) = candidates::candidate(&mut source, &listing, candidates::Candidate::SplitElsewhere) {
            rewritten.insert(listing.records.contains(&words));
        }
    }
    for sort in candidates::ALL {
        let wanted = sort == candidates::Candidate::Record;
        assert!(seen.contains(&(sort, wanted)), "{sort:?}");
    }
    assert!(!seen.contains(&(candidates::Candidate::Record, false)));
    assert!(rewritten.contains(&false));
}

/// Some are answers all the same: a shortest trail is a trail.
#[test]
fn records_of_another_restrictor_are_judged_both_ways() {
    let mut source = Source::new(13);
    let mut judged = BTreeSet::new();
    for _ in 0..300 {
        let (subject, listing) = subjects::fruitful(&mut source);
        let words = subjects::of_another_restrictor(&mut source, &subject);
        judged.extend(words.map(|words| listing.records.contains(&words)));
    }
    assert_eq!(judged, BTreeSet::from([false, true]));
}

/// Parts that share nothing, or are alike, have such records all the same.
#[test]
fn records_of_another_order_and_parts_side_by_side_are_judged_both_ways() {
    let mut source = Source::new(17);
    let (mut ordered, mut beside) = (BTreeSet::new(), BTreeSet::new());
    for _ in 0..600 {
        let (subject, listing) = subjects::fruitful(&mut source);
        let judged = |words: Vec<u16>| listing.records.contains(&words);
        ordered.extend(subjects::of_another_order(&mut source, &subject).map(judged));
        beside.extend(subjects::side_by_side(&mut source, &subject).map(judged));
    }
    assert_eq!(ordered, BTreeSet::from([false, true]));
    assert_eq!(beside, BTreeSet::from([false, true]));
}

#[test]
fn a_line_fills_several_pages() {
    let listing = subjects::Subject { image: graphs::line(28).image(), query: alone(1, &P) }.listing();
    assert!(listing.records.iter().map(Vec::len).sum::<usize>() > 20_000);
}

#[test]
fn buffers_lie_on_both_sides_of_their_bounds() {
    let mut source = Source::new(11);
    let lent: Vec<_> = (0..400).map(|_| buffers::lent(&mut source, &[vec![0; 10]])).collect();
    for length in [0, 63, 64] {
        assert!(lent.iter().any(|call| call.report.len() == length), "{length}");
    }
    for length in [0, 19_999, 20_000] {
        assert!(lent.iter().any(|call| call.work.len() == length), "{length}");
    }
    for length in [0, 9, 10, 11] {
        assert!(lent.iter().any(|call| call.page.len() == length), "{length}");
    }
    assert!(lent.iter().any(|call| call.report.len() > 64 && call.work.len() > 20_000));
    let types: Vec<usize> = (0..400).map(|_| buffers::types(&mut source).len()).collect();
    assert!([0, 71, 72, 73].iter().all(|length| types.contains(length)));
}

#[test]
fn the_cost_estimate_turns_away_what_would_blow_up() {
    let loops = plain(1, &[[0, 0, 1]; 12]);
    assert!(!cost::affordable(&loops, &alone(1, &P)));
    assert!(cost::affordable(&loops, &alone(1, &[1, 1, 0, 0, 0])));
    assert!(cost::affordable(&t(), &alone(1, &P)));
    // Refused at once, so it costs nothing.
    assert!(cost::affordable(&loops, &alone(0, &P)));
    // Each part has 12 answers: two of them joined are cheap, four are not.
    let edge: (u16, u16, &[[u16; 5]]) = (1, 0, &[[2, 0, 0, 0, 0]]);
    assert!(cost::affordable(&loops, &query(&[edge; 2])));
    assert!(!cost::affordable(&loops, &query(&[edge; 4])));
    // Joined over their edge they are cheap again.
    let same: (u16, u16, &[[u16; 5]]) = (1, 0, &[[2, 1, 0, 0, 0]]);
    assert!(cost::affordable(&loops, &query(&[same; 4])));
}

#[test]
fn a_seed_gives_the_same_cases_again() {
    let draw = |seed| {
        let mut source = Source::new(seed);
        (0..20).map(|_| format!("{:?}", subjects::any(&mut source))).collect::<Vec<_>>()
    };
    assert_eq!(draw(77), draw(77));
    assert_ne!(draw(77), draw(78));
}
