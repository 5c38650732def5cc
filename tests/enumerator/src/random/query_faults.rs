//! Queries refused on purpose by 31, 32, 11 to 16 of a part, 33 or 21: by one cause or by
//! several at once, each with the refusal it must get.

use super::faults::{self, fault};
use super::parts::of_parts;
use super::source::Source;
use super::tables::chain;
use crate::query::{words, Part};
use crate::refusal::Refusal;
use crate::table::Row;

/// Words that are not laid out as parts (31).
#[derive(Clone, Copy, PartialEq, Eq, PartialOrd, Ord, Debug)]
pub enum Layout {
    NoWords,
    NoPart,
    FiveParts,
    MostParts,
    PartsPast256,
    PartMore,
    PartLess,
    WordShort,
    WordLong,
    HeadsCut,
    LengthsWrap,
}

/// A name outside 0 and 9 to 12, or one used twice (32).
#[derive(Clone, Copy, PartialEq, Eq, PartialOrd, Ord, Debug)]
pub enum Naming {
    Of(u16),
    TwiceBeside,
    TwiceApart,
}

/// A part whose pattern is at fault (11 to 16).
#[derive(Clone, Copy, PartialEq, Eq, PartialOrd, Ord, Debug)]
pub enum Table {
    NoRows,
    PartRow,
    TooManyRows,
    NamesPath,
    ConditionElsewhere,
    Of(faults::Way),
}

/// Two parts that share a variable which is not Node in both or Edge in both (33).
#[derive(Clone, Copy, PartialEq, Eq, PartialOrd, Ord, Debug)]
pub enum Clash {
    NodeEdge,
    NodeMaybe,
    EdgeGroup,
    NodeGroup,
    Maybes,
    Groups,
}

#[derive(Clone, Copy, PartialEq, Eq, PartialOrd, Ord, Debug)]
pub enum Way {
    Layout(Layout),
    Naming(Naming),
    Table(Table),
    Clash(Clash),
    Restrictor(u16),
}

/// Every way, but of the faults of a table only one, as there are many.
pub const ALL: [Way; 34] = [
    Way::Layout(Layout::NoWords), Way::Layout(Layout::NoPart), Way::Layout(Layout::FiveParts),
    Way::Layout(Layout::MostParts), Way::Layout(Layout::PartsPast256), Way::Layout(Layout::PartMore),
    Way::Layout(Layout::PartLess), Way::Layout(Layout::WordShort), Way::Layout(Layout::WordLong),
    Way::Layout(Layout::HeadsCut), Way::Layout(Layout::LengthsWrap),
    Way::Naming(Naming::Of(1)), Way::Naming(Naming::Of(8)), Way::Naming(Naming::Of(13)),
    Way::Naming(Naming::Of(265)), Way::Naming(Naming::Of(65535)), Way::Naming(Naming::TwiceBeside),
    Way::Naming(Naming::TwiceApart),
    Way::Table(Table::NoRows), Way::Table(Table::PartRow), Way::Table(Table::TooManyRows),
    Way::Table(Table::NamesPath), Way::Table(Table::ConditionElsewhere),
    Way::Table(Table::Of(faults::Way::ConcatenationNodeEdge)),
    Way::Clash(Clash::NodeEdge), Way::Clash(Clash::NodeMaybe), Way::Clash(Clash::EdgeGroup),
    Way::Clash(Clash::NodeGroup), Way::Clash(Clash::Maybes), Way::Clash(Clash::Groups),
    Way::Restrictor(0), Way::Restrictor(5), Way::Restrictor(257), Way::Restrictor(65535),
];

/// A query's words, and the first cause among all that were put into them.
#[derive(Clone, Debug)]
pub struct Faulty {
    pub words: Vec<u16>,
    pub refusal: Refusal,
}

/// One to three ways that four parts can hold. A table's fault may be any.
pub fn ways(source: &mut Source) -> Vec<Way> {
    loop {
        let count = source.between(1, 3);
        let draw = |_| match source.pick(&ALL) {
            Way::Table(Table::Of(_)) => Way::Table(Table::Of(source.pick(&faults::ALL))),
            way => way,
        };
        let ways: Vec<Way> = (0..count).map(draw).collect();
        if ways.iter().map(|way| sites(*way)).sum::<usize>() <= 4 {
            return ways;
        }
    }
}

/// The parts whose patterns a way takes.
fn sites(way: Way) -> usize {
    match way {
        Way::Clash(_) => 2,
        Way::Table(_) => 1,
        _ => 0,
    }
}

/// The fewest parts with which a way can be had at all.
fn least_parts(way: Way) -> usize {
    match way {
        Way::Naming(Naming::TwiceApart) => 3,
        Way::Naming(Naming::TwiceBeside) | Way::Layout(Layout::LengthsWrap) => 2,
        _ => sites(way).max(1),
    }
}

/// A query with all of these faults, which take at most four parts.
pub fn faulty(source: &mut Source, ways: &[Way]) -> Faulty {
    let taken = ways.iter().map(|way| sites(*way)).sum::<usize>();
    let least = ways.iter().map(|way| least_parts(*way)).fold(taken.max(1), usize::max);
    let count = source.between(least, 4);
    let (mut parts, mut free) = (of_parts(source, count), shuffled(source, count));
    let mut causes = Vec::new();
    for &way in ways {
        let sites = free.split_off(free.len() - sites(way));
        causes.push(put(source, way, &sites, &mut parts));
    }
    let layout = ways.iter().find_map(|way| if let Way::Layout(layout) = way { Some(*layout) } else { None });
    let words = layout.map_or(words(&parts), |layout| ill_laid(source, layout, parts.clone()));
    let (_, refusal) = causes.into_iter().min().expect("at least one way");
    Faulty { words, refusal }
}

fn shuffled(source: &mut Source, count: usize) -> Vec<usize> {
    let mut left: Vec<usize> = (0..count).collect();
    (0..count).map(|_| left.remove(source.below(left.len()))).collect()
}

/// Puts a fault into the parts and gives its refusal with its place in the order of
/// causes: 31, 32, 11 to 16 part by part, 33, 21. Layouts are put in last.
fn put(source: &mut Source, way: Way, sites: &[usize], parts: &mut [Part]) -> ((usize, usize), Refusal) {
    match way {
        Way::Layout(_) => ((0, 0), Refusal::of(31)),
        Way::Naming(naming) => {
            put_name(source, naming, parts);
            ((1, 0), Refusal::of(32))
        }
        Way::Table(table) => {
            let (pattern, refusal) = of_table(source, table);
            parts[sites[0]].pattern = pattern;
            ((2, sites[0]), refusal)
        }
        Way::Clash(clash) => {
            put_clash(source, clash, sites, parts);
            ((3, 0), Refusal::of(33))
        }
        Way::Restrictor(restrictor) => {
            parts[source.below(parts.len())].restrictor = restrictor;
            ((4, 0), Refusal::of(21))
        }
    }
}

fn of_table(source: &mut Source, table: Table) -> (Vec<u16>, Refusal) {
    let kind = source.between(1, 4) as u16;
    match table {
        Table::NoRows => (vec![], Refusal::of(11)),
        Table::PartRow => (vec![2; source.pick(&[1, 4, 6, 321])], Refusal::of(11)),
        Table::TooManyRows => (chain(65).concat(), Refusal::of(11)),
        Table::NamesPath => (vec![kind, source.between(9, 12) as u16, 0, 0, 0], Refusal::of(12)),
        // Variable 1 or 5 is likely to be in another part.
        Table::ConditionElsewhere => {
            let rows = [[kind, 2, 0, 0, 0], [16, source.pick(&[1, 5]), 7, 5, 0], [7, 0, 1, 0, 0]];
            (rows.concat(), Refusal::at(16, 2))
        }
        Table::Of(way) => {
            let fault = fault(source, way);
            (fault.rows.concat(), fault.refusal)
        }
    }
}

/// Two tables, each sound, that give one variable types which do not join.
fn put_clash(source: &mut Source, clash: Clash, sites: &[usize], parts: &mut [Part]) {
    let v = source.between(1, 8) as u16;
    let node: Vec<Row> = vec![[1, v, 0, 0, 0]];
    let edge: Vec<Row> = vec![[source.between(2, 4) as u16, v, 0, 0, 0]];
    let maybe: Vec<Row> = vec![[1, v, 0, 0, 0], [2, 0, 0, 0, 0], [5, 0, 1, 0, 0]];
    let group: Vec<Row> = vec![[2, v, 0, 0, 0], [8, 0, 0, 1, 65535]];
    let node_group: Vec<Row> = vec![[1, v, 0, 0, 0], [2, 0, 0, 0, 0], [6, 0, 1, 0, 0], [8, 2, 0, 1, 65535]];
    let (one, other) = match clash {
        Clash::NodeEdge => (node, edge),
        Clash::NodeMaybe => (node, maybe),
        Clash::EdgeGroup => (edge, group),
        Clash::NodeGroup => (node, node_group),
        Clash::Maybes => (maybe.clone(), maybe),
        Clash::Groups => (group.clone(), group),
    };
    parts[sites[0]].pattern = one.concat();
    parts[sites[1]].pattern = other.concat();
}

fn put_name(source: &mut Source, naming: Naming, parts: &mut [Part]) {
    let (last, name) = (parts.len() - 1, source.between(9, 12) as u16);
    let (one, other) = match naming {
        Naming::Of(name) => {
            parts[source.below(last + 1)].name = name;
            return;
        }
        Naming::TwiceBeside => (source.below(last), None),
        Naming::TwiceApart => (0, Some(last)),
    };
    parts[one].name = name;
    parts[other.unwrap_or(one + 1)].name = name;
}

fn ill_laid(source: &mut Source, layout: Layout, mut parts: Vec<Part>) -> Vec<u16> {
    let mut query = words(&parts);
    match layout {
        Layout::NoWords => query.clear(),
        Layout::NoPart => query[0] = 0,
        Layout::FiveParts => {
            parts.resize(5, Part { restrictor: 1, name: 0, pattern: vec![4, 0, 0, 0, 0] });
            query = words(&parts);
        }
        Layout::MostParts => query[0] = 65535,
        Layout::PartsPast256 => query[0] += 256,
        Layout::PartMore => query[0] += 1,
        Layout::PartLess => query[0] -= 1,
        Layout::WordShort => drop(query.pop()),
        Layout::WordLong => query.push(source.pick(&[0, 1, 5, 65535])),
        Layout::HeadsCut => query.truncate(source.between(1, 3 * parts.len())),
        // The lengths add up to 65,536 more than there is.
        Layout::LengthsWrap => {
            query[3] += 40_000;
            query[6] += 25_536;
        }
    }
    query
}
