//! Reading a pattern table: refusals 11 to 13, and the tree its rows stand for.

use crate::pattern::{Condition, Direction, Form, Pattern};
use crate::refusal::{refuse_lowest, Refusal};

pub type Row = [u16; 5];

/// Everything of 11 to 15; typing (16) comes after.
pub fn read(words: &[u16]) -> Result<Pattern, Refusal> {
    let rows = rows(words)?;
    refuse_lowest(12, rows.len(), |row| malformed(&rows, row))?;
    refuse_lowest(13, rows.len(), |row| misplaced(&rows, row))?;
    let pattern = pattern(&rows, rows.len() - 1);
    pattern.refuse_repetitions()?;
    Ok(pattern)
}

fn rows(words: &[u16]) -> Result<Vec<Row>, Refusal> {
    if words.len() % 5 != 0 || words.is_empty() || words.len() > 64 * 5 {
        return Err(Refusal::of(11));
    }
    Ok(words.chunks(5).map(|row| [row[0], row[1], row[2], row[3], row[4]]).collect())
}

fn is_pattern(row: &Row) -> bool {
    (1..=8).contains(&row[0])
}

fn is_condition(row: &Row) -> bool {
    (16..=20).contains(&row[0])
}

fn malformed(rows: &[Row], row: usize) -> bool {
    let [kind, p, q, r, s] = rows[row];
    let names_pattern = |named: u16| (named as usize) < row && is_pattern(&rows[named as usize]);
    let names_condition = |named: u16| (named as usize) < row && is_condition(&rows[named as usize]);
    let names_variable = |variable: u16| (1..=8).contains(&variable);
    let well_formed = match kind {
        1..=4 => p <= 8 && r == 0 && s == 0,
        5 | 6 => names_pattern(p) && names_pattern(q) && r == 0 && s == 0,
        7 => names_pattern(p) && names_condition(q) && r == 0 && s == 0,
        8 => names_pattern(p) && q == 0 && r <= 65534 && r <= s,
        16 => names_variable(p) && s == 0,
        17 => names_variable(p) && names_variable(r),
        18 | 19 => names_condition(p) && names_condition(q) && r == 0 && s == 0,
        20 => names_condition(p) && q == 0 && r == 0 && s == 0,
        _ => false,
    };
    !well_formed
}

/// The rows a well-formed row names, one entry for each naming place.
pub fn named(row: &Row) -> Vec<usize> {
    let (p, q) = (row[1] as usize, row[2] as usize);
    match row[0] {
        5..=7 | 18 | 19 => vec![p, q],
        8 | 20 => vec![p],
        _ => vec![],
    }
}

/// A row but the last that is not named just once, or a last row that is a condition.
fn misplaced(rows: &[Row], row: usize) -> bool {
    if row == rows.len() - 1 {
        return is_condition(&rows[row]);
    }
    rows.iter().flat_map(named).filter(|&name| name == row).count() != 1
}

/// 0 stands for none in the places of variables and labels.
fn present(number: u16) -> Option<u16> {
    (number != 0).then_some(number)
}

fn pattern(rows: &[Row], row: usize) -> Pattern {
    let [kind, p, q, r, s] = rows[row];
    let part = |named: u16| Box::new(pattern(rows, named as usize));
    let edge = |direction| Form::Edge { direction, variable: present(p), label: present(q) };
    let form = match kind {
        1 => Form::Node { variable: present(p), label: present(q) },
        2 => edge(Direction::Forward),
        3 => edge(Direction::Backward),
        4 => edge(Direction::Undirected),
        5 => Form::Union(part(p), part(q)),
        6 => Form::Concatenation(part(p), part(q)),
        7 => Form::Conditioned(part(p), condition(rows, q as usize)),
        8 => Form::Repetition { body: part(p), least: r, greatest: (s != 65535).then_some(s) },
        _ => unreachable!("12 refuses every other kind here"),
    };
    Pattern { row, form }
}

fn condition(rows: &[Row], row: usize) -> Condition {
    let [kind, p, q, r, s] = rows[row];
    let part = |named: u16| Box::new(condition(rows, named as usize));
    match kind {
        16 => Condition::Constant { variable: p, key: q, constant: r },
        17 => Condition::Equal { left: (p, q), right: (r, s) },
        18 => Condition::And(part(p), part(q)),
        19 => Condition::Or(part(p), part(q)),
        20 => Condition::Not(part(p)),
        _ => unreachable!("12 refuses every other kind here"),
    }
}
