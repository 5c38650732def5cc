//! Sittings around 4 bytes long, with totals that carry from byte to byte or stand at the limit.

use super::source::Source;

/// A sitting for a call whose page takes so many records, as far as nothing refuses it.
pub fn any(source: &mut Source, count: usize) -> Vec<u8> {
    let length = match source.below(100) {
        0 => 0,
        1 => source.between(1, 2),
        2 | 3 => 3,
        4..=23 => 5,
        24..=33 => source.between(6, 12),
        _ => 4,
    };
    let total = total(source, count as u32);
    area(source, total, length)
}

/// A sitting for several calls: fresh, anywhere, or so near a carry or the limit that they
/// pass it. A few calls hand out few lines, so it mostly stands two lines before at most.
pub fn beginning(source: &mut Source, lines: usize) -> Vec<u8> {
    let before = if source.one_in(4) { lines as u32 } else { 2 };
    let total = match source.below(10) {
        0..=2 => 0,
        3 => source.next() as u32,
        4 | 5 => before_carry(source, before),
        _ => u32::MAX - up_to(source, before),
    };
    let length = source.pick(&[4, 4, 4, 5, 8, 12]);
    area(source, total, length)
}

/// Mostly one that the count does not carry past the limit. A count of 0 never does,
/// also not from the limit itself.
fn total(source: &mut Source, count: u32) -> u32 {
    match source.below(32) {
        0..=2 => u32::MAX - count.saturating_sub(1),
        3..=5 => u32::MAX - up_to(source, count.saturating_sub(1)),
        6 | 7 => u32::MAX,
        8 | 9 => u32::MAX - count,
        10 | 11 => u32::MAX - count - up_to(source, 5),
        12..=19 => before_carry(source, count),
        20 | 21 => source.next() as u32,
        22..=25 => up_to(source, 300),
        _ => 0,
    }
}

/// One, two or three low bytes at 255, or less by some of the lines that then carry into
/// the byte above them.
fn before_carry(source: &mut Source, lines: u32) -> u32 {
    let low = u32::MAX >> source.pick(&[8, 16, 24]);
    let high = source.next() as u32 & !low;
    (high | low) - up_to(source, lines.min(low))
}

fn up_to(source: &mut Source, most: u32) -> u32 {
    source.between(0, most as usize) as u32
}

/// The total, low byte first, then bytes of any value, up to 12 bytes in all.
fn area(source: &mut Source, total: u32, length: usize) -> Vec<u8> {
    let mut area = [total.to_le_bytes().to_vec(), source.bytes(8)].concat();
    area.truncate(length);
    area
}
