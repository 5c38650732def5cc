//! The total of a sitting: how many lines its calls have handed out (02, Q-3).

/// The bytes of the total, low byte first. What is lent past them is never touched.
pub const SITTING_BYTES: usize = 4;

/// Raises the total by a page's count. Where that would carry it past 4,294,967,295, it
/// stays, and the answer is no.
pub fn raise(sitting: &mut [u8], count: usize) -> bool {
    let place = &mut sitting[..SITTING_BYTES];
    let total = place.iter().rev().fold(0, |total, byte| 256 * total + u64::from(*byte)) + count as u64;
    let Ok(total) = u32::try_from(total) else { return false };
    place.copy_from_slice(&total.to_le_bytes());
    true
}
