//! The check of a block, its bytes 508 to 511.

use super::{BLOCK, CHECK_AT};
use crate::numbers::{read_two, write_two};

/// "With byte i called b(i), 508-509 hold the sum of b(i) over i = 0..507 and 510-511 the sum of
/// (508 - i) x b(i), each modulo 65535."
pub fn sums(block: &[u8; BLOCK]) -> (u16, u16) {
    let b = |i: u32| u32::from(block[i as usize]);
    let sum: u32 = (0..=507).map(b).sum();
    let weighted: u32 = (0..=507).map(|i| (508 - i) * b(i)).sum();
    ((sum % 65535) as u16, (weighted % 65535) as u16)
}

/// Whether the check that a block holds is the one that its bytes call for (refusal 2 where it "differs").
pub fn check_holds(block: &[u8; BLOCK]) -> bool {
    (read_two(block, CHECK_AT), read_two(block, CHECK_AT + 2)) == sums(block)
}

/// Lays into a block the check that its bytes call for.
pub fn seal(block: &mut [u8; BLOCK]) {
    let (sum, weighted) = sums(block);
    write_two(block, CHECK_AT, sum);
    write_two(block, CHECK_AT + 2, weighted);
}
