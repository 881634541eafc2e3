//! Stores with damage.

use crate::layout::{u32_at, ATTRIBUTE, DEFINITION, PARTICLE, ROW};
use crate::rng::Rng;

/// The string with one to three damages, or random bytes. It may pass the
/// check all the same.
pub fn damaged(rng: &mut Rng, store: &[u8]) -> Vec<u8> {
    if rng.chance(3) {
        let length = rng.below(200);
        return rng.bytes(length);
    }
    let mut bytes = store.to_vec();
    for _ in 0..1 + rng.below(3) {
        damage(rng, &mut bytes);
    }
    bytes
}

fn damage(rng: &mut Rng, bytes: &mut Vec<u8>) {
    if bytes.is_empty() {
        return;
    }
    let at = rng.below(bytes.len());
    match rng.below(8) {
        0 => bytes[at] ^= 1 << rng.below(8),
        1 => bytes[at] = rng.draw() as u8,
        2 => bytes[at] = bytes[at].wrapping_add(1),
        3 => bytes[at] = bytes[at].wrapping_sub(1),
        4 => bytes.truncate(at),
        5 => {
            let more = 1 + rng.below(60);
            bytes.extend(rng.bytes(more));
        }
        6 => swap_records(rng, bytes),
        _ => set_header_number(rng, bytes),
    }
}

/// Swaps two records of one body.
fn swap_records(rng: &mut Rng, bytes: &mut [u8]) {
    let body = rng.below(4);
    let size = [DEFINITION, PARTICLE, ATTRIBUTE, ROW][body];
    if bytes.len() < 40 {
        return;
    }
    let start = u32_at(bytes, 8 + 8 * body) as usize;
    let count = u32_at(bytes, 12 + 8 * body) as usize;
    if count == 0 || count > 4096 || start > 300_000 || start + count * size > bytes.len() {
        return;
    }
    let (first, second) = (rng.below(count), rng.below(count));
    for byte in 0..size {
        bytes.swap(start + first * size + byte, start + second * size + byte);
    }
}

/// Sets a number of the header to one near it, or to one far from it.
fn set_header_number(rng: &mut Rng, bytes: &mut [u8]) {
    let at = 4 * rng.below(10);
    if bytes.len() < at + 4 {
        return;
    }
    let old = u32_at(bytes, at);
    let new = match rng.below(5) {
        0 => old.wrapping_add(1),
        1 => old.wrapping_sub(1),
        2 => 0,
        3 => u32::MAX,
        _ => rng.draw() as u32,
    };
    bytes[at..at + 4].copy_from_slice(&new.to_le_bytes());
}
