//! Altered events, bundles, ids, stores, tables, counts and lengths.

use crate::reference::make::Rng;
use crate::tables;

/// Values at which a field's meaning changes.
pub const EDGES: [u8; 18] = [0, 1, 2, 3, 4, 5, 6, 7, 8, 9, 10, 15, 16, 31, 32, 127, 128, 255];

/// Alters one byte: a bit of it, or the whole to a value at an edge.
pub fn byte(rng: &mut Rng, bytes: &mut [u8], at: usize) {
    let before = bytes[at];
    if rng.below(2) == 0 {
        bytes[at] = EDGES[rng.below(EDGES.len())];
    }
    if bytes[at] == before {
        bytes[at] ^= 1 << rng.below(8);
    }
}

/// A position in an event: one of the first 16 bytes, where most fields are, half of the time.
fn position(rng: &mut Rng) -> usize {
    let end = if rng.below(2) == 0 { 16 } else { 192 };
    rng.below(end)
}

/// Alters an event of 192 bytes in one of several ways.
pub fn event(rng: &mut Rng, event: &mut Vec<u8>) {
    match rng.below(10) {
        0 => length(rng, event),
        1 => event[16 + rng.below(16)] ^= 1,
        2 => event[96..160].rotate_left(32),
        3 => event.copy_within(96..128, 128),
        4 => event[12..14].copy_from_slice(&(rng.below(700) as u16).to_be_bytes()),
        5 => event[5 + rng.below(2)] = rng.below(16) as u8,
        6 => {
            let (x, y) = (position(rng), position(rng));
            byte(rng, event, x);
            byte(rng, event, y);
        }
        _ => {
            let at = position(rng);
            byte(rng, event, at);
        }
    }
}

/// One byte less, one more, or none at all.
pub fn length(rng: &mut Rng, bytes: &mut Vec<u8>) {
    match rng.below(3) {
        0 => {
            bytes.pop();
        }
        1 => bytes.push(rng.next() as u8),
        _ => bytes.clear(),
    }
}

/// Alters a bundle: its trailer, its front, its length or any byte.
pub fn bundle(rng: &mut Rng, bundle: &mut Vec<u8>) {
    let n = bundle.len();
    match rng.below(6) {
        0 => length(rng, bundle),
        1 => {
            bundle.remove(0);
        }
        2 => bundle.truncate(rng.below(13)),
        3 => {
            let count = 257 + rng.below(300);
            bundle[n - 8..n - 6].copy_from_slice(&(count as u16).to_be_bytes());
            bundle[n - 12..n - 8].copy_from_slice(&(192 * count as u32).to_be_bytes());
        }
        4 => {
            let at = n - 12 + rng.below(12);
            byte(rng, bundle, at);
        }
        _ => {
            let at = rng.below(n);
            byte(rng, bundle, at);
        }
    }
}

/// Alters one of the held bytes of a store, copies one place to another, or alters a byte that nothing may read.
pub fn store(rng: &mut Rng, store: &mut [u8], count: usize) {
    let place = rng.below(count);
    match rng.below(5) {
        0 => {
            let from = 192 * rng.below(count);
            store.copy_within(from..from + 192, 192 * place);
        }
        1 if count < 256 => store[192 * count..].fill(rng.next() as u8),
        _ => {
            let at = 192 * place + position(rng);
            byte(rng, store, at);
        }
    }
}

/// Alters a table of 512 bytes: its length, a byte, an entry alone, or an entry and its mirror, which may leave it good.
pub fn table(rng: &mut Rng, table: &mut Vec<u8>) {
    let kinds = (rng.below(16) as u8, rng.below(16) as u8);
    let metres = [0, 1, 2, 255, 256, u16::MAX][rng.below(6)];
    match rng.below(4) {
        0 => length(rng, table),
        1 => {
            let at = rng.below(table.len());
            byte(rng, table, at);
        }
        2 => tables::set(table, kinds, metres),
        _ => {
            tables::set(table, kinds, metres);
            tables::set(table, (kinds.1, kinds.0), metres);
        }
    }
}

/// Counts that no call takes.
pub const COUNTS: [usize; 7] = [0, 257, 258, 65_536, 65_537, usize::MAX / 192, usize::MAX];
