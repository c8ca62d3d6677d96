//! Cord tables: good ones that are unlike document 01's, and bad ones.

use crate::reference::make::Rng;
use crate::reference::{table_bytes, CORD_BYTES};

/// Document 01's.
pub fn document() -> Vec<u8> {
    CORD_BYTES.to_vec()
}

/// A good table: an entry for each two kinds of one family, the smaller kind first, and the same for its mirror.
fn good(mut entry: impl FnMut(usize, usize) -> u16) -> Vec<u8> {
    let mut all = [0; 256];
    for a in 0..16 {
        for b in a..4 * (a / 4) + 4 {
            all[16 * a + b] = entry(a, b);
            all[16 * b + a] = all[16 * a + b];
        }
    }
    table_bytes(&all).to_vec()
}

/// Good tables: document 01's, no cords at all, no limits at all, limits that fall with the grade, one by the larger grade,
/// every entry another one.
pub fn goods() -> [Vec<u8>; 6] {
    [
        document(),
        good(|_, _| 0),
        good(|_, _| u16::MAX),
        good(|a, _| 40 - 10 * (a % 4) as u16),
        good(|_, b| 256 * (1 + b % 4) as u16),
        good(|a, b| (1000 * a + 7 * b + 3) as u16),
    ]
}

/// A random good table. Most let the short joins of random sets pass.
pub fn any(rng: &mut Rng) -> Vec<u8> {
    match rng.below(8) {
        0..=2 => document(),
        3 => good(|_, _| rng.below(6) as u16),
        4 => goods()[rng.below(6)].clone(),
        _ => good(|_, _| (3 + rng.below(65_533)) as u16),
    }
}

/// The entry of two kinds.
pub fn entry(table: &[u8], kinds: (u8, u8)) -> u16 {
    let at = 32 * kinds.0 as usize + 2 * kinds.1 as usize;
    u16::from_be_bytes([table[at], table[at + 1]])
}

/// Sets the entry of two kinds, and leaves its mirror.
pub fn set(table: &mut [u8], kinds: (u8, u8), metres: u16) {
    let at = 32 * kinds.0 as usize + 2 * kinds.1 as usize;
    table[at..at + 2].copy_from_slice(&metres.to_be_bytes());
}

/// Document 01's with some entries set.
pub fn altered(entries: &[((u8, u8), u16)]) -> Vec<u8> {
    let mut table = document();
    entries.iter().for_each(|&(kinds, metres)| set(&mut table, kinds, metres));
    table
}

/// Bad tables: of wrong lengths, with an entry unlike its mirror in either byte, with a length between unlike families.
pub fn bads() -> [Vec<u8>; 9] {
    let sized = |len| {
        let mut table = document();
        table.resize(len, 0);
        table
    };
    [
        sized(0),
        sized(511),
        sized(513),
        sized(1024),
        altered(&[((4, 5), 81)]),
        altered(&[((14, 12), 3 + 256)]),
        altered(&[((3, 4), 1)]),
        altered(&[((3, 4), 1), ((4, 3), 1)]),
        altered(&[((15, 0), 256), ((0, 15), 256)]),
    ]
}
