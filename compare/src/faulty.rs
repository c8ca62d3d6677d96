//! Faults put into the unit's answers on purpose: the comparison must find each one.

use crate::cases::{by_unit, with_table, Answer, Call, Kind};
use crate::run;
use crate::tables;
use crate::unit::{UNSET_BYTE, UNSET_SIZE};

pub struct Fault {
    pub name: &'static str,
    pub alter: fn(&Call, &mut Answer),
    /// Only in the second unit of a pair, and hidden from the comparison with the reference.
    pub second_only: bool,
}

const fn fault(name: &'static str, alter: fn(&Call, &mut Answer)) -> Fault {
    Fault { name, alter, second_only: false }
}

const fn second(name: &'static str, alter: fn(&Call, &mut Answer)) -> Fault {
    Fault { name, alter, second_only: true }
}

#[rustfmt::skip]
const FAULTS: [Fault; 57] = [
    fault("verdict 2 shown as 3", |c, a| value(c, a, Kind::Verdict, 2, 3)),
    fault("verdict 0 shown as 1", |c, a| value(c, a, Kind::Verdict, 0, 1)),
    fault("an id not held is waiting", |c, a| if c.kind == Kind::Verdict { number(a, 9, 0, &[0]) }),
    fault("a byte of a map's last row flipped", |c, a| if good(c, a, Kind::Map) { flip_before(a, 8) }),
    fault("links ended: one more", |c, a| if good(c, a, Kind::Map) { a.values[1] += 1 }),
    fault("ended and joins exchanged", |c, a| if good(c, a, Kind::Map) { a.values.swap(1, 2) }),
    fault("refusal 3 shown as 4", |_, a| if a.number == 3 { a.number = 4 }),
    fault("refusal 2 shown as 1", |_, a| if a.number == 2 { a.number = 1 }),
    fault("refusal 5 shown as 3", |_, a| if a.number == 5 { a.number = 3 }),
    fault("a join too long is stored", |c, a| if c.kind == Kind::Take { number(a, 6, 0, &[0]) }),
    fault("a bad bundle offers nothing", |_, a| number(a, 8, 0, &[0, 0, 0])),
    fault("a repeat shown as stored", |c, a| value(c, a, Kind::Take, 1, 0)),
    fault("a refused start leaves the count", |c, a| if c.kind == Kind::Start && a.number > 0 { a.count = c.count }),
    fault("a write outside", |c, a| if good(c, a, Kind::Map) { a.strayed = true }),
    fault("7 for a held event", |c, a| if taken(c, a, 1) && c.count == 256 { refuse(a, 7) }),
    fault("the count not raised", |c, a| if taken(c, a, 0) { a.count = c.count }),
    fault("a place not written", |c, a| if taken(c, a, 0) { a.store.clone_from(&c.store) }),
    fault("a byte behind the held places altered", |c, a| if taken(c, a, 0) && c.count < 255 { a.store[49_151] ^= 1 }),
    fault("a refused take writes", |c, a| if c.kind == Kind::Take && a.number > 2 { a.store[49_151] ^= 1 }),
    fault("a refused take not tallied", |c, a| if c.kind == Kind::TakeCounted && a.number > 0 { a.tally = c.tally }),
    fault("a refused bundle tallied", |c, a| if c.kind == Kind::TakeBundleCounted && a.number > 0 { a.tally[2] ^= 1 }),
    fault("a full figure starts again at 0", |c, a| if c.kind == Kind::TakeCounted { wrap(c, a) }),
    fault("repeats and refused exchanged", |c, a| if good(c, a, Kind::TakeBundle) { a.values.swap(1, 2) }),
    fault("the place after it", |c, a| if good(c, a, Kind::LookUp) { a.values[0] += 1 }),
    fault("the last two rows of order exchanged", |c, a| if good(c, a, Kind::Order) { exchange(a, 36) }),
    fault("a byte behind the rows altered", |c, a| if good(c, a, Kind::Order) { flip_at(a, 36) }),
    fault("a letter of the written trailer", |c, a| if good(c, a, Kind::WriteOut) { flip_before(a, 1) }),
    fault("a short output is enough", |c, a| if c.kind == Kind::Order { number(a, 10, 0, &[0]) }),
    fault("a refusal writes its number", |c, a| if c.kind == Kind::WriteOut && a.number > 0 { a.values[0] = 0 }),
    fault("a refusal writes the output", |_, a| if a.number > 0 && !a.out.is_empty() { a.out[0] ^= 1 }),
    fault("one byte of text more", |c, a| if good(c, a, Kind::Text) { a.values[0] += 1 }),
    fault("a short text is enough", |c, a| if c.kind == Kind::Text { number(a, 10, 0, &[0]) }),
    fault("a bundle of no events has a first one", |c, a| if c.kind == Kind::FirstEvent { number(a, 5, 0, &[0]) }),
    fault("the last event for the first", |c, a| if good(c, a, Kind::FirstEvent) { a.values[0] = last(c) }),
    fault("a longer id output refused", |c, a| if longer(c, a, Kind::Id, 32) { a.number = 10 }),
    fault("a byte past the ids altered", |c, a| if longer(c, a, Kind::Ids, c.offered.len() / 6) { end_flipped(a) }),
    fault("a short id output is enough", |c, a| if c.kind == Kind::Id { number(a, 10, 0, &[]) }),
    fault("a short output of ids shown as 1", |c, a| if c.kind == Kind::Ids && a.number == 10 { a.number = 1 }),
    fault("a bit of an id", |c, a| if good(c, a, Kind::Id) { a.out[31] ^= 1 }),
    fault("the fifth of several ids", |c, a| if good(c, a, Kind::Ids) && c.offered.len() > 768 { a.out[128] ^= 1 }),
    fault("12 is never given", |c, a| if a.number == 12 { *a = by_table(c, tables::document()) }),
    fault("a start does not test the table", |c, a| if c.kind == Kind::Start { *a = by_table(c, tables::document()) }),
    fault("12 comes after 2", |c, a| later(c, a, 2)),
    fault("12 comes after 3", |c, a| later(c, a, 3)),
    fault("12 comes after 10", |c, a| later(c, a, 10)),
    fault("12 comes before 1", |c, a| if a.number == 1 && another_length(c) { a.number = 12 }),
    fault("check 6 by document 01's table", |c, a| if a.number != 12 { *a = by_table(c, tables::document()) }),
    fault("a longer table is cut", |c, a| if c.table.len() > 512 { *a = by_table(c, c.table[..512].to_vec()) }),
    fault("an entry is not compared with its mirror", |c, a| *a = by_table(c, mended(&c.table, |x, y| x / 4 == y / 4))),
    fault("unlike families are not tested", |c, a| *a = by_table(c, mended(&c.table, |x, y| x / 4 != y / 4))),
    fault("a take refused by 12 not tallied", |c, a| if c.kind == Kind::TakeCounted && a.number == 12 { a.tally = c.tally }),
    fault("a start refused by 12 keeps the count", |c, a| if c.kind == Kind::Start && a.number == 12 { a.count = c.count }),
    fault("an entry of document 01's table", |c, a| if good(c, a, Kind::DocumentTable) { a.out[171] ^= 1 }),
    fault("a short output of the table is enough", |c, a| if c.kind == Kind::DocumentTable { number(a, 10, 0, &[]) }),
    second("the second unit's order", |c, a| if good(c, a, Kind::Order) { exchange(a, 36) }),
    second("the second unit's map", |c, a| if good(c, a, Kind::Map) { flip_before(a, 8) }),
    second("the second unit's write-out", |c, a| if good(c, a, Kind::WriteOut) { a.out[20] ^= 1 }),
];

/// The unit's answer where it is lent another table.
fn by_table(c: &Call, table: Vec<u8>) -> Answer {
    by_unit(&Call { table, ..c.clone() })
}

/// Shows another number in place of 12 where both are due.
fn later(c: &Call, a: &mut Answer, number: u8) {
    let other = by_table(c, tables::document());
    if a.number == 12 && other.number == number {
        *a = other;
    }
}

/// Whether the call is lent a table of another length.
fn another_length(c: &Call) -> bool {
    with_table().contains(&c.kind) && c.table.len() != 512
}

/// A table without the faults of the pairs of kinds for which a test holds: the entry of the larger kind first is the other's,
/// and both are 0 between unlike families.
fn mended(table: &[u8], test: fn(u8, u8) -> bool) -> Vec<u8> {
    let mut all = table.to_vec();
    let pairs = (0..16).flat_map(|x| (0..x).map(move |y| (x, y))).filter(|&(x, y)| table.len() == 512 && test(x, y));
    for (x, y) in pairs {
        let metres = if x / 4 == y / 4 { tables::entry(&all, (y, x)) } else { 0 };
        tables::set(&mut all, (x, y), metres);
        tables::set(&mut all, (y, x), metres);
    }
    all
}

/// Whether the call is of a kind and was answered.
fn good(c: &Call, a: &Answer, kind: Kind) -> bool {
    c.kind == kind && a.number == 0
}

/// Whether the call is of a kind, was answered and was lent an output longer than it needs.
fn longer(c: &Call, a: &Answer, kind: Kind, needed: usize) -> bool {
    good(c, a, kind) && a.out.len() > needed
}

/// Where the last event of a bundle starts.
fn last(c: &Call) -> u64 {
    c.offered.len() as u64 - 204
}

/// Whether the call is a single take with a value: 0 stored, 1 repeat.
fn taken(c: &Call, a: &Answer, value: u64) -> bool {
    good(c, a, Kind::Take) && a.values[0] == value
}

/// Exchanges the value of a good answer for another.
fn value(c: &Call, a: &mut Answer, kind: Kind, from: u64, to: u64) {
    if good(c, a, kind) && a.values[0] == from {
        a.values[0] = to;
    }
}

/// Exchanges a number and shows values.
fn number(a: &mut Answer, from: u8, to: u8, values: &[u64]) {
    if a.number == from {
        a.number = to;
        a.values = values.to_vec();
    }
}

/// Refuses a take that was answered.
fn refuse(a: &mut Answer, number: u8) {
    a.number = number;
    a.values = vec![UNSET_BYTE.into()];
}

/// The end of the rows written, each of `row` bytes.
fn end(a: &Answer, row: usize) -> usize {
    a.values.first().map_or(UNSET_SIZE, |n| *n as usize) * row
}

fn flip_before(a: &mut Answer, row: usize) {
    let end = end(a, row);
    if end > 0 {
        a.out[end - 1] ^= 1;
    }
}

fn flip_at(a: &mut Answer, row: usize) {
    let end = end(a, row);
    if end < a.out.len() {
        a.out[end] ^= 1;
    }
}

/// Alters the output's last byte.
fn end_flipped(a: &mut Answer) {
    if let Some(byte) = a.out.last_mut() {
        *byte ^= 1;
    }
}

/// Exchanges the last two rows.
fn exchange(a: &mut Answer, row: usize) {
    let end = end(a, row);
    if end >= 2 * row {
        a.out[end - 2 * row..end].rotate_left(row);
    }
}

/// A figure at its greatest starts again where it should stay.
fn wrap(c: &Call, a: &mut Answer) {
    let refused = a.number > 0 && c.tally[2] == u32::MAX;
    if refused {
        a.tally[2] = 0;
    }
}

/// Whether every fault is found.
pub fn run(seed: u64, count: usize) -> bool {
    let mut all = true;
    for fault in &FAULTS {
        let found = run::finds(seed, count, fault);
        all &= found.is_some();
        match found {
            Some(calls) => println!("found after {calls:>5} calls: {}", fault.name),
            None => println!("NOT FOUND: {}", fault.name),
        }
    }
    println!("{}", if all { "every fault found" } else { "a fault was NOT found" });
    all
}
