//! One compared call: what it is lent, and what it shows on either side.

use crate::reference::{self, Hasher, Portable, Taken, Tally};
use crate::unit::{self, UNSET_BYTE, UNSET_FIGURES, UNSET_PLACE, UNSET_SIZE};

#[derive(Clone, Copy, Debug, PartialEq, Eq)]
pub enum Kind {
    Start,
    Take,
    TakeCounted,
    TakeBundle,
    TakeBundleCounted,
    LookUp,
    Order,
    Verdict,
    Map,
    WriteOut,
    Text,
    DocumentTable,
    FirstEvent,
    Id,
    Ids,
}

pub static KINDS: [Kind; 15] = [
    Kind::Start,
    Kind::Take,
    Kind::TakeCounted,
    Kind::TakeBundle,
    Kind::TakeBundleCounted,
    Kind::LookUp,
    Kind::Order,
    Kind::Verdict,
    Kind::Map,
    Kind::WriteOut,
    Kind::Text,
    Kind::DocumentTable,
    Kind::FirstEvent,
    Kind::Id,
    Kind::Ids,
];

/// The kinds that take or read what a store holds, from take to text: all that test the store and the count that they are lent.
pub fn holding() -> &'static [Kind] {
    &KINDS[1..11]
}

/// The kinds that are lent a store and with it a cord table: a start, and those above.
pub fn with_table() -> &'static [Kind] {
    &KINDS[..11]
}

/// Everything that a call is lent: `offered` is an event, some events, a bundle or an id. A kind leaves alone what it has no use for.
#[derive(Clone)]
pub struct Call {
    pub kind: Kind,
    pub store: Vec<u8>,
    pub count: usize,
    pub table: Vec<u8>,
    pub offered: Vec<u8>,
    pub out: Vec<u8>,
    pub tally: [u32; 3],
}

/// Everything that a call shows: the number, the numbers behind its pointers, what it was lent as it left it, and whether
/// it wrote outside, into the table or into what it was offered.
#[derive(Clone, PartialEq)]
pub struct Answer {
    pub number: u8,
    pub values: Vec<u64>,
    pub store: Vec<u8>,
    pub count: usize,
    pub tally: [u32; 3],
    pub out: Vec<u8>,
    pub strayed: bool,
}

impl Call {
    fn untouched(&self) -> Answer {
        let (store, out) = (self.store.clone(), self.out.clone());
        Answer { number: 0, values: vec![], store, count: self.count, tally: self.tally, out, strayed: false }
    }
}

/// Bytes lent from the middle of a larger buffer, at an odd address, so that a write outside shows.
struct Guarded {
    buffer: Vec<u8>,
    len: usize,
}

const MARGIN: usize = 61;
const GUARD: u8 = 0x5c;

impl Guarded {
    fn new(bytes: &[u8]) -> Guarded {
        let margin = [GUARD; MARGIN];
        Guarded { buffer: [&margin, bytes, &margin].concat(), len: bytes.len() }
    }

    fn lent(&mut self) -> &mut [u8] {
        &mut self.buffer[MARGIN..MARGIN + self.len]
    }

    fn whole(&self) -> bool {
        let (before, rest) = self.buffer.split_at(MARGIN);
        before.iter().chain(&rest[self.len..]).all(|b| *b == GUARD)
    }
}

fn wide(figures: [u32; 3]) -> Vec<u64> {
    figures.map(u64::from).to_vec()
}

fn sizes(numbers: &[usize]) -> Vec<u64> {
    numbers.iter().map(|&n| n as u64).collect()
}

/// The unit's answer.
pub fn by_unit(c: &Call) -> Answer {
    let [mut store, mut out] = [&c.store, &c.out].map(|bytes| Guarded::new(bytes));
    let [mut table, mut offered] = [&c.table, &c.offered].map(|bytes| Guarded::new(bytes));
    let mut a = c.untouched();
    (a.number, a.values) = ask_unit(c, &mut a, store.lent(), table.lent(), offered.lent(), out.lent());
    a.strayed = !(store.whole() && table.whole() && offered.whole() && out.whole());
    a.strayed |= table.lent() != c.table || offered.lent() != c.offered;
    a.store.copy_from_slice(store.lent());
    a.out.copy_from_slice(out.lent());
    a
}

fn ask_unit(c: &Call, a: &mut Answer, s: &mut [u8], k: &[u8], offered: &[u8], o: &mut [u8]) -> (u8, Vec<u64>) {
    let byte = |(n, v): (u8, u8)| (n, vec![u64::from(v)]);
    let size = |(n, v): (u8, usize)| (n, sizes(&[v]));
    let figures = |(n, v): (u8, [u32; 3])| (n, wide(v));
    match c.kind {
        Kind::Start => (unit::start(s, &mut a.count, k, offered), vec![]),
        Kind::Take => byte(unit::take(s, &mut a.count, k, offered)),
        Kind::TakeCounted => byte(unit::take_counted(s, &mut a.count, k, offered, &mut a.tally)),
        Kind::TakeBundle => figures(unit::take_bundle(s, &mut a.count, k, offered)),
        Kind::TakeBundleCounted => figures(unit::take_bundle_counted(s, &mut a.count, k, offered, &mut a.tally)),
        Kind::LookUp => {
            let (n, place) = unit::look_up(s, c.count, k, offered);
            (n, vec![u64::from(place)])
        }
        Kind::Order => size(unit::order(s, c.count, k, o)),
        Kind::Verdict => byte(unit::verdict(s, c.count, k, offered)),
        Kind::Map => {
            let (n, values) = unit::map(s, c.count, k, o);
            (n, sizes(&values))
        }
        Kind::WriteOut => size(unit::write_out(s, c.count, k, o)),
        Kind::Text => size(unit::text(s, c.count, k, o)),
        Kind::DocumentTable => (unit::document_table(o), vec![]),
        Kind::FirstEvent => size(unit::first_event(offered)),
        Kind::Id => (unit::id(offered, o), vec![]),
        Kind::Ids => (unit::ids(offered, o), vec![]),
    }
}

/// The number and the values of a reference's answer; a refusal leaves the values unset.
fn shown<T>(answer: Result<T, u8>, values: impl Fn(T) -> Vec<u64>, unset: Vec<u64>) -> (u8, Vec<u64>) {
    match answer {
        Ok(value) => (0, values(value)),
        Err(number) => (number, unset),
    }
}

/// The reference's answer.
pub fn by_reference(c: &Call) -> Answer {
    let mut a = c.untouched();
    (a.number, a.values) = match c.kind {
        Kind::Start => {
            let (answer, count) = reference::start(&c.table, &mut a.store, &c.offered);
            a.count = count;
            shown(answer, |()| vec![], vec![])
        }
        Kind::Take | Kind::TakeCounted => take(c, &mut a),
        Kind::TakeBundle | Kind::TakeBundleCounted => take_bundle(c, &mut a),
        Kind::LookUp => {
            let place = |part: &[u8]| vec![(part.as_ptr() as u64 - a.store.as_ptr() as u64) / 192];
            shown(reference::lookup(&c.table, &a.store, c.count, &c.offered), place, vec![UNSET_PLACE.into()])
        }
        Kind::Verdict => shown(
            reference::verdict(&c.table, &a.store, c.count, &c.offered),
            |v| vec![v.into()],
            vec![UNSET_BYTE.into()],
        ),
        Kind::Order => {
            shown(reference::order(&c.table, &a.store, c.count, &mut a.out), |n| sizes(&[n]), sizes(&[UNSET_SIZE]))
        }
        Kind::Map => {
            let unset = sizes(&[UNSET_SIZE, UNSET_SIZE + 1, UNSET_SIZE + 2]);
            let values = |m: reference::MapAnswer| vec![m.rows as u64, m.ended.into(), m.joins.into()];
            shown(reference::map(&c.table, &a.store, c.count, &mut a.out), values, unset)
        }
        Kind::WriteOut => {
            shown(reference::write_out(&c.table, &a.store, c.count, &mut a.out), |n| sizes(&[n]), sizes(&[UNSET_SIZE]))
        }
        Kind::Text => text(c, &mut a),
        Kind::DocumentTable => (document_table(&mut a), vec![]),
        Kind::FirstEvent => shown(reference::first_event(&c.offered), |n| sizes(&[n]), sizes(&[UNSET_SIZE])),
        Kind::Id => (id(c, &mut a), vec![]),
        Kind::Ids => (ids(c, &mut a), vec![]),
    };
    a
}

/// A take's figures as a record, and back.
fn record(t: [u32; 3]) -> Tally {
    Tally { new: t[0], repeats: t[1], refused: t[2] }
}

fn take(c: &Call, a: &mut Answer) -> (u8, Vec<u64>) {
    let mut tally = record(c.tally);
    let answer = reference::take(&c.table, &mut a.store, &mut a.count, &c.offered, &mut tally);
    if c.kind == Kind::TakeCounted {
        a.tally = [tally.new, tally.repeats, tally.refused];
    }
    shown(answer, |taken| vec![u64::from(taken == Taken::Repeat)], vec![UNSET_BYTE.into()])
}

fn take_bundle(c: &Call, a: &mut Answer) -> (u8, Vec<u64>) {
    let mut tally = record(c.tally);
    let answer = reference::take_bundle(&c.table, &mut a.store, &mut a.count, &c.offered, &mut tally);
    if c.kind == Kind::TakeBundleCounted {
        a.tally = [tally.new, tally.repeats, tally.refused];
    }
    shown(answer, |f| wide([f.new, f.repeats, f.refused]), wide(UNSET_FIGURES))
}

fn text(c: &Call, a: &mut Answer) -> (u8, Vec<u64>) {
    let answer = reference::text(&c.table, &a.store, c.count).and_then(|text| {
        let out = a.out.get_mut(..text.len()).ok_or(10u8)?;
        out.copy_from_slice(text.as_bytes());
        Ok(text.len())
    });
    shown(answer, |n| sizes(&[n]), sizes(&[UNSET_SIZE]))
}

fn document_table(a: &mut Answer) -> u8 {
    let Some(out) = a.out.get_mut(..512) else { return 10 };
    out.copy_from_slice(&reference::CORD_BYTES);
    0
}

fn id(c: &Call, a: &mut Answer) -> u8 {
    let Ok(event) = <&[u8; 192]>::try_from(&c.offered[..]) else { return 1 };
    let Some(out) = a.out.get_mut(..32) else { return 10 };
    out.copy_from_slice(&Portable::id(event));
    0
}

fn ids(c: &Call, a: &mut Answer) -> u8 {
    let n = c.offered.len() / 192;
    if n > 256 || c.offered.len() != 192 * n {
        return 1;
    }
    let Some(out) = a.out.get_mut(..32 * n) else { return 10 };
    for (event, id) in c.offered.chunks_exact(192).zip(out.chunks_exact_mut(32)) {
        id.copy_from_slice(&Portable::id(event.try_into().expect("192 bytes")));
    }
    0
}
