//! A unit that is fed in a case, and calls made up for it.

use crate::cases::{by_reference, Answer, Call, Kind};
use crate::damage;
use crate::reference::make::{bundle, id, Ev, Rng};
use crate::reference::STORE;
use crate::tables;
use crate::trial::Trial;

/// What a unit's caller keeps.
#[derive(Clone)]
pub struct Fed {
    pub store: Vec<u8>,
    pub count: usize,
    pub table: Vec<u8>,
    pub tally: [u32; 3],
}

pub fn noise(rng: &mut Rng, len: usize) -> Vec<u8> {
    (0..len.div_ceil(8)).flat_map(|_| rng.next().to_le_bytes()).take(len).collect()
}

/// A figure that may be at its greatest, or near it.
fn figure(rng: &mut Rng) -> u32 {
    [0, 7, u32::MAX - 3, u32::MAX][rng.below(4)]
}

/// Splits into parts of random lengths, at most `most` each.
fn parts<'a>(rng: &mut Rng, mut events: &'a [Ev], most: usize) -> Vec<&'a [Ev]> {
    let mut all = vec![];
    while !events.is_empty() {
        let (part, rest) = events.split_at(1 + rng.below(most.min(events.len())));
        all.push(part);
        events = rest;
    }
    all
}

pub fn shuffle<T>(rng: &mut Rng, list: &mut [T]) {
    for n in (1..list.len()).rev() {
        list.swap(n, rng.below(n + 1));
    }
}

impl Fed {
    /// A call of the kind on this unit, with nothing offered and no output.
    pub fn call(&self, kind: Kind) -> Call {
        let (store, table) = (self.store.clone(), self.table.clone());
        Call { kind, store, count: self.count, table, offered: vec![], out: vec![], tally: self.tally }
    }

    /// Keeps what a call left.
    fn keep(&mut self, a: &Answer) {
        self.store.clone_from(&a.store);
        self.count = a.count;
        self.tally = a.tally;
    }

    /// The held event at a random place.
    pub fn some(&self, rng: &mut Rng) -> Ev {
        let at = 192 * rng.below(self.count);
        self.store[at..at + 192].try_into().expect("192 bytes")
    }
}

impl Trial<'_> {
    /// A unit started with an event and document 01's table.
    pub fn start(&mut self, creator: &Ev) -> Fed {
        self.start_with(creator, tables::document())
    }

    /// A unit started with an event and a good table, in a store of zeros or of noise.
    pub fn start_with(&mut self, creator: &Ev, table: Vec<u8>) -> Fed {
        let store = if self.one_in(2) { vec![0; STORE] } else { noise(&mut self.rng, STORE) };
        let tally = [0; 3].map(|_: u32| figure(&mut self.rng));
        let mut fed = Fed { store, count: 0, table, tally };
        let a = self.compare(Call { offered: creator.to_vec(), ..fed.call(Kind::Start) });
        fed.keep(&a);
        fed
    }

    /// Offers one event's bytes.
    pub fn offer(&mut self, fed: &mut Fed, offered: Vec<u8>) -> Answer {
        let kind = if self.one_in(2) { Kind::Take } else { Kind::TakeCounted };
        let a = self.compare(Call { offered, ..fed.call(kind) });
        fed.keep(&a);
        a
    }

    /// Offers a bundle's bytes.
    pub fn offer_bundle(&mut self, fed: &mut Fed, offered: Vec<u8>) -> Answer {
        let kind = if self.one_in(2) { Kind::TakeBundle } else { Kind::TakeBundleCounted };
        let a = self.compare(Call { offered, ..fed.call(kind) });
        fed.keep(&a);
        a
    }

    /// A bundle of events, some with a drawing before them.
    pub fn packed(&mut self, events: &[Ev]) -> Vec<u8> {
        let before = if self.one_in(2) { self.rng.below(300) } else { 0 };
        let mut all = noise(&mut self.rng, before);
        all.extend(bundle(events));
        all
    }

    /// Feeds all events in bundles of at most `most`.
    pub fn feed_bundles(&mut self, fed: &mut Fed, events: &[Ev], most: usize) {
        for part in parts(&mut self.rng, events, most) {
            let offered = self.packed(part);
            self.offer_bundle(fed, offered);
        }
    }

    /// Feeds all events one by one, some of them twice.
    pub fn feed_singly(&mut self, fed: &mut Fed, events: &[Ev]) {
        for event in events {
            self.offer(fed, event.to_vec());
            if self.one_in(6) {
                let again = fed.some(&mut self.rng);
                self.offer(fed, again.to_vec());
            }
        }
    }

    /// The length of the output that a call needs, 0 where it is refused anyway.
    fn needed(call: &Call) -> usize {
        let enough = Call { out: vec![0; STORE + 12], ..call.clone() };
        let a = by_reference(&enough);
        match (a.number, call.kind) {
            (1.., _) => 0,
            (_, Kind::Order) => 36 * a.values[0] as usize,
            (_, Kind::Map) => 8 * a.values[0] as usize,
            (_, Kind::DocumentTable) => 512,
            (_, Kind::Id) => 32,
            (_, Kind::Ids) => call.offered.len() / 6,
            _ => a.values[0] as usize,
        }
    }

    /// Lends a call an output filled with noise: as long as needed, one byte less or more, or some other length.
    pub fn with_output(&mut self, mut call: Call) -> Call {
        let needed = Self::needed(&call);
        let len = match self.rng.below(8) {
            0 | 1 => needed.saturating_sub(1),
            2 => needed + 1,
            3 => 0,
            4 => needed + self.rng.below(100),
            _ => needed,
        };
        call.out = noise(&mut self.rng, len);
        call
    }

    /// An id to ask for: mostly a held one.
    fn an_id(&mut self, fed: &Fed) -> Vec<u8> {
        let mut asked = id(&fed.some(&mut self.rng)).to_vec();
        match self.rng.below(12) {
            0 => asked.fill(0),
            1 => damage::length(&mut self.rng, &mut asked),
            2 => {
                let at = self.rng.below(32);
                damage::byte(&mut self.rng, &mut asked, at);
            }
            _ => {}
        }
        asked
    }

    /// A call that reads the unit, of a random kind.
    pub fn reading(&mut self, fed: &Fed) -> Call {
        let kinds = [Kind::LookUp, Kind::Verdict, Kind::Verdict, Kind::Order, Kind::Map, Kind::WriteOut, Kind::Text];
        let mut call = fed.call(kinds[self.rng.below(kinds.len())]);
        if self.one_in(8) {
            self.poke(&mut call);
        }
        match call.kind {
            Kind::LookUp | Kind::Verdict => call.offered = self.an_id(fed),
            _ => call = self.with_output(call),
        }
        call
    }

    /// Alters the store, the count or the table that a call is lent, or lends it another table.
    pub fn poke(&mut self, call: &mut Call) {
        match self.rng.below(9) {
            0 => call.count = damage::COUNTS[self.rng.below(damage::COUNTS.len())],
            1 => damage::length(&mut self.rng, &mut call.store),
            2 => call.count = 1 + self.rng.below(256),
            3 | 4 => damage::table(&mut self.rng, &mut call.table),
            5 => call.table = tables::any(&mut self.rng),
            _ => damage::store(&mut self.rng, &mut call.store, call.count),
        }
    }
}
