//! Cases that every run has: each byte of an event, of a small bundle, of a small store and of a cord table altered in turn;
//! each field at its edges; wrong lengths and counts for every call; bad tables, and good ones unlike document 01's; a full
//! store; bundles of 0 to 257; outputs one byte too short.

use crate::cases::{holding, with_table, Call, Kind, KINDS};
use crate::damage;
use crate::feed::{noise, Fed};
use crate::reference::make::{bundle, create, grant, id, join, revoke, unplug, Ev};
use crate::reference::{Id, STORE, TABLE};
use crate::seen;
use crate::shapes;
use crate::tables;
use crate::trial::Trial;

pub const CASES: [fn(&mut Trial); 19] = [
    |t| each_byte_of_event(t, 0),
    |t| each_byte_of_event(t, 1),
    |t| each_byte_of_event(t, 2),
    |t| each_byte_of_event(t, 3),
    |t| each_byte_of_event(t, 4),
    each_byte_of_bundle,
    each_byte_of_store,
    each_byte_of_table,
    edges,
    cords,
    bad_tables,
    other_table,
    wrong_places,
    starts,
    lengths,
    counts,
    full_store,
    bundles,
    outputs,
];

/// A creator, a grant, and one event of each kind with two or three parents.
fn small_set() -> [Ev; 7] {
    let c = create(0);
    let ci = id(&c);
    let a = grant(0, &ci, 7, 1, &[ci]);
    let ai = id(&a);
    let b = grant(1, &ai, 3, 2, &[ci, ai]);
    let bi = id(&b);
    let j = join(2, &bi, (3, 7), (4, 5), 12, &[ai, bi]);
    let ps: [Id; 3] = [ci, bi, id(&j)];
    [c, a, b, j, revoke(1, &ai, &bi, &ps), unplug(2, &bi, 7, &ps), join(0, &ci, (8, 9), (15, 12), 3, &ps)]
}

/// A unit with the first three events of the small set.
fn small_unit(t: &mut Trial) -> Fed {
    let set = small_set();
    let mut fed = t.start(&set[0]);
    t.feed_bundles(&mut fed, &set[1..3], 2);
    fed
}

/// Offers an event of the kind with each of its bytes altered, and a start with it where it is a create.
fn each_byte_of_event(t: &mut Trial, kind: u8) {
    let fed = small_unit(t);
    let set = small_set();
    let event = set.iter().rev().find(|e| e[0] == kind).expect("one of each kind");
    for at in 0..192 {
        let mut offered = event.to_vec();
        damage::byte(&mut t.rng, &mut offered, at);
        t.seen.event_byte(at);
        if kind == 0 {
            t.compare(Call { offered: offered.clone(), ..fed.call(Kind::Start) });
        }
        t.offer(&mut fed.clone(), offered);
    }
}

/// Takes a small bundle with each of its bytes altered, and asks for its first event: a drawing of 5 bytes, three events,
/// the trailer.
fn each_byte_of_bundle(t: &mut Trial) {
    let fed = small_unit(t);
    let mut whole = noise(&mut t.rng, 5);
    whole.extend(bundle(&small_set()[3..6]));
    for at in 0..seen::BUNDLE {
        let mut offered = whole.clone();
        damage::byte(&mut t.rng, &mut offered, at);
        t.seen.bundle_byte(at);
        t.compare(Call { offered: offered.clone(), ..fed.call(Kind::FirstEvent) });
        t.offer_bundle(&mut fed.clone(), offered);
    }
}

/// Lends each call in turn a store with one held byte altered.
fn each_byte_of_store(t: &mut Trial) {
    let fed = small_unit(t);
    let set = small_set();
    for at in 0..3 * 192 {
        let kind = holding()[at % holding().len()];
        let mut call = fed.call(kind);
        damage::byte(&mut t.rng, &mut call.store, at);
        call.offered = offered_to(kind, &set);
        call.out = noise(&mut t.rng, 700);
        t.compare(call);
    }
}

/// Lends each call in turn document 01's table with one byte altered.
fn each_byte_of_table(t: &mut Trial) {
    let fed = small_unit(t);
    let set = small_set();
    for at in 0..TABLE {
        let kind = with_table()[at % with_table().len()];
        let mut call = fed.call(kind);
        damage::byte(&mut t.rng, &mut call.table, at);
        t.seen.table_byte(at);
        call.offered = offered_to(kind, &set);
        call.out = noise(&mut t.rng, 700);
        t.compare(call);
    }
}

/// Offers an event, and holds it: a take into a small unit, then a take and a reading with it in the place behind.
fn offered_and_held(t: &mut Trial, fed: &Fed, event: Ev) {
    t.offer(&mut fed.clone(), event.to_vec());
    let at = 192 * fed.count;
    let mut holds = fed.clone();
    holds.store[at..at + 192].copy_from_slice(&event);
    holds.count += 1;
    t.compare(Call { offered: id(&event).to_vec(), ..holds.call(Kind::Verdict) });
}

/// Values at the edges of fields of two bytes.
const WIDE: [u16; 17] = [0, 1, 2, 3, 4, 6, 7, 8, 9, 10, 255, 256, 1022, 1023, 1024, 1025, 65_535];

/// Events of every kind with each field at its edges; ids of zeros and of ones.
fn edges(t: &mut Trial) {
    let fed = small_unit(t);
    for event in small_set() {
        for (at, value) in (0..8).flat_map(|at| damage::EDGES.map(|v| (at, v))) {
            let mut altered = event;
            altered[at] = value;
            offered_and_held(t, &fed, altered);
        }
        for (at, value) in [8, 10, 12, 14].into_iter().flat_map(|at| WIDE.map(|v| (at, v))) {
            let mut altered = event;
            altered[at..at + 2].copy_from_slice(&value.to_be_bytes());
            offered_and_held(t, &fed, altered);
        }
        for (at, value) in [32, 64, 96, 128, 160].into_iter().flat_map(|at| [(at, 0), (at, 255)]) {
            let mut altered = event;
            altered[at..at + 32].fill(value);
            offered_and_held(t, &fed, altered);
        }
    }
}

/// Joins of all pairs of connector kinds, as long as they may be and one metre longer, by document 01's table and by others.
fn cords(t: &mut Trial) {
    let fed = small_unit(t);
    let ci = id(&small_set()[0]);
    for table in tables::goods() {
        for kinds in (0..16).flat_map(|a| [0, 1, 2, 3, 5].map(|step| (a, (a + step) % 16))) {
            let limit = tables::entry(&table, kinds);
            for length in [limit, limit.saturating_add(1)] {
                let event = join(0, &ci, (1, 2), kinds, length, &[ci]);
                t.offer(&mut Fed { table: table.clone(), ..fed.clone() }, event.to_vec());
            }
        }
    }
}

/// Every call that is lent a table, with bad ones: alone, and with a wrong length, which comes before, or a wrong count, a
/// bad offer or no output, which come after.
fn bad_tables(t: &mut Trial) {
    let fed = small_unit(t);
    let set = small_set();
    for (table, kind) in tables::bads().into_iter().flat_map(|b| with_table().iter().map(move |k| (b.clone(), *k))) {
        let (offered, out) = (offered_to(kind, &set), noise(&mut t.rng, 800));
        let call = Call { table, offered, out, ..fed.call(kind) };
        let mut field = call.offered.clone();
        field[2] = 77;
        t.compare(Call { store: sized(&call.store, STORE - 1), ..call.clone() });
        t.compare(Call { offered: sized(&call.offered, call.offered.len() - 1), ..call.clone() });
        t.compare(Call { count: 0, ..call.clone() });
        t.compare(Call { offered: field, ..call.clone() });
        t.compare(Call { offered: set[3].to_vec(), out: vec![], ..call.clone() });
        t.compare(call);
    }
}

/// Every call on a store that holds a join of 12 m with kinds 4 and 5, by tables that allow it, by ones that do not, which
/// is 2, and then by document 01's again.
fn other_table(t: &mut Trial) {
    let mut fed = small_unit(t);
    let set = small_set();
    t.offer(&mut fed, set[3].to_vec());
    let entries = [80, 12, 11, 0, 65_535, 256].map(|metres| tables::altered(&[((4, 5), metres), ((5, 4), metres)]));
    for table in entries.into_iter().chain(tables::goods()) {
        for (kind, table) in holding().iter().flat_map(|k| [(*k, table.clone()), (*k, tables::document())]) {
            let (offered, out) = (offered_to(kind, &set), noise(&mut t.rng, 800));
            t.compare(Call { table, offered, out, ..fed.call(kind) });
        }
    }
}

/// Stores in which one place holds what it may not, or what only place 0 may.
fn wrong_places(t: &mut Trial) {
    let fed = small_unit(t);
    let set = small_set();
    let ci = id(&set[0]);
    let long = join(0, &ci, (1, 2), (5, 6), 151, &[ci]);
    let mut foreign = set[3];
    foreign[31] ^= 1;
    for event in [set[0], create(1), set[1], set[3], long, foreign] {
        for place in 0..3 {
            for kind in holding() {
                let mut call = fed.call(*kind);
                call.store[192 * place..192 * place + 192].copy_from_slice(&event);
                call.offered = offered_to(*kind, &set);
                call.out = noise(&mut t.rng, 800);
                t.compare(call);
            }
        }
    }
}

/// Bundles of 0, 1, 2, 255, 256 and 257 events, whole and without their first byte: taken, and asked for their first event.
fn bundles(t: &mut Trial) {
    let mut set = shapes::fan();
    let extra = unplug(0, &id(&set[0]), 9, &[id(&set[0])]);
    set.push(extra);
    let fed = t.start(&set[0]);
    for events in [0, 1, 2, 255, 256, 257] {
        let whole = bundle(&set[..events]);
        for offered in [whole[1..].to_vec(), whole] {
            t.compare(Call { offered: offered.clone(), ..fed.call(Kind::FirstEvent) });
            t.offer_bundle(&mut fed.clone(), offered);
        }
    }
}

/// Starts with events of every kind, good ones, ones with a bad field and too long a join; on a fresh and a used store.
fn starts(t: &mut Trial) {
    let fed = small_unit(t);
    let set = small_set();
    let long = join(0, &id(&set[0]), (1, 2), (3, 4), 1, &[id(&set[0])]);
    for event in set.iter().chain([&long, &create(31), &create(32)]) {
        t.compare(Call { offered: event.to_vec(), ..fed.call(Kind::Start) });
        for at in [0, 1, 2, 7, 14, 20, 40, 191] {
            let mut offered = event.to_vec();
            damage::byte(&mut t.rng, &mut offered, at);
            t.compare(Call { offered, ..fed.call(Kind::Start) });
        }
    }
}

/// What a call of the kind is offered: an event, a bundle or an id.
fn offered_to(kind: Kind, set: &[Ev; 7]) -> Vec<u8> {
    match kind {
        Kind::Start => set[0].to_vec(),
        Kind::Take | Kind::TakeCounted | Kind::Id | Kind::Ids => set[3].to_vec(),
        Kind::TakeBundle | Kind::TakeBundleCounted => bundle(&set[3..5]),
        Kind::FirstEvent => bundle(&set[..]),
        _ => id(&set[1]).to_vec(),
    }
}

/// Bytes cut or filled to a length.
fn sized(bytes: &[u8], len: usize) -> Vec<u8> {
    let mut all = bytes.to_vec();
    all.resize(len, 0);
    all
}

/// Every call with every slice of a wrong length, alone and with a wrong count or other wrong slices.
fn lengths(t: &mut Trial) {
    let fed = small_unit(t);
    let set = small_set();
    for kind in KINDS {
        let offered = offered_to(kind, &set);
        for (store, table) in
            [0, STORE - 1, STORE, STORE + 1].into_iter().flat_map(|s| [0, 511, 512, 513].map(|k| (s, k)))
        {
            for len in [0, 11, 12, offered.len() - 1, offered.len(), offered.len() + 1] {
                let count = if t.one_in(4) { 0 } else { fed.count };
                let out = noise(&mut t.rng, if matches!(kind, Kind::Id | Kind::Ids) { 32 } else { 800 });
                let (store, table) = (sized(&fed.store, store), sized(&fed.table, table));
                t.compare(Call { store, table, offered: sized(&offered, len), count, out, ..fed.call(kind) });
            }
        }
    }
    for len in [0, 31, 32, 33] {
        let out = noise(&mut t.rng, len);
        t.compare(Call { offered: set[1].to_vec(), out, ..fed.call(Kind::Id) });
    }
    for len in [0, 1, 511, 512, 513] {
        let out = noise(&mut t.rng, len);
        t.compare(Call { out, ..fed.call(Kind::DocumentTable) });
    }
    for n in [0, 1, 2, 3, 4, 5, 7, 8, 255, 256, 257] {
        for (events, ids) in [(0, 0), (1, 0), (0, 1), (191, 31), (192, 0), (192, 31), (0, 32)] {
            let (offered, out) = (noise(&mut t.rng, 192 * n + events), noise(&mut t.rng, 32 * n + ids));
            t.compare(Call { offered, out, ..fed.call(Kind::Ids) });
        }
    }
}

/// Every call that is lent a count, with counts that no unit has.
fn counts(t: &mut Trial) {
    let fed = small_unit(t);
    let set = small_set();
    for kind in holding() {
        for count in damage::COUNTS {
            let out = noise(&mut t.rng, 800);
            t.compare(Call { count, offered: offered_to(*kind, &set), out, ..fed.call(*kind) });
        }
    }
}

/// 256 held: each kind of offer, alone and in a bundle.
fn full_store(t: &mut Trial) {
    let set = shapes::fan();
    let mut fed = t.start(&set[0]);
    t.feed_bundles(&mut fed, &set[1..], 255);
    let [c, a, ..] = small_set();
    let ci = id(&c);
    let (long, far) = (join(0, &ci, (1, 2), (5, 6), 151, &[ci]), join(0, &ci, (1, 1023), (5, 6), 150, &[ci]));
    let (mut field, mut room) = (a, a);
    field[7] = 1;
    room[20] ^= 1;
    let offers = [set[0], set[1], set[255], a, long, far, field, room, create(1)];
    for event in offers {
        t.offer(&mut fed, event.to_vec());
    }
    let all = t.packed(&offers);
    t.offer_bundle(&mut fed, all);
    let whole = t.packed(&set);
    t.offer_bundle(&mut fed, whole);
}

/// Every call with an output on full stores, exactly long enough, one byte too short and longer.
fn outputs(t: &mut Trial) {
    for (_, set) in shapes::timed() {
        let mut fed = t.start(&set[0]);
        t.feed_bundles(&mut fed, &set[1..], 255);
        let rows = [(Kind::Order, 36), (Kind::Map, 8), (Kind::WriteOut, 1), (Kind::Text, 1)];
        for (kind, row) in rows {
            let lent = fed.call(kind);
            let out = noise(&mut t.rng, STORE + 13);
            let enough = t.compare(Call { out, ..lent.clone() });
            let needed = enough.values[0] as usize * row;
            for len in [needed, needed.saturating_sub(1), needed + 1] {
                let out = noise(&mut t.rng, len);
                t.compare(Call { out, ..lent.clone() });
            }
        }
    }
}
