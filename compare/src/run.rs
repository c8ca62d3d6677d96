//! The comparison: the fixed cases, then random ones, each determined by the seed and its number.

use crate::cases::{Call, Kind};
use crate::damage;
use crate::faulty::Fault;
use crate::feed::{noise, shuffle, Fed};
use crate::fixed;
use crate::reference::make::{bundle, create, id, Ev};
use crate::reference::STORE;
use crate::seen::Seen;
use crate::shapes;
use crate::tables;
use crate::trial::{Trial, Voice};

/// Cases with a difference after which a run stops.
const ENOUGH: usize = 5;

fn case(t: &mut Trial, number: usize) {
    match fixed::CASES.get(number) {
        Some(fixed) => fixed(t),
        None => [twins, random, sets, sets][number % 4](t),
    }
}

/// Runs the fixed cases, then random ones until those made so many calls, or until enough cases differed. Gives the
/// number of cases that differed.
fn cases(seed: u64, count: usize, seen: &mut Seen, voice: Voice, fault: Option<&Fault>, enough: usize) -> usize {
    let (mut number, mut differing, mut fixed) = (0, 0, 0);
    while (number <= fixed::CASES.len() || seen.calls - fixed < count) && differing < enough {
        if number == fixed::CASES.len() {
            fixed = seen.calls;
        }
        let mut t = Trial::new(seed, number, seen, voice, fault);
        case(&mut t, number);
        differing += usize::from(t.differences > 0);
        number += 1;
    }
    seen.cases = number;
    differing
}

/// Compares on the fixed cases and at least `count` random calls. Whether there was no difference and nothing was left
/// out.
pub fn check(seed: u64, count: usize) -> bool {
    println!("Comparison of the unit with the reference, seed {seed}, fixed cases and at least {count} random calls.");
    let mut seen = Seen::new();
    let differing = cases(seed, count, &mut seen, Voice::Brief, None, ENOUGH);
    seen.print();
    for what in seen.lacking() {
        println!("LACKING: {what}");
    }
    println!("{}", if differing == 0 { "no difference".into() } else { format!("{differing} cases DIFFER") });
    differing == 0 && seen.lacking().is_empty()
}

/// Runs one case alone and prints each call. Whether there was no difference.
pub fn replay(seed: u64, number: usize) -> bool {
    let mut seen = Seen::new();
    let mut t = Trial::new(seed, number, &mut seen, Voice::Full, None);
    case(&mut t, number);
    println!("case {number} of seed {seed}: {} differences", t.differences);
    t.differences == 0
}

/// The calls after which a fault is found.
pub fn finds(seed: u64, count: usize, fault: &Fault) -> Option<usize> {
    let mut seen = Seen::new();
    let differing = cases(seed, count, &mut seen, Voice::Silent, Some(fault), 1);
    (differing > 0).then_some(seen.calls)
}

/// A set of any shape: mostly small, some full, some with more events than there are places.
fn a_set(t: &mut Trial, most: usize) -> Vec<Ev> {
    if t.one_in(30) {
        t.about("a full set", 256);
        return shapes::full(&mut t.rng);
    }
    let style = &shapes::random::STYLES[t.rng.below(shapes::random::STYLES.len())];
    let size = match t.rng.below(8) {
        0 => most,
        1 | 2 => 30 + t.rng.below(most - 30),
        _ => 2 + t.rng.below(24),
    };
    let mut set = shapes::random::grow(&mut t.rng, style, size);
    if t.one_in(6) && set.len() > 4 {
        // an event that never comes: those above it wait
        let lost = 1 + t.rng.below(set.len() - 1);
        set.remove(lost);
    }
    t.about(style.name, set.len());
    set
}

/// The order in which the events behind the creator arrive.
fn arrival(t: &mut Trial, set: &[Ev]) -> Vec<Ev> {
    let mut events = set[1..].to_vec();
    match t.rng.below(3) {
        0 => {}
        1 => events.reverse(),
        _ => shuffle(&mut t.rng, &mut events),
    }
    events
}

/// A unit with a random good table. Now and then it is started again with an altered one, and what that leaves is not kept.
fn a_unit(t: &mut Trial, creator: &Ev) -> Fed {
    let table = tables::any(&mut t.rng);
    let fed = t.start_with(creator, table);
    if t.one_in(4) {
        let mut call = Call { offered: creator.to_vec(), ..fed.call(Kind::Start) };
        damage::table(&mut t.rng, &mut call.table);
        t.compare(call);
    }
    fed
}

/// One unit fed with a set, with damaged offers between, and read now and then.
fn random(t: &mut Trial) {
    let set = a_set(t, 280);
    let mut fed = a_unit(t, &set[0]);
    let mut events = &arrival(t, &set)[..];
    while !events.is_empty() {
        let singles = t.rng.below(4).min(events.len());
        let bundled = t.rng.below(events.len() - singles + 1);
        t.feed_singly(&mut fed, &events[..singles]);
        t.feed_bundles(&mut fed, &events[singles..singles + bundled], 256);
        spoiled(t, &mut fed, events[0]);
        events = &events[singles + bundled..];
        let call = t.reading(&fed);
        t.compare(call);
    }
    for _ in 0..6 {
        let call = t.reading(&fed);
        t.compare(call);
    }
    first_event(t, &set);
    ids(t, &fed);
}

/// Several sets, each taken as one bundle: its order and its map.
fn sets(t: &mut Trial) {
    for _ in 0..8 {
        let set = a_set(t, 100);
        let mut fed = a_unit(t, &set[0]);
        let offered = t.packed(&set[..set.len().min(256)]);
        t.offer_bundle(&mut fed, offered);
        for (kind, row) in [(Kind::Order, 36), (Kind::Map, 8)] {
            let out = noise(&mut t.rng, row * fed.count);
            t.compare(Call { out, ..fed.call(kind) });
        }
    }
}

/// One damaged offer: an event, a bundle, or a good event with a poked store or table.
fn spoiled(t: &mut Trial, fed: &mut Fed, event: Ev) {
    match t.rng.below(4) {
        0 => {
            let mut offered = event.to_vec();
            damage::event(&mut t.rng, &mut offered);
            t.offer(fed, offered);
        }
        1 => {
            let mut offered = t.packed(&[event, create(4), event]);
            damage::bundle(&mut t.rng, &mut offered);
            t.offer_bundle(fed, offered);
        }
        2 => {
            let kinds = [Kind::Take, Kind::TakeCounted, Kind::TakeBundle, Kind::TakeBundleCounted];
            let mut call = fed.call(kinds[t.rng.below(4)]);
            t.poke(&mut call);
            let single = matches!(call.kind, Kind::Take | Kind::TakeCounted);
            call.offered = if single { event.to_vec() } else { bundle(&[event]) };
            t.compare(call);
        }
        _ => {}
    }
}

/// The first event of a bundle, which may be damaged or have none.
fn first_event(t: &mut Trial, set: &[Ev]) {
    let mut all = set[..set.len().min(256)].to_vec();
    if t.one_in(5) {
        all.truncate(t.rng.below(2));
    }
    let mut offered = t.packed(&all);
    if t.one_in(5) {
        damage::bundle(&mut t.rng, &mut offered);
    }
    let (store, tally) = (noise(&mut t.rng, STORE), [0; 3]);
    t.compare(Call { kind: Kind::FirstEvent, store, count: 0, table: vec![], offered, out: vec![], tally });
}

/// The id of an event, and of several, and document 01's table, to outputs that may be too short or longer.
fn ids(t: &mut Trial, fed: &Fed) {
    let n = t.rng.below(18);
    for (kind, events) in [(Kind::Id, 1), (Kind::Ids, n), (Kind::DocumentTable, 0)] {
        let offered = noise(&mut t.rng, 192 * events);
        let call = t.with_output(Call { offered, ..fed.call(kind) });
        t.compare(call);
    }
}

/// Two units that are lent one table and offered one set in different ways show the same; what one writes, a fresh one
/// takes and writes.
fn twins(t: &mut Trial) {
    let set = a_set(t, 256);
    let table = tables::any(&mut t.rng);
    let (mut first, mut second) = (t.start_with(&set[0], table.clone()), t.start_with(&set[0], table));
    let (one, other) = (arrival(t, &set), arrival(t, &set));
    t.feed_bundles(&mut first, &one, 256);
    if set.len() < 32 {
        t.feed_singly(&mut second, &other);
    } else {
        t.feed_bundles(&mut second, &other, 100);
        t.feed_bundles(&mut second, &one[..one.len() / 2], 100);
    }
    for kind in [Kind::Order, Kind::Map, Kind::WriteOut] {
        let out = noise(&mut t.rng, STORE + 20);
        let (a, b) = both(t, &first, &second, |fed| Call { out: out.clone(), ..fed.call(kind) });
        t.equal(&format!("{kind:?}"), &a, &b);
    }
    for _ in 0..4 {
        let offered = id(&first.some(&mut t.rng)).to_vec();
        let (a, b) = both(t, &first, &second, |fed| Call { offered: offered.clone(), ..fed.call(Kind::Verdict) });
        t.equal("verdict", &a, &b);
    }
    t.seen.twins += 1;
    round_trip(t, &set[0], &first);
}

/// The answers of two units to one call: number, values and output.
type Shown = (u8, Vec<u64>, Vec<u8>);

fn both(t: &mut Trial, first: &Fed, second: &Fed, call: impl Fn(&Fed) -> Call) -> (Shown, Shown) {
    let a = t.compare(call(first));
    t.second = true;
    let b = t.compare(call(second));
    t.second = false;
    ((a.number, a.values, a.out), (b.number, b.values, b.out))
}

/// A written bundle, taken by a fresh unit and written again, gives the same bytes.
fn round_trip(t: &mut Trial, creator: &Ev, fed: &Fed) {
    let len = 192 * fed.count + 12;
    let written = t.compare(Call { out: vec![0; len], ..fed.call(Kind::WriteOut) }).out;
    let mut fresh = t.start_with(creator, fed.table.clone());
    let taken = t.offer_bundle(&mut fresh, written.clone());
    t.equal("figures of a written bundle", &taken.values, &vec![fed.count as u64 - 1, 1, 0]);
    t.second = true;
    let again = t.compare(Call { out: vec![0; len], ..fresh.call(Kind::WriteOut) }).out;
    t.second = false;
    t.equal("a written bundle written again", &written, &again);
    t.seen.round_trips += 1;
}
