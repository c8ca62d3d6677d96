//! Nanoseconds a call, the unit beside the reference in one run. The two take turns, repetition by repetition, so that
//! what else the machine does hits both alike.

use crate::reference::make::{bundle, id, join, Ev};
use crate::reference::{self, Hasher, Id, Portable, Tally, CORD_BYTES, STORE};
use crate::{shapes, unit};
use std::hint::black_box;
use std::time::Instant;

/// Median and least of the repetitions, in nanoseconds a call.
#[derive(Clone, Copy)]
struct Time {
    median: f64,
    least: f64,
}

/// The unit's time and the reference's, and the median of the ratios of neighbours. The machine's clock drifts in the
/// course of a run, and neighbours have the same clock: of the three ratios this is the steadiest.
struct Pair {
    unit: Time,
    reference: Time,
    paired: f64,
}

impl Pair {
    /// Unit to reference: of medians, of leasts, of neighbours.
    fn ratios(&self) -> [f64; 3] {
        [self.unit.median / self.reference.median, self.unit.least / self.reference.least, self.paired]
    }
}

fn summary(mut all: Vec<f64>) -> Time {
    all.sort_by(f64::total_cmp);
    Time { median: all[all.len() / 2], least: all[0] }
}

/// Nanoseconds a call of `inner` calls.
#[inline(always)]
fn once(inner: usize, call: &mut impl FnMut()) -> f64 {
    let begun = Instant::now();
    for _ in 0..inner {
        call();
    }
    begun.elapsed().as_nanos() as f64 / inner as f64
}

/// Times two calls in turns.
fn pair(repetitions: usize, inner: usize, mut unit: impl FnMut(), mut reference: impl FnMut()) -> Pair {
    for _ in 0..10 {
        unit();
        reference();
    }
    let (mut us, mut rs) = (vec![], vec![]);
    for _ in 0..repetitions {
        us.push(once(inner, &mut unit));
        rs.push(once(inner, &mut reference));
    }
    let paired = summary(us.iter().zip(&rs).map(|(u, r)| u / r).collect()).median;
    Pair { unit: summary(us), reference: summary(rs), paired }
}

/// A call with a budget, which must be kept to, and an aim, which is only said: both are parts of the reference's time.
struct Budget {
    call: &'static str,
    most: f64,
    aim: f64,
}

const fn budget(call: &'static str, most: f64, aim: f64) -> Budget {
    Budget { call, most, aim }
}

/// The set with the longest ways along a line. The line walk takes a call a step, as document 01 asks, so the calls that
/// walk have a budget of their own on it.
const LONG_LINES: &str = "from the top";

const BUDGETS: [Budget; 12] = [
    budget("one id", 1.05, 1.05),
    budget("256 ids", 0.5, 0.45),
    budget("take", 1.2, 0.6),
    budget("bundle", 1.2, 0.6),
    budget("look-up", 1.2, 0.6),
    budget("order", 0.7, 0.7),
    budget("verdict", 0.7, 0.7),
    budget("map", 0.7, 0.7),
    budget("write-out", 0.7, 0.7),
    budget("order, long lines", 0.9, 0.9),
    budget("verdict, long lines", 0.9, 0.9),
    budget("map, long lines", 0.9, 0.9),
];

/// The budget that a call is held to on a set, by its place.
fn budget_of(call: &str, set: &str) -> usize {
    let long = format!("{call}, long lines");
    let own = BUDGETS.iter().position(|b| set == LONG_LINES && b.call == long);
    own.or(BUDGETS.iter().position(|b| b.call == call)).expect("a call with a budget")
}

const REPETITIONS: usize = 301;

/// A set in every form that the calls are lent.
struct Lent {
    events: Vec<Ev>,
    bundle: Vec<u8>,
    store: Vec<u8>,
    asked: Id,
}

fn lend(events: &[Ev]) -> Lent {
    let mut store: Vec<u8> = events.concat();
    store.resize(STORE, 0);
    let asked = id(&events[events.len() * 25 / 32]);
    Lent { events: events.to_vec(), bundle: bundle(events), store, asked }
}

/// The events with no zeros where the second and third parents stand: an event with one parent has a third block of zeros,
/// which takes less time.
fn filled(events: &[Ev]) -> Vec<Ev> {
    let mut full = events.to_vec();
    full.iter_mut().for_each(|e| e[128..].fill(0xa5));
    full
}

/// Document 01's table, as every call is lent it.
#[inline(always)]
fn table() -> &'static [u8] {
    black_box(&CORD_BYTES)
}

fn time_id(event: &Ev) -> Pair {
    let mut out = [0u8; 32];
    pair(
        8 * REPETITIONS,
        100,
        || assert_eq!(unit::id(black_box(event), black_box(&mut out)), 0),
        || {
            black_box(Portable::id(black_box(event)));
        },
    )
}

fn time_ids(events: &[Ev]) -> Pair {
    let flat = events.concat();
    let (mut o, mut p) = (vec![0u8; 32 * events.len()], vec![0u8; 32 * events.len()]);
    pair(
        REPETITIONS,
        1,
        || assert_eq!(unit::ids(black_box(&flat), black_box(&mut o)), 0),
        || {
            for (event, id) in black_box(events).iter().zip(p.chunks_exact_mut(32)) {
                id.copy_from_slice(&Portable::id(event));
            }
            black_box(&mut p);
        },
    )
}

/// An event that is new to a store with `n` held. With 256 held it is refused.
fn time_take(l: &Lent, n: usize, event: &Ev, repetitions: usize, inner: usize) -> Pair {
    let (mut s, mut t) = (l.store.clone(), l.store.clone());
    let mut tally = Tally::default();
    let expected = if n < 256 { 0 } else { 7 };
    pair(
        repetitions,
        inner,
        || assert_eq!(unit::take(black_box(&mut s), &mut { n }, table(), black_box(event)).0, expected),
        || {
            let answer = reference::take(table(), black_box(&mut t), &mut { n }, black_box(event), &mut tally);
            assert_eq!(black_box(answer).err().unwrap_or(0), expected);
        },
    )
}

/// A bundle of all events into a unit that holds the creator.
fn time_bundle(l: &Lent) -> Pair {
    let (mut s, mut t) = (l.store.clone(), l.store.clone());
    let mut tally = Tally::default();
    pair(
        REPETITIONS,
        1,
        || assert_eq!(unit::take_bundle(black_box(&mut s), &mut 1, table(), black_box(&l.bundle)).0, 0),
        || {
            let answer = reference::take_bundle(table(), black_box(&mut t), &mut 1, black_box(&l.bundle), &mut tally);
            black_box(answer).unwrap();
        },
    )
}

fn time_look_up(l: &Lent) -> Pair {
    let n = l.events.len();
    pair(
        REPETITIONS,
        1,
        || assert_eq!(unit::look_up(black_box(&l.store), n, table(), black_box(&l.asked)).0, 0),
        || {
            black_box(reference::lookup(table(), black_box(&l.store), n, black_box(&l.asked))).unwrap();
        },
    )
}

fn time_order(l: &Lent) -> Pair {
    let n = l.events.len();
    let (mut o, mut p) = (vec![0u8; 36 * 256], vec![0u8; 36 * 256]);
    pair(
        REPETITIONS,
        1,
        || assert_eq!(unit::order(black_box(&l.store), n, table(), black_box(&mut o)).0, 0),
        || {
            black_box(reference::order(table(), black_box(&l.store), n, black_box(&mut p))).unwrap();
        },
    )
}

fn time_verdict(l: &Lent, repetitions: usize, inner: usize) -> Pair {
    let n = l.events.len();
    pair(
        repetitions,
        inner,
        || assert_eq!(unit::verdict(black_box(&l.store), n, table(), black_box(&l.asked)).0, 0),
        || {
            black_box(reference::verdict(table(), black_box(&l.store), n, black_box(&l.asked))).unwrap();
        },
    )
}

fn time_map(l: &Lent, repetitions: usize, inner: usize) -> Pair {
    let n = l.events.len();
    let (mut o, mut p) = (vec![0u8; 8 * 256], vec![0u8; 8 * 256]);
    pair(
        repetitions,
        inner,
        || assert_eq!(unit::map(black_box(&l.store), n, table(), black_box(&mut o)).0, 0),
        || {
            black_box(reference::map(table(), black_box(&l.store), n, black_box(&mut p))).unwrap();
        },
    )
}

fn time_write_out(l: &Lent) -> Pair {
    let n = l.events.len();
    let (mut o, mut p) = (vec![0u8; STORE + 12], vec![0u8; STORE + 12]);
    pair(
        REPETITIONS,
        1,
        || assert_eq!(unit::write_out(black_box(&l.store), n, table(), black_box(&mut o)).0, 0),
        || {
            black_box(reference::write_out(table(), black_box(&l.store), n, black_box(&mut p))).unwrap();
        },
    )
}

/// A look-up that is refused by 2 for its count: behind the table's test nothing else is done. With one byte of the table
/// left out it is refused by 12, and no entry is tested.
fn time_refused(l: &Lent, table: &[u8], expected: u8) -> Pair {
    pair(
        REPETITIONS,
        100,
        || assert_eq!(unit::look_up(black_box(&l.store), 0, black_box(table), black_box(&l.asked)).0, expected),
        || {
            let answer = reference::lookup(black_box(table), black_box(&l.store), 0, black_box(&l.asked));
            assert_eq!(black_box(answer), Err(expected));
        },
    )
}

/// What the table's test takes, which every call makes.
fn table_test(events: &[Ev]) {
    println!("\nThe test of the table: medians in ns of a look-up that ends right behind it, and of one that ends at its length.");
    let l = lend(events);
    for (what, table, expected) in [("count 0", &CORD_BYTES[..], 2), ("511 bytes", &CORD_BYTES[..511], 12)] {
        let p = time_refused(&l, table, expected);
        println!("{what:<9} unit {:>5.0}  reference {:>5.0}", p.unit.median, p.reference.median);
    }
}

/// The worst ratios of a call, and the set of the worst ratio of neighbours.
#[derive(Clone, Copy)]
struct Worst<'a> {
    ratios: [f64; 3],
    set: &'a str,
}

/// Prints one line and keeps the worst ratios of the call.
fn say<'a>(worst: &mut [Worst<'a>], call: &str, set: &'a str, p: Pair) {
    let (u, r, ratios) = (p.unit, p.reference, p.ratios());
    print!("{call:<9} {set:<18} unit {:>7.0} least {:>7.0}  reference {:>7.0} ", u.median, u.least, r.median);
    println!("least {:>7.0}  paired {:.3} leasts {:.3} medians {:.3}", r.least, ratios[2], ratios[1], ratios[0]);
    let w = &mut worst[budget_of(call, set)];
    if ratios[2] > w.ratios[2] {
        w.set = set;
    }
    w.ratios = [0, 1, 2].map(|i| w.ratios[i].max(ratios[i]));
}

/// Whether every budget is met. It is held to the ratio of neighbours, the steadiest; the other two are shown beside.
fn say_budgets(worst: &[Worst]) -> bool {
    println!("\nBudgets: the worst ratio of each call, of neighbours, and beside it of medians and of leasts.");
    for (b, w) in BUDGETS.iter().zip(worst) {
        let [medians, leasts, paired] = w.ratios;
        let met = if paired <= b.most { "met" } else { "NOT met" };
        let reached = if paired <= b.aim { "reached" } else { "not reached" };
        print!("{:<19} budget {:.2}  paired {paired:.3} {met:<8} aim {:.2} {reached:<12}", b.call, b.most, b.aim);
        println!(" medians {medians:.3} leasts {leasts:.3}  worst set: {}", w.set);
    }
    BUDGETS.iter().zip(worst).all(|(b, w)| w.ratios[2] <= b.most)
}

/// Takes, verdicts and maps with the first events of the fan held, in growing numbers.
fn growth() {
    println!(
        "\nGrowth with the number held: medians in ns, and ns an event held (fan; a take with 256 held is refused)."
    );
    println!("{:>5} {:>26} {:>26} {:>26}", "held", "take", "verdict", "map");
    let all = shapes::fan();
    let ci = id(&all[0]);
    let new = join(0, &ci, (1, 1023), (4, 5), 12, &[ci]);
    for power in 0..9 {
        let held = 1 << power;
        let inner = 256 / held;
        let l = lend(&all[..held]);
        let pairs = [time_take(&l, held, &new, 101, inner), time_verdict(&l, 101, inner), time_map(&l, 101, inner)];
        let shown = pairs.map(|p| format!(" {:>16.0} {:>9.0}", p.unit.median, p.unit.median / held as f64));
        println!("{held:>5}{}", shown.concat());
    }
}

/// Times all calls and prints. Whether every budget is met.
pub fn run() -> bool {
    println!(
        "Times in nanoseconds, median and least of {REPETITIONS} repetitions, 256 events; ratio: unit to reference."
    );
    let mut worst = [Worst { ratios: [0.0; 3], set: "-" }; BUDGETS.len()];
    let sets = shapes::timed();
    for (set, events) in [("one parent", &sets[0].1), ("third block full", &filled(&sets[0].1))] {
        say(&mut worst, "one id", set, time_id(&events[77]));
        say(&mut worst, "256 ids", set, time_ids(events));
    }
    for (set, events) in &sets {
        let l = lend(events);
        say(&mut worst, "take", set, time_take(&l, 255, &events[255], REPETITIONS, 1));
        say(&mut worst, "bundle", set, time_bundle(&l));
        say(&mut worst, "look-up", set, time_look_up(&l));
        say(&mut worst, "order", set, time_order(&l));
        say(&mut worst, "verdict", set, time_verdict(&l, REPETITIONS, 1));
        say(&mut worst, "map", set, time_map(&l, REPETITIONS, 1));
        say(&mut worst, "write-out", set, time_write_out(&l));
    }
    let met = say_budgets(&worst);
    growth();
    table_test(&sets[0].1);
    met
}
