//! Sets of events, the creator first.

pub mod random;

use crate::reference::make::{create, grant, id, join, revoke, Ev, Rng};
use crate::reference::Id;

/// Joins, each the parent of the next; some end one another.
pub fn chain() -> Vec<Ev> {
    let c = create(0);
    let ci = id(&c);
    let mut es = vec![c];
    for i in 1..256u16 {
        let p = id(es.last().expect("not empty"));
        let (a, b) = (4 * i, 4 * i + 1 - 4 * (i & 1));
        es.push(join(0, &ci, (a.min(b), a.max(b)), (4, 5), 12, &[p]));
    }
    es
}

/// The same set, the creator first and the others from the last to the first.
pub fn reversed(mut events: Vec<Ev>) -> Vec<Ev> {
    events[1..].reverse();
    events
}

/// Joins that all have the creator as their parent.
pub fn fan() -> Vec<Ev> {
    let c = create(0);
    let ci = id(&c);
    let joins = (1..256u16).map(|i| join(0, &ci, (2 * i, 2 * i + 1), (4, 5), 12, &[ci]));
    [c].into_iter().chain(joins).collect()
}

/// How the revokes of `revokes` stand to one another.
#[derive(Clone, Copy, PartialEq)]
pub enum Revokes {
    /// All concurrent: one strikes all others.
    Concurrent,
    /// Deepest first, each the parent of the next: all effective.
    Chained,
    /// Up to three parents among the last ones: mixed verdicts.
    Mixed,
}

/// A line of grants, each under the one before: the events and the ids from the creator's on.
fn line(grants: usize) -> (Vec<Ev>, Vec<Id>) {
    let c = create(0);
    let (mut es, mut ids) = (vec![c], vec![id(&c)]);
    for i in 1..=grants {
        let p = ids[ids.len() - 1];
        let e = grant(((i - 1) % 32) as u8, &p, 7, (i % 32) as u8, &[p]);
        es.push(e);
        ids.push(id(&e));
    }
    (es, ids)
}

/// The number of the grant that the n-th revoke presents.
fn presented(how: Revokes, n: usize, rng: &mut Rng) -> usize {
    match how {
        Revokes::Concurrent => n % 127,
        Revokes::Chained => 126 - n.min(126),
        Revokes::Mixed => rng.below(127),
    }
}

/// The parents of a revoke, given the last grant and the revokes before it.
fn parents(how: Revokes, rs: &[Id], rng: &mut Rng) -> Vec<Id> {
    let mut ps = match how {
        Revokes::Concurrent => vec![rs[0]],
        Revokes::Chained => vec![rs[rs.len() - 1]],
        Revokes::Mixed => (0..3).map(|_| rs[rs.len() - 1 - rng.below(rs.len().min(24))]).collect(),
    };
    ps.sort();
    ps.dedup();
    ps
}

/// A line of 127 grants, then 128 revokes; each presents a grant of the line and strikes the next one.
pub fn revokes(how: Revokes) -> Vec<Ev> {
    let (mut es, gs) = line(127);
    let mut rng = Rng(7);
    let mut rs = vec![gs[127]];
    for n in 0..128 {
        let k = presented(how, n, &mut rng);
        let target = if how == Revokes::Chained && n == 127 { 2 } else { k + 1 };
        let ps = parents(how, &rs, &mut rng);
        let mut e = revoke((k % 32) as u8, &gs[k], &gs[target], &ps);
        if rs.contains(&id(&e)) {
            // the same revoke again: another parent makes it another event
            e = revoke((k % 32) as u8, &gs[k], &gs[target], &[gs[126], gs[127]]);
        }
        rs.push(id(&e));
        es.push(e);
    }
    es
}

/// A line of 254 grants and a revoke of the last by the creator's author: the longest way from a target to its revoker.
pub fn longest_line() -> Vec<Ev> {
    let (mut es, gs) = line(254);
    es.push(revoke(0, &gs[0], &gs[254], &[gs[254]]));
    es
}

/// A line of 127 grants and 128 revokes of its deepest grants, each by the creator's author under the creator and each
/// with its own parents: every one asks for the long way from its target up to the creator.
pub fn revokes_from_the_top() -> Vec<Ev> {
    let (mut es, gs) = line(127);
    for n in 0..128 {
        let (target, parent) = (127 - n / 8, 119 - n % 8);
        let mut parents = [gs[127], gs[parent]];
        parents.sort();
        es.push(revoke(0, &gs[0], &gs[target], &parents));
    }
    es
}

/// A chain of joins whose ids all begin with a zero, as somebody who chooses events for their ids can make them.
pub fn one_first_byte() -> Vec<Ev> {
    let c = create(0);
    let ci = id(&c);
    let (mut es, mut last) = (vec![c], ci);
    for a in 0..255u16 {
        let tries = (a + 1..1024).flat_map(|b| (1..=80).map(move |metres| (b, metres)));
        let mut joins = tries.map(|(b, metres)| join(0, &ci, (a, b), (4, 5), metres, &[last]));
        let e = joins.find(|e| id(e)[0] == 0).expect("one of 256 begins with a zero");
        last = id(&e);
        es.push(e);
    }
    es
}

/// The sets that are timed, each of 256 events.
pub fn timed() -> Vec<(&'static str, Vec<Ev>)> {
    vec![
        ("chain", chain()),
        ("chain reversed", reversed(chain())),
        ("fan", fan()),
        ("revokes concurrent", revokes(Revokes::Concurrent)),
        ("revokes chained", revokes(Revokes::Chained)),
        ("revokes mixed", revokes(Revokes::Mixed)),
        ("mixed reversed", reversed(revokes(Revokes::Mixed))),
        ("from the top", revokes_from_the_top()),
        ("one first byte", one_first_byte()),
    ]
}

/// One of the sets of 256 events.
pub fn full(rng: &mut Rng) -> Vec<Ev> {
    match rng.below(8) {
        0 => chain(),
        1 => reversed(chain()),
        2 => fan(),
        3 => revokes(Revokes::Concurrent),
        4 => revokes(Revokes::Chained),
        5 => revokes(Revokes::Mixed),
        6 => revokes_from_the_top(),
        _ => longest_line(),
    }
}
