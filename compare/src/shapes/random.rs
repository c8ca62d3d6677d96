//! Random sets: mostly sound events, in styles that favour one thing or another, with faults now and then.

use crate::reference::make::{create, grant, id, join, revoke, unplug, Ev, Rng};
use crate::reference::Id;
use std::collections::BTreeSet;

/// What a random set is made of.
pub struct Style {
    pub name: &'static str,
    /// Members that are granted something.
    members: usize,
    /// Parents are among the last so many events.
    reach: usize,
    /// The presented grant is among the last so many ancestors that are grants.
    near: usize,
    /// Shares of grants, revokes, joins, unplugs.
    shares: [usize; 4],
    ports: usize,
    /// One event in so many has a fault.
    faults: usize,
    /// One event in so many has a parent that never comes.
    missing: usize,
}

const NEVER: usize = 1 << 40;

pub const STYLES: [Style; 9] = [
    Style {
        name: "anything",
        members: 6,
        reach: 12,
        near: 20,
        shares: [4, 3, 2, 1],
        ports: 12,
        faults: 15,
        missing: 60,
    },
    Style {
        name: "deep line",
        members: 32,
        reach: 1,
        near: 1,
        shares: [12, 1, 1, 0],
        ports: 12,
        faults: 200,
        missing: NEVER,
    },
    Style {
        name: "revokes at once",
        members: 3,
        reach: 256,
        near: 256,
        shares: [3, 6, 2, 1],
        ports: 8,
        faults: 200,
        missing: NEVER,
    },
    Style {
        name: "revokers revoked",
        members: 4,
        reach: 5,
        near: 4,
        shares: [4, 5, 1, 0],
        ports: 4,
        faults: 300,
        missing: NEVER,
    },
    Style {
        name: "revokes and joins",
        members: 4,
        reach: 20,
        near: 8,
        shares: [3, 3, 5, 1],
        ports: 10,
        faults: NEVER,
        missing: NEVER,
    },
    Style {
        name: "cabling",
        members: 2,
        reach: 3,
        near: 256,
        shares: [1, 0, 8, 3],
        ports: 5,
        faults: NEVER,
        missing: NEVER,
    },
    Style {
        name: "many cords",
        members: 2,
        reach: 256,
        near: 256,
        shares: [1, 0, 12, 1],
        ports: 1024,
        faults: NEVER,
        missing: NEVER,
    },
    Style { name: "waiting", members: 4, reach: 30, near: 20, shares: [4, 2, 4, 1], ports: 8, faults: 100, missing: 6 },
    Style { name: "faults", members: 4, reach: 8, near: 6, shares: [3, 4, 2, 1], ports: 8, faults: 3, missing: 60 },
];

struct Node {
    event: Ev,
    id: Id,
    ancestors: BTreeSet<usize>,
    presented: usize,
    /// Sound, as far as this module knows.
    clean: bool,
}

impl Node {
    /// Whom it grants something, and what.
    fn gives(&self) -> (u8, u8) {
        match self.event[0] {
            0 => (self.event[1], 7),
            1 => (self.event[4], self.event[3]),
            _ => (self.event[1], 0),
        }
    }
}

struct Growth<'a> {
    rng: &'a mut Rng,
    style: &'a Style,
    nodes: Vec<Node>,
}

/// What is chosen of an event before its kind's own fields.
struct Chosen {
    kind: u8,
    author: u8,
    /// The presented id, and the event that has it.
    under: Id,
    presented: usize,
    target: usize,
    rights: u8,
    parents: Vec<Id>,
}

/// A set of `size` events, or fewer where the style runs out of rights; the creator first, each after its parents.
pub fn grow(rng: &mut Rng, style: &Style, size: usize) -> Vec<Ev> {
    let event = create(rng.below(3) as u8);
    let creator = Node { event, id: id(&event), ancestors: BTreeSet::new(), presented: 0, clean: true };
    let mut growth = Growth { rng, style, nodes: vec![creator] };
    for _ in 0..40 * size {
        let Some(node) = growth.next() else { continue };
        if growth.nodes.len() < size && growth.nodes.iter().all(|n| n.id != node.id) {
            growth.nodes.push(node);
        }
        if growth.nodes.len() >= size {
            break;
        }
    }
    growth.nodes.iter().map(|n| n.event).collect()
}

impl Growth<'_> {
    fn one_in(&mut self, n: usize) -> bool {
        self.rng.below(n) == 0
    }

    fn next(&mut self) -> Option<Node> {
        let fault = self.one_in(self.style.faults);
        let parents = self.parents(fault);
        let mut ancestors = parents.clone();
        for &p in &parents {
            ancestors.extend(&self.nodes[p].ancestors);
        }
        let mut ids: Vec<Id> = parents.iter().map(|&p| self.nodes[p].id).collect();
        let waits = ids.len() < 3 && self.one_in(self.style.missing);
        if waits {
            ids.push([self.rng.below(3) as u8; 32]);
        }
        let (kind, presented, target) = self.presented(&ancestors);
        let (author, rights) = self.nodes[presented].gives();
        let under = self.nodes[presented].id;
        let mut chosen = Chosen { kind, author, under, presented, target, rights, parents: ids };
        if fault {
            self.spoil(&mut chosen, &ancestors);
        }
        let clean = !waits && self.clean(&chosen, &parents, &ancestors);
        let wanted = clean || fault || waits || self.one_in(20);
        let presented = chosen.presented;
        let event = self.event(chosen)?;
        wanted.then(|| Node { event, id: id(&event), ancestors, presented, clean })
    }

    /// One to three events, mostly sound ones.
    fn parents(&mut self, fault: bool) -> BTreeSet<usize> {
        let any = fault && self.one_in(5);
        let from: Vec<usize> = (0..self.nodes.len()).filter(|&n| any || self.nodes[n].clean).collect();
        let reach = from.len().min(self.style.reach);
        (0..1 + self.rng.below(3)).map(|_| from[from.len() - 1 - self.rng.below(reach)]).collect()
    }

    /// 1 grant, 2 revoke, 3 join, 4 unplug.
    fn kind(&mut self) -> u8 {
        let shares = self.style.shares;
        let mut left = self.rng.below(shares.iter().sum());
        let mut kind = 0;
        while left >= shares[kind] {
            left -= shares[kind];
            kind += 1;
        }
        kind as u8 + 1
    }

    /// The kind, what the event presents, and what a revoke names. Where only the creator is near, a revoke turns into a
    /// grant.
    fn presented(&mut self, ancestors: &BTreeSet<usize>) -> (u8, usize, usize) {
        let kind = self.kind();
        let grants: Vec<usize> = ancestors.iter().copied().filter(|&n| self.nodes[n].event[0] < 2).collect();
        let near = grants.len().min(self.style.near);
        let found = grants[grants.len() - 1 - self.rng.below(near)];
        if kind != 2 || found == 0 {
            return (if kind == 2 { 1 } else { kind }, found, found);
        }
        let mut above = self.nodes[found].presented;
        while above != 0 && self.one_in(3) {
            above = self.nodes[above].presented;
        }
        (2, above, found)
    }

    /// One of the events that pass a test, if any does.
    fn any(&mut self, test: impl Fn(&Self, usize) -> bool) -> Option<usize> {
        let found: Vec<usize> = (0..self.nodes.len()).filter(|&n| test(self, n)).collect();
        (!found.is_empty()).then(|| found[self.rng.below(found.len())])
    }

    /// Presents another event; the author is whom that one grants something.
    fn present(&self, chosen: &mut Chosen, presented: usize) {
        chosen.presented = presented;
        chosen.under = self.nodes[presented].id;
        (chosen.author, chosen.rights) = self.nodes[presented].gives();
    }

    /// One thing that is likely to make the event unsound, and mostly nothing else.
    fn spoil(&mut self, chosen: &mut Chosen, ancestors: &BTreeSet<usize>) {
        let found = match self.rng.below(10) {
            0 => self.any(|_, _| true),
            1 => self.any(|all, n| all.nodes[n].event[0] < 2 && !ancestors.contains(&n)),
            2 => self.any(|all, n| all.nodes[n].event[0] >= 2 && ancestors.contains(&n)),
            3 => Some(chosen.target),
            _ => None,
        };
        if let Some(presented) = found {
            return self.present(chosen, presented);
        }
        let above = chosen.presented;
        match self.rng.below(6) {
            0 => chosen.target = self.any(|_, _| true).unwrap_or(0),
            1 => chosen.target = self.any(|all, n| all.below(n, above)).unwrap_or(0),
            2 => chosen.target = 0,
            3 => chosen.author = self.rng.below(self.style.members) as u8,
            4 => chosen.under = [0; 32],
            _ => chosen.rights = 1 + self.rng.below(7) as u8,
        }
    }

    fn clean(&self, c: &Chosen, parents: &BTreeSet<usize>, ancestors: &BTreeSet<usize>) -> bool {
        let (subject, rights) = self.nodes[c.presented].gives();
        parents.iter().all(|&p| self.nodes[p].clean)
            && ancestors.contains(&c.presented)
            && c.under == self.nodes[c.presented].id
            && subject == c.author
            && rights & [0, 2, 4, 1, 1][c.kind as usize] != 0
            && (c.kind != 1 || c.rights & !rights == 0)
            && (c.kind != 2 || ancestors.contains(&c.target) && self.below(c.target, c.presented))
    }

    /// Whether an event is a grant with another on its line.
    fn below(&self, event: usize, other: usize) -> bool {
        let mut above = event;
        while above != 0 && (above == event || above != other) {
            above = self.nodes[above].presented;
        }
        self.nodes[event].event[0] == 1 && above == other && event != other
    }

    /// None where two ports drawn are one.
    fn event(&mut self, c: Chosen) -> Option<Ev> {
        let (x, y) = (self.rng.below(self.style.ports) as u16, self.rng.below(self.style.ports) as u16);
        Some(match c.kind {
            1 => {
                let fewer = if self.one_in(2 + self.style.members) { c.rights & self.rng.below(8) as u8 } else { 0 };
                let rights = if fewer == 0 { c.rights.max(1) } else { fewer };
                let subject = self.rng.below(self.style.members) as u8;
                grant(c.author, &c.under, rights, subject, &c.parents)
            }
            2 => revoke(c.author, &c.under, &self.nodes[c.target].id, &c.parents),
            3 => {
                let family = 4 * self.rng.below(4) as u8;
                let kinds = (family + self.rng.below(4) as u8, family + self.rng.below(4) as u8);
                let length = 1 + self.rng.below(3) as u16;
                (x != y).then(|| join(c.author, &c.under, (x.min(y), x.max(y)), kinds, length, &c.parents))?
            }
            _ => unplug(c.author, &c.under, x, &c.parents),
        })
    }
}
