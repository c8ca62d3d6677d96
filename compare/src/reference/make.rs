//! Builders of events and bundles, and the source of random numbers.

use super::sha::{sha256, Id};

pub type Ev = [u8; 192];

pub const ROOM: [u8; 16] = *b"room-0123456789a";

pub fn id(e: &Ev) -> Id {
    sha256(e)
}

fn base(kind: u8, author: u8, presented: &Id, parents: &[Id]) -> Ev {
    let mut e = [0u8; 192];
    e[0] = kind;
    e[1] = author;
    e[2] = parents.len() as u8;
    e[16..32].copy_from_slice(&ROOM);
    e[32..64].copy_from_slice(presented);
    let mut ps = parents.to_vec();
    ps.sort();
    for (i, p) in ps.iter().enumerate() {
        e[96 + 32 * i..128 + 32 * i].copy_from_slice(p);
    }
    e
}

pub fn create(author: u8) -> Ev {
    base(0, author, &[0; 32], &[])
}

pub fn grant(author: u8, under: &Id, rights: u8, subject: u8, parents: &[Id]) -> Ev {
    let mut e = base(1, author, under, parents);
    e[3] = rights;
    e[4] = subject;
    e
}

pub fn revoke(author: u8, under: &Id, target: &Id, parents: &[Id]) -> Ev {
    let mut e = base(2, author, under, parents);
    e[64..96].copy_from_slice(target);
    e
}

pub fn join(author: u8, under: &Id, ports: (u16, u16), kinds: (u8, u8), len: u16, parents: &[Id]) -> Ev {
    let mut e = base(3, author, under, parents);
    e[5] = kinds.0;
    e[6] = kinds.1;
    e[8..10].copy_from_slice(&ports.0.to_be_bytes());
    e[10..12].copy_from_slice(&ports.1.to_be_bytes());
    e[12..14].copy_from_slice(&len.to_be_bytes());
    e
}

pub fn unplug(author: u8, under: &Id, port: u16, parents: &[Id]) -> Ev {
    let mut e = base(4, author, under, parents);
    e[8..10].copy_from_slice(&port.to_be_bytes());
    e
}

pub fn bundle(events: &[Ev]) -> Vec<u8> {
    let mut b: Vec<u8> = events.iter().flatten().copied().collect();
    b.extend_from_slice(&((192 * events.len()) as u32).to_be_bytes());
    b.extend_from_slice(&(events.len() as u16).to_be_bytes());
    b.extend_from_slice(b"\0\0BACK");
    b
}

/// splitmix64
pub struct Rng(pub u64);
impl Rng {
    pub fn next(&mut self) -> u64 {
        self.0 = self.0.wrapping_add(0x9e3779b97f4a7c15);
        let mut z = self.0;
        z = (z ^ (z >> 30)).wrapping_mul(0xbf58476d1ce4e5b9);
        z = (z ^ (z >> 27)).wrapping_mul(0x94d049bb133111eb);
        z ^ (z >> 31)
    }
    pub fn below(&mut self, n: usize) -> usize {
        (self.next() % n as u64) as usize
    }
}
