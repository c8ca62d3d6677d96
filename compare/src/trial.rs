//! One case under way: it makes calls on both sides, counts them and reports what differs.

use crate::cases::{by_reference, by_unit, Answer, Call};
use crate::faulty::Fault;
use crate::reference::make::Rng;
use crate::seen::Seen;
use std::path::PathBuf;

/// What is printed.
#[derive(Clone, Copy, PartialEq)]
pub enum Voice {
    /// Nothing: a fault is looked for.
    Silent,
    /// Differences alone.
    Brief,
    /// Every call.
    Full,
}

/// Differing calls of a case that are reported whole; further ones are only counted.
const REPORTED: usize = 3;

pub struct Trial<'a> {
    pub rng: Rng,
    pub seen: &'a mut Seen,
    seed: u64,
    case: usize,
    call: usize,
    voice: Voice,
    fault: Option<&'a Fault>,
    /// Whether the second unit of a pair is asked.
    pub second: bool,
    pub differences: usize,
}

/// The random numbers of a case depend on the seed and the case alone.
fn source(seed: u64, case: usize) -> Rng {
    let base = Rng(seed).next();
    Rng(base ^ (case as u64).wrapping_mul(0xd134_2543_de82_ef95))
}

impl<'a> Trial<'a> {
    pub fn new(seed: u64, case: usize, seen: &'a mut Seen, voice: Voice, fault: Option<&'a Fault>) -> Self {
        let rng = source(seed, case);
        Trial { rng, seen, seed, case, call: 0, voice, fault, second: false, differences: 0 }
    }

    /// Says what a case is about, where every call is printed.
    pub fn about(&self, what: &str, events: usize) {
        if self.voice == Voice::Full {
            println!("{what}, {events} events");
        }
    }

    pub fn one_in(&mut self, n: usize) -> bool {
        self.rng.below(n) == 0
    }

    /// The unit's answer, altered where a fault is tried.
    fn asked(&self, call: &Call) -> Answer {
        let mut answer = by_unit(call);
        if let Some(fault) = self.fault {
            if self.second || !fault.second_only {
                (fault.alter)(call, &mut answer);
            }
        }
        answer
    }

    /// Makes a call on both sides and compares all that they show. Gives the unit's answer.
    pub fn compare(&mut self, call: Call) -> Answer {
        self.call += 1;
        let (u, r) = (self.asked(&call), by_reference(&call));
        self.seen.call(&call, &r);
        if self.voice == Voice::Full {
            println!(
                "call {}: {:?} unit {} {:?} reference {} {:?}",
                self.call, call.kind, u.number, u.values, r.number, r.values
            );
        }
        // a fault of the second unit alone is for the pairs to find
        if u != r && !self.fault.is_some_and(|f| f.second_only) {
            self.report(&call, &u, &r);
        }
        u
    }

    /// Compares what two units show, or what one shows twice.
    pub fn equal<T: PartialEq>(&mut self, what: &str, first: &T, second: &T) {
        if first != second {
            self.differences += 1;
            if self.voice != Voice::Silent {
                println!(
                    "DIFFERENCE between two units: seed {} case {} after call {}: {what}",
                    self.seed, self.case, self.call
                );
            }
        }
    }

    fn report(&mut self, call: &Call, u: &Answer, r: &Answer) {
        self.differences += 1;
        if self.voice == Voice::Silent || self.differences > REPORTED {
            return;
        }
        println!("DIFFERENCE: seed {} case {} call {}: {:?}", self.seed, self.case, self.call, call.kind);
        println!("  unit      number {} values {:?} count {} tally {:?}", u.number, u.values, u.count, u.tally);
        println!("  reference number {} values {:?} count {} tally {:?}", r.number, r.values, r.count, r.tally);
        for (what, a, b) in [("store", &u.store, &r.store), ("output", &u.out, &r.out)] {
            if let Some(at) = a.iter().zip(b).position(|(x, y)| x != y) {
                println!("  {what} differs at byte {at}: unit {:02x}, reference {:02x}", a[at], b[at]);
            }
        }
        if u.strayed {
            println!("  the unit wrote outside what it was lent, into the table or into what it was offered");
        }
        println!("  again: replay {} {}", self.seed, self.case);
        match self.write_inputs(call) {
            Ok(path) => println!("  inputs: {}", path.display()),
            Err(error) => println!("  inputs not written: {error}"),
        }
    }

    /// Writes what the call was lent, in hexadecimal, to the project's target folder.
    fn write_inputs(&self, call: &Call) -> std::io::Result<PathBuf> {
        let base = std::env::var_os("CARGO_MANIFEST_DIR").map_or(PathBuf::from("."), PathBuf::from);
        let folder = base.join("target/differences");
        std::fs::create_dir_all(&folder)?;
        let path = folder.join(format!("{}-{}-{}.txt", self.seed, self.case, self.call));
        let text = format!(
            "call {:?}\ncount {}\ntally {:?}\ntable {}\noffered {}\noutput {}\nstore {}\n",
            call.kind,
            call.count,
            call.tally,
            hex(&call.table),
            hex(&call.offered),
            hex(&call.out),
            hex(&call.store)
        );
        std::fs::write(&path, text)?;
        Ok(path)
    }
}

fn hex(bytes: &[u8]) -> String {
    bytes.iter().map(|b| format!("{b:02x}")).collect()
}
