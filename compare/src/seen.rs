//! What a run of the comparison has seen, so that a run that compares little shows.

use crate::cases::{with_table, Answer, Call, Kind, KINDS};
use crate::reference::{CORD_BYTES, TABLE};

/// Numbers of answers: 0 good, the others refusals. 11 is struck.
const NUMBERS: [usize; 12] = [0, 1, 2, 3, 4, 5, 6, 7, 8, 9, 10, 12];
const BAD_TABLE: usize = 12;
/// The bytes of the small bundle that is damaged byte by byte.
pub const BUNDLE: usize = 5 + 3 * 192 + 12;

pub struct Seen {
    pub calls: usize,
    pub cases: usize,
    answers: [[usize; BAD_TABLE + 1]; KINDS.len()],
    verdicts: [usize; 4],
    /// The order's rows by verdict.
    rows: [usize; 4],
    /// The greatest height in the order's rows.
    highest: u16,
    /// Links standing, links ended, joins run.
    links: [u64; 3],
    repeats: usize,
    /// Good answers by a table that is not document 01's.
    other_tables: usize,
    pub twins: usize,
    pub round_trips: usize,
    event_bytes: [bool; 192],
    bundle_bytes: [bool; BUNDLE],
    table_bytes: [bool; TABLE],
}

impl Seen {
    pub fn new() -> Seen {
        Seen {
            calls: 0,
            cases: 0,
            answers: [[0; BAD_TABLE + 1]; KINDS.len()],
            verdicts: [0; 4],
            rows: [0; 4],
            highest: 0,
            links: [0; 3],
            repeats: 0,
            other_tables: 0,
            twins: 0,
            round_trips: 0,
            event_bytes: [false; 192],
            bundle_bytes: [false; BUNDLE],
            table_bytes: [false; TABLE],
        }
    }

    /// One call, by what the reference answered.
    pub fn call(&mut self, call: &Call, a: &Answer) {
        self.calls += 1;
        self.answers[call.kind as usize][a.number as usize] += 1;
        let other = with_table().contains(&call.kind) && call.table != CORD_BYTES;
        self.other_tables += usize::from(a.number == 0 && other);
        match call.kind {
            _ if a.number > 0 => {}
            Kind::Verdict => self.verdicts[a.values[0] as usize] += 1,
            Kind::Take | Kind::TakeCounted => self.repeats += a.values[0] as usize,
            Kind::Order => {
                for row in a.out.chunks_exact(36).take(a.values[0] as usize) {
                    self.rows[row[34] as usize] += 1;
                    self.highest = self.highest.max(u16::from_be_bytes([row[32], row[33]]));
                }
            }
            Kind::Map => self.links = [0, 1, 2].map(|i| self.links[i] + a.values[i]),
            _ => {}
        }
    }

    pub fn event_byte(&mut self, at: usize) {
        self.event_bytes[at] = true;
    }

    pub fn bundle_byte(&mut self, at: usize) {
        self.bundle_bytes[at] = true;
    }

    pub fn table_byte(&mut self, at: usize) {
        self.table_bytes[at] = true;
    }

    fn of_number(&self, number: usize) -> usize {
        self.answers.iter().map(|a| a[number]).sum()
    }

    /// What the run should have seen and has not.
    pub fn lacking(&self) -> Vec<String> {
        let mut all = vec![];
        let mut ask = |good: bool, what: String| {
            if !good {
                all.push(what);
            }
        };
        for n in NUMBERS {
            ask(self.of_number(n) > 0, format!("no answer {n}"));
        }
        for kind in with_table() {
            ask(self.answers[*kind as usize][BAD_TABLE] > 0, format!("no {kind:?} refused by {BAD_TABLE}"));
        }
        for (v, n) in self.verdicts.iter().enumerate() {
            ask(*n > 0, format!("no verdict {v}"));
        }
        for kind in KINDS {
            ask(self.answers[kind as usize][0] > 0, format!("no good {kind:?}"));
        }
        ask(self.highest == 255, format!("no event of height 255; the greatest is {}", self.highest));
        ask(self.repeats > 0, "no repeat".into());
        ask(self.other_tables > 0, "no good answer by another table than document 01's".into());
        ask(self.twins > 0, "no two units compared".into());
        ask(self.round_trips > 0, "no written bundle taken".into());
        ask(self.event_bytes.iter().all(|b| *b), "a byte of an event not damaged".into());
        ask(self.bundle_bytes.iter().all(|b| *b), "a byte of a bundle not damaged".into());
        ask(self.table_bytes.iter().all(|b| *b), "a byte of a table not damaged".into());
        all
    }

    pub fn print(&self) {
        println!(
            "{} calls in {} cases. Calls of each kind by answer (0 good, the others refused):",
            self.calls, self.cases
        );
        let heads: String = NUMBERS.iter().map(|n| format!("{n:>7}")).collect();
        println!("{:<18}{heads}", "");
        for kind in KINDS {
            let answers = self.answers[kind as usize];
            let row: String = NUMBERS.iter().map(|n| format!("{:>7}", answers[*n])).collect();
            println!("{:<18}{row}", format!("{kind:?}"));
        }
        let all: String = NUMBERS.iter().map(|n| format!("{:>7}", self.of_number(*n))).collect();
        println!("{:<18}{all}", "all");
        let [w, u, v, e] = self.verdicts;
        println!("verdicts asked: waiting {w}, unsound {u}, void {v}, effective {e}; repeats {}", self.repeats);
        let ([_, u, v, e], [rows, ended, joins]) = (self.rows, self.links);
        println!(
            "rows of order: unsound {u}, void {v}, effective {e}, greatest height {}; maps: links {rows}, ended {ended}, joins {joins}",
            self.highest
        );
        let bytes = |all: &[bool]| format!("{} of {}", all.iter().filter(|b| **b).count(), all.len());
        println!(
            "bytes damaged: event {}, bundle {}, table {}; good by another table {}; pairs of units {}, round trips {}",
            bytes(&self.event_bytes),
            bytes(&self.bundle_bytes),
            bytes(&self.table_bytes),
            self.other_tables,
            self.twins,
            self.round_trips
        );
    }
}
