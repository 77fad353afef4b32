//! What a fill of annuity factors costs in Rattle, and the same loop in Rust's u128. bench/annuity builds and runs it.
//! A call on either side reads 424 numbers into rows, tests them, fills and hands the factors out. Where the last row
//! is refused it costs the reading and the testing alone: that is taken off, and the fill is left. The sides take
//! turns, and the best round of each counts. Exits 1 where their factors differ.
//!
//! The same on both sides: a cleared array of 106 places, the year steps from the top age down to 15, and what is
//! handed out. What differs: Rattle's annuities get the rows by value, 1,696 bytes a call, and what is paid each year as a
//! code; Rust's gets a reference, and is compiled for each amount. A year step rounds as bench/rounding says; the two
//! roundings of staying divide a word by a constant, on both sides.
mod factors;

use factors::{AGES, Factors};
use std::process::exit;
use std::time::Instant;

const TABLES: usize = 16;
const PASSES: usize = 8;
const ROUNDS: usize = 200;

mod rattle {
    use super::{Factors, Table};

    mod exported {
        unsafe extern "C" {
            pub fn bench_annuity_life_annuity(
                numbers: *const u32,
                numbers_len: usize,
                r: usize,
                i: u64,
                out: *mut u64,
                out_len: usize,
            ) -> bool;
            pub fn bench_annuity_pay_annuity(
                numbers: *const u32,
                numbers_len: usize,
                r: usize,
                i: u64,
                e: usize,
                out: *mut u64,
                out_len: usize,
            ) -> bool;
        }
    }

    pub fn life_annuity(t: &Table, out: &mut Factors) -> bool {
        let n = &t.numbers;
        unsafe { exported::bench_annuity_life_annuity(n.as_ptr(), n.len(), t.r, t.i, out.as_mut_ptr(), out.len()) }
    }

    pub fn pay_annuity(t: &Table, out: &mut Factors) -> bool {
        let n = &t.numbers;
        unsafe { exported::bench_annuity_pay_annuity(n.as_ptr(), n.len(), t.r, t.i, t.r, out.as_mut_ptr(), out.len()) }
    }
}

mod rust {
    use super::Table;
    use super::factors::{AGES, Factors, LAST, Row, Rows, S, fill};

    #[inline(never)]
    pub fn life_annuity(t: &Table, out: &mut Factors) -> bool {
        filled(t, |_| S, LAST, S, out)
    }

    #[inline(never)]
    pub fn pay_annuity(t: &Table, out: &mut Factors) -> bool {
        filled(t, |row| row[3] as u64 * S, t.r, 0, out)
    }

    #[inline(always)]
    fn filled(t: &Table, amount: impl Fn(&Row) -> u64, top: usize, start: u64, out: &mut Factors) -> bool {
        let rows = rows_of(&t.numbers);
        let sound = rows.iter().all(is_sound);
        if sound {
            *out = fill(&rows, t.r, t.i, amount, top, start);
        }
        sound
    }

    fn rows_of(numbers: &[u32; 4 * AGES]) -> Rows {
        let mut rows = [[0; 4]; AGES];
        for (row, four) in rows.iter_mut().zip(numbers.chunks_exact(4)) {
            row.copy_from_slice(four);
        }
        rows
    }

    fn is_sound(row: &Row) -> bool {
        row[..3].iter().all(|&rate| rate <= 1_000_000) && row[3] <= 100_000
    }
}

/// The death, withdrawal, disability and weight of each age in turn, with the retirement age and the interest.
#[derive(Clone)]
struct Table {
    numbers: [u32; 4 * AGES],
    r: usize,
    i: u64,
}

impl Table {
    /// Rates as a pension plan has them, and weights that rise by some percent a year.
    fn new(random: &mut Random) -> Table {
        let mut numbers = [0; 4 * AGES];
        let mut weight = 1_000;
        for (j, row) in numbers.chunks_exact_mut(4).enumerate() {
            let death = 200 + (j * j * j / 4) as u32;
            row.copy_from_slice(&[death, random.between(0, 60_000), random.between(0, 9_000), weight]);
            weight = 100_000.min(weight + weight * random.between(1, 5) / 100);
        }
        Table { numbers, r: random.between(50, 75) as usize, i: random.between(0, 2_000) as u64 }
    }

    fn refused(mut self) -> Table {
        self.numbers[4 * AGES - 1] = 100_001;
        self
    }
}

/// Numbers that look random and are the same in each run (splitmix64).
struct Random(u64);

impl Random {
    fn between(&mut self, low: u32, high: u32) -> u32 {
        self.0 = self.0.wrapping_add(0x9e37_79b9_7f4a_7c15);
        let x = (self.0 ^ (self.0 >> 30)).wrapping_mul(0xbf58_476d_1ce4_e5b9);
        let x = (x ^ (x >> 27)).wrapping_mul(0x94d0_49bb_1331_11eb);
        low + ((x ^ (x >> 31)) % (high - low + 1) as u64) as u32
    }
}

/// One side's fill, and its best times in ns: of a call that fills, and of one that is refused.
struct Side {
    fill: fn(&Table, &mut Factors) -> bool,
    filled: f64,
    refused: f64,
}

impl Side {
    fn new(fill: fn(&Table, &mut Factors) -> bool) -> Side {
        Side { fill, filled: f64::INFINITY, refused: f64::INFINITY }
    }

    fn round(&mut self, good: &[Table], bad: &[Table]) {
        self.filled = self.filled.min(self.time(good, true));
        self.refused = self.refused.min(self.time(bad, false));
    }

    fn time(&self, tables: &[Table], answer: bool) -> f64 {
        let mut out = [0; AGES];
        let start = Instant::now();
        for _ in 0..PASSES {
            for table in tables {
                assert_eq!((self.fill)(table, &mut out), answer);
            }
        }
        start.elapsed().as_nanos() as f64 / (PASSES * tables.len()) as f64
    }

    fn factors(&self, table: &Table) -> Factors {
        let mut out = [0; AGES];
        assert!((self.fill)(table, &mut out));
        out
    }
}

struct Case {
    name: &'static str,
    rattle: Side,
    rust: Side,
}

impl Case {
    fn print(&self, tables: &[Table]) {
        let (rattle, rust) = (self.rattle.filled - self.rattle.refused, self.rust.filled - self.rust.refused);
        println!("{:52} {rattle:6.0} {rust:10.0} {:7.2}", self.name, rattle / rust);
        if tables.iter().any(|table| self.rattle.factors(table) != self.rust.factors(table)) {
            println!("the factors differ");
            exit(1);
        }
    }
}

fn main() {
    let mut random = Random(1);
    let good: Vec<Table> = (0..TABLES).map(|_| Table::new(&mut random)).collect();
    let bad: Vec<Table> = good.iter().cloned().map(Table::refused).collect();
    let mut cases = [
        Case {
            name: "A, 105 year steps",
            rattle: Side::new(rattle::life_annuity),
            rust: Side::new(rust::life_annuity),
        },
        Case {
            name: "Z from r down, 35 to 60 year steps",
            rattle: Side::new(rattle::pay_annuity),
            rust: Side::new(rust::pay_annuity),
        },
    ];
    for _ in 0..ROUNDS {
        for case in &mut cases {
            case.rattle.round(&good, &bad);
            case.rust.round(&good, &bad);
        }
    }
    let title = format!("one fill, ns, best of {ROUNDS} rounds");
    println!("{title:52} {:>6} {:>10} {:>7}", "Rattle", "Rust u128", "ratio");
    for case in &cases {
        case.print(&good);
    }
    println!("what differs: Rattle's annuities get the rows by value, Rust's by reference; each rounds as in bench/rounding");
}
