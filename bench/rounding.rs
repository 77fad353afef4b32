//! What a rounding costs in Rattle, and the same rounding in Rust's u128. bench/rounding builds and runs it.
//! Both sides are C functions that are never inlined, so each pays for a call. The sides take turns, and the best round
//! of each counts. Exits 1 where their answers differ.
//!
//! The same on both sides: the inputs, the answers, one product and one rounded division. What differs is how: Rattle has
//! no 128-bit integer, so it multiplies in columns of 32 bits and divides by a reciprocal; Rust's u128 multiplies by the
//! machine's wide product and divides by its library's long division.
use std::process::exit;
use std::time::Instant;

const INPUTS: usize = 4096;
const PASSES: usize = 16;
const ROUNDS: usize = 60;

mod rattle {
    use super::Input;

    mod exported {
        unsafe extern "C" {
            pub fn bench_rounding_mul_div_nearest(a: u64, b: u64, d: u64) -> u64;
            pub fn bench_rounding_mul_mul_div_nearest(a: u64, b: u64, c: u64, d: u64) -> u64;
        }
    }

    /// a * b / d, rounded. Its `requires` asks that d is above 0 and that the answer fits a word. `Input::new`, which
    /// makes every input, asserts the first, and the second of a * b * c with a c of 1 or more.
    pub fn mul_div_nearest(x: &Input) -> u64 {
        unsafe { exported::bench_rounding_mul_div_nearest(x.a, x.b, x.d) }
    }

    /// a * b * c / d, rounded. Its `requires` asks the same, of a * b * c: just what `Input::new` asserts.
    pub fn mul_mul_div_nearest(x: &Input) -> u64 {
        unsafe { exported::bench_rounding_mul_mul_div_nearest(x.a, x.b, x.c, x.d) }
    }
}

mod rust {
    use super::Input;

    pub fn mul_div_nearest(x: &Input) -> u64 {
        two_factors(x.a, x.b, x.d)
    }

    pub fn mul_mul_div_nearest(x: &Input) -> u64 {
        three_factors(x.a, x.b, x.c, x.d)
    }

    #[inline(never)]
    extern "C" fn two_factors(a: u64, b: u64, d: u64) -> u64 {
        nearest(a as u128 * b as u128, d as u128) as u64
    }

    #[inline(never)]
    extern "C" fn three_factors(a: u64, b: u64, c: u64, d: u64) -> u64 {
        nearest(a as u128 * b as u128 * c as u128, d as u128) as u64
    }

    #[inline(always)]
    pub fn nearest(n: u128, d: u128) -> u128 {
        let q = n / d;
        let r = n - q * d;
        q + (r + q % 2 > d - r) as u128
    }
}

/// Factors and a divisor. Where there are two factors, c is 1.
struct Input {
    a: u64,
    b: u64,
    c: u64,
    d: u64,
}

impl Input {
    fn new(a: u64, b: u64, c: u64, d: u64) -> Input {
        assert!(c > 0 && d > 0);
        let n = (a as u128 * b as u128).checked_mul(c as u128).expect("a product of two words");
        assert!(rust::nearest(n, d as u128) <= u64::MAX as u128);
        Input { a, b, c, d }
    }

    fn fills_two_words(&self) -> bool {
        self.a.checked_mul(self.b).is_none()
    }
}

/// Numbers that look random and are the same in each run (splitmix64).
struct Random(u64);

impl Random {
    fn between(&mut self, low: u64, high: u64) -> u64 {
        self.0 = self.0.wrapping_add(0x9e37_79b9_7f4a_7c15);
        let x = (self.0 ^ (self.0 >> 30)).wrapping_mul(0xbf58_476d_1ce4_e5b9);
        let x = (x ^ (x >> 27)).wrapping_mul(0x94d0_49bb_1331_11eb);
        low + (x ^ (x >> 31)) % (high - low + 1)
    }
}

/// A factor times the share that stays, over 100 * (10000 + i).
fn year_step(r: &mut Random, factor: u64) -> Input {
    Input::new(r.between(0, factor), r.between(0, 1_000_000), 1, 100 * (10_000 + r.between(0, 2_000)))
}

fn one_word(r: &mut Random) -> Input {
    year_step(r, 106_000_000_000)
}

fn pay_annuity(r: &mut Random) -> Input {
    let x = year_step(r, 6_000_000_000_000_000);
    if x.fills_two_words() { x } else { pay_annuity(r) }
}

fn large_divisor(r: &mut Random) -> Input {
    let d = r.between(4_300_000_000, 60_000_000_000);
    let x = Input::new(r.between(0, 7_100_000_000), r.between(0, 60_000_000_000), 1, d);
    if x.fills_two_words() { x } else { large_divisor(r) }
}

fn three_factors(r: &mut Random) -> Input {
    let d = r.between(1_000_000_000_000, 6_000_000_000_000_000);
    Input::new(r.between(0, 7_100_000_000), r.between(0, 100_000), 1_000_000_000, d)
}

/// One side's best time, in ns per call, and the sum of its answers.
struct Side {
    best: f64,
    sum: u64,
}

impl Side {
    fn new() -> Side {
        Side { best: f64::INFINITY, sum: 0 }
    }

    fn round(&mut self, inputs: &[Input], call: impl Fn(&Input) -> u64) {
        let start = Instant::now();
        for _ in 0..PASSES {
            for x in inputs {
                self.sum = self.sum.wrapping_add(call(x));
            }
        }
        self.best = self.best.min(start.elapsed().as_nanos() as f64 / (PASSES * inputs.len()) as f64);
    }
}

struct Case {
    name: &'static str,
    inputs: Vec<Input>,
    rattle: Side,
    rust: Side,
}

impl Case {
    fn new(name: &'static str, make: fn(&mut Random) -> Input) -> Case {
        let mut r = Random(1);
        let inputs = (0..INPUTS).map(|_| make(&mut r)).collect();
        Case { name, inputs, rattle: Side::new(), rust: Side::new() }
    }

    fn round(&mut self, rattle: impl Fn(&Input) -> u64, rust: impl Fn(&Input) -> u64) {
        self.rattle.round(&self.inputs, rattle);
        self.rust.round(&self.inputs, rust);
    }

    fn print(&self) {
        let (rattle, rust) = (self.rattle.best, self.rust.best);
        println!("{:52} {rattle:6.2} {rust:10.2} {:7.2}", self.name, rattle / rust);
        if self.rattle.sum != self.rust.sum {
            println!("the answers differ");
            exit(1);
        }
    }
}

fn main() {
    let mut two = [
        Case::new("a year step in one word", one_word),
        Case::new("a year step of a pay annuity, in two words", pay_annuity),
        Case::new("two words over a divisor above 2^32", large_divisor),
    ];
    let mut three = Case::new("three factors", three_factors);
    for _ in 0..ROUNDS {
        for case in &mut two {
            case.round(rattle::mul_div_nearest, rust::mul_div_nearest);
        }
        three.round(rattle::mul_mul_div_nearest, rust::mul_mul_div_nearest);
    }
    let title = format!("one rounding, ns per call, best of {ROUNDS} rounds");
    println!("{title:52} {:>6} {:>10} {:>7}", "Rattle", "Rust u128", "ratio");
    for case in two.iter().chain([&three]) {
        case.print();
    }
    println!("what differs: Rattle multiplies in columns of 32 bits and divides by a reciprocal, Rust by its u128");
}
