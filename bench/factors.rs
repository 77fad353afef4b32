//! The year step and the fill of factors in Rust's u128, for the benches to hold the proved ones to: RULES section 8. Age k
//! stands at place k - 15.

pub const AGES: usize = 106;
pub const FIRST: usize = 15;
pub const LAST: usize = 120;
pub const S: u64 = 1_000_000_000;

/// Death, withdrawal and disability in millionths, and the weight.
pub type Row = [u32; 4];
pub type Rows = [Row; AGES];
pub type Factors = [u64; AGES];

#[inline(always)]
pub fn fill(rows: &Rows, r: usize, i: u64, amount: impl Fn(&Row) -> u64, top: usize, start: u64) -> Factors {
    let mut a = [0; AGES];
    let mut j = top - FIRST;
    a[j] = start;
    while j > 0 {
        let f = a[j];
        j -= 1;
        a[j] = amount(&rows[j]) + step(&rows[j], j + FIRST < r, i, f);
    }
    a
}

fn step(row: &Row, works: bool, i: u64, f: u64) -> u64 {
    share(f, staying(row, works), 100 * (10_000 + i))
}

fn staying(row: &Row, works: bool) -> u64 {
    let [alive, remaining, fit] = [row[0], row[1], row[2]].map(|rate| 1_000_000 - rate as u64);
    if !works {
        return alive;
    }
    nearest_word(nearest_word(alive * fit, 1_000_000) * remaining, 1_000_000)
}

/// value * part / whole, rounded.
pub fn share(value: u64, part: u64, whole: u64) -> u64 {
    nearest(value as u128 * part as u128, whole as u128) as u64
}

fn nearest(n: u128, d: u128) -> u128 {
    let q = n / d;
    let r = n - q * d;
    q + (r + q % 2 > d - r) as u128
}

pub fn nearest_word(n: u64, d: u64) -> u64 {
    let (q, r) = (n / d, n % d);
    q + (r + q % 2 > d - r) as u64
}
