//! What writing a case file costs in Rattle, beside two plain Rust loops that format the same numbers: one by `write!`, and
//! one that puts the digits into the buffer itself. bench/writing builds and runs it. The sides take turns, and the best
//! round of each counts. Exits 1 where a byte differs, or where Rattle takes more than 1.5 times as long as either loop for
//! 1,000 members.
//!
//! The same on all sides: the bytes, in a buffer of 64 KiB that the caller has. What differs:
//! - Rattle judges what it writes: the plan, its amendments and its rows, B(r) of each member and the sum of its person.
//!   The loops judge nothing;
//! - Rattle tests for each byte whether the buffer reaches that far, and so does `write!` for each piece; the other loop
//!   slices out the 20 bytes of a number at a time, which a caller of `write_case` needn't have.
use std::io::Write;
use std::process::exit;
use std::time::Instant;

const ROUNDS: usize = 2_000;
const ROOM: usize = 65_536;
const MOST: f64 = 1.5;

/// A case in plain values: money in cents, formula 3 is final, method 4 is CD.
struct Case {
    plan: [u64; 9],
    amendments: Vec<[u64; 4]>,
    rows: [[u32; 4]; 106],
    members: Vec<[u64; 5]>,
}

/// Accepted: another person for each member, ids and persons of nine digits.
fn case(members: u64) -> Case {
    let amendments = (1..=20).map(|j| [49 * j, if j % 4 == 1 { 0 } else { 49 * (j - 1) }, 3, u64::from(j == 11)]);
    let mut rows = [[0; 4]; 106];
    for (age, row) in (15..).zip(&mut rows) {
        let death = if age < 120 { 500 + age * age * age / 4 } else { 1_000_000 };
        let others = if age < 65 { 60_000 - 900 * (age - 15) } else { 0 };
        *row = [death, others, others / 10, 1_000 + 40 * (age - 15)];
    }
    let member = |j| [100_000_001 + 7 * j, 100_000_003 + 899 * j, 20 + j % 30, 50 + j % 15, 4_000_000 + 6_101 * j];
    Case {
        plan: [600, 65, 12, 3, 100, 5, 4, 25_000_000_000, 20],
        amendments: amendments.collect(),
        rows,
        members: (0..members).map(member).collect(),
    }
}

mod rattle {
    use super::Case;

    unsafe extern "C" {
        fn kuyeshan_write_case(
            plan: *const u64,
            amendments: *const [u64; 4],
            amendments_count: usize,
            rows: *const [u32; 4],
            members: *const [u64; 5],
            members_count: usize,
            out: *mut u8,
            out_len: usize,
            written: *mut u64,
        ) -> u64;
    }

    pub fn write(case: &Case, out: &mut [u8]) -> usize {
        let mut written = 0;
        let number = unsafe {
            kuyeshan_write_case(
                case.plan.as_ptr(),
                case.amendments.as_ptr(),
                case.amendments.len(),
                case.rows.as_ptr(),
                case.members.as_ptr(),
                case.members.len(),
                out.as_mut_ptr(),
                out.len(),
                &mut written,
            )
        };
        assert_eq!(number, 0);
        written as usize
    }
}

const FORMULAS: [&str; 3] = ["flat", "career", "final"];
const METHODS: [&str; 5] = ["AB", "BD", "BP", "CD", "CP"];

/// By `write!`.
mod formatted {
    use super::{Case, FORMULAS, METHODS, Write};

    #[inline(never)]
    pub fn write(case: &Case, out: &mut [u8]) -> usize {
        let room = out.len();
        let mut left = out;
        fill(case, &mut left).unwrap();
        room - left.len()
    }

    fn fill(case: &Case, out: &mut &mut [u8]) -> std::io::Result<()> {
        let [interest, retire, pay, formula, unit, average, method, assets, years] = case.plan;
        write!(out, "interest={interest}\nretire={retire}\npay={pay}\n")?;
        write!(out, "formula={}\nunit={unit}\naverage={average}\n", FORMULAS[formula as usize - 1])?;
        write!(out, "method={}\n", METHODS[method as usize - 1])?;
        write!(out, "assets={}.{:02}\nyears={years}\n", assets / 100, assets % 100)?;
        for [number, rests, add, struck] in &case.amendments {
            write!(out, "amend={number},{rests},{add},{struck}\n")?;
        }
        for (age, [death, withdrawal, disability, weight]) in (15..).zip(&case.rows) {
            write!(out, "row={age},{death},{withdrawal},{disability},{weight}\n")?;
        }
        for [id, person, entry, age, salary] in &case.members {
            write!(out, "member={id},{person},{entry},{age},{}.{:02}\n", salary / 100, salary % 100)?;
        }
        write!(out, "end={}\n", case.members.len())
    }
}

/// Digit by digit.
mod digits {
    use super::{Case, FORMULAS, METHODS};

    struct Out<'a> {
        bytes: &'a mut [u8],
        at: usize,
    }

    impl Out<'_> {
        fn text(&mut self, text: &[u8]) -> &mut Self {
            self.bytes[self.at..self.at + text.len()].copy_from_slice(text);
            self.at += text.len();
            self
        }

        fn number(&mut self, mut n: u64) -> &mut Self {
            let mut digits = [0; 20];
            let mut first = 20;
            loop {
                first -= 1;
                digits[first] = b'0' + (n % 10) as u8;
                n /= 10;
                if n == 0 {
                    return self.text(&digits[first..]);
                }
            }
        }

        fn amount(&mut self, cents: u64) -> &mut Self {
            let two = (cents % 100) as u8;
            self.number(cents / 100).text(&[b'.', b'0' + two / 10, b'0' + two % 10])
        }

        fn list(&mut self, key: &[u8], numbers: &[u64]) -> &mut Self {
            self.text(key).number(numbers[0]);
            for &n in &numbers[1..] {
                self.text(b",").number(n);
            }
            self
        }
    }

    #[inline(never)]
    pub fn write(case: &Case, bytes: &mut [u8]) -> usize {
        let [interest, retire, pay, formula, unit, average, method, assets, years] = case.plan;
        let mut out = Out { bytes, at: 0 };
        out.text(b"interest=").number(interest).text(b"\nretire=").number(retire).text(b"\npay=").number(pay);
        out.text(b"\nformula=").text(FORMULAS[formula as usize - 1].as_bytes()).text(b"\nunit=").number(unit);
        out.text(b"\naverage=").number(average).text(b"\nmethod=").text(METHODS[method as usize - 1].as_bytes());
        out.text(b"\nassets=").amount(assets).text(b"\nyears=").number(years).text(b"\n");
        for numbers in &case.amendments {
            out.list(b"amend=", numbers).text(b"\n");
        }
        for (age, row) in (15..).zip(&case.rows) {
            out.list(b"row=", &[age, row[0].into(), row[1].into(), row[2].into(), row[3].into()]).text(b"\n");
        }
        for member in &case.members {
            out.list(b"member=", &member[..4]).text(b",").amount(member[4]).text(b"\n");
        }
        out.text(b"end=").number(case.members.len() as u64).text(b"\n");
        out.at
    }
}

type Side = fn(&Case, &mut [u8]) -> usize;

const SIDES: [Side; 3] = [rattle::write, formatted::write, digits::write];

/// All sides write the same bytes, and leave the others as they were.
fn compare(case: &Case) -> usize {
    let written = SIDES.map(|side| {
        let mut out = vec![0xa5; ROOM];
        (side(case, &mut out), out)
    });
    if written.iter().any(|one| *one != written[0]) {
        println!("the sides write different bytes for {} members", case.members.len());
        exit(1);
    }
    written[0].0
}

/// Each side's best time, in µs.
fn measure(case: &Case) -> [f64; 3] {
    let passes = 1 + 2_000 / (100 + case.members.len());
    let (mut out, mut best) = (vec![0; ROOM], [f64::INFINITY; 3]);
    for _ in 0..ROUNDS {
        for (side, best) in SIDES.iter().zip(&mut best) {
            side(case, &mut out);
            let start = Instant::now();
            for _ in 0..passes {
                side(case, &mut out);
            }
            *best = best.min(start.elapsed().as_nanos() as f64 / (1_000 * passes) as f64);
        }
    }
    best
}

fn main() {
    let title = format!("writing a file, µs, best of {ROUNDS} rounds");
    println!("{title:46} {:>8} {:>8} {:>7} {:>8} {:>7}", "Rattle", "write!", "ratio", "digits", "ratio");
    let mut slower = 0.0;
    for members in [0, 1, 100, 1_000] {
        let case = case(members);
        let bytes = compare(&case);
        let [rattle, formatted, digits] = measure(&case);
        slower = rattle / formatted.min(digits);
        let title = format!("{members} members, 20 amendments, {bytes} bytes");
        let (by_write, by_digits) = (rattle / formatted, rattle / digits);
        println!("{title:46} {rattle:8.1} {formatted:8.1} {by_write:7.2} {digits:8.1} {by_digits:7.2}");
    }
    println!("Rattle judges the values before it writes them; the loops judge nothing");
    if slower > MOST {
        println!("1,000 members take more than {MOST} times as long as by a loop");
        exit(1);
    }
}
