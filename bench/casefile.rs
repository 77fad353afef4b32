//! What reading and accepting a case file cost in Rattle, beside Rust programs that give the same answers in one pass
//! over the bytes: form.rs for reading, reader.rs for accepting. bench/casefile builds and runs it. The sides take
//! turns, and the best round of each counts. Exits 1 where an answer differs, of these files or of many damaged ones.
//!
//! The same on both sides: the grammar, the rules in their order, the answer, and in accepting B(r) of each member, by the
//! unit that the amendments make, and the table of persons.rs, cleared for each file, in which the sum of its person is
//! sought cell by cell; accepting keeps the amendments, seeks a number among them one by one, and gathers those in force
//! twice, for the unit's rule and for the members. What differs:
//! - reading in Rattle stores the amendments, the rows and the members, in arrays that it clears first and throws away, and
//!   clears the table of persons too, though only accepting uses it; form.rs keeps nothing and has no such table;
//! - accepting keeps rows and members on either side: Rattle in such arrays, copied out once all is accepted, so that a
//!   refusal leaves the caller's as they were; reader.rs in an array and a Vec that grows, handed back as they are. Rattle
//!   hands the amendments on too, and reader.rs only the unit;
//! - Rattle's `either` and `both` are plain calls, whose arguments are worked first: it seeks the number that an amendment
//!   rests on even where that is 0 or the amendment is struck, and Rust doesn't seek it there.
mod amendments;
#[expect(dead_code, reason = "what is read is not valued here")]
mod factors;
mod files;
mod form;
mod persons;
#[expect(dead_code, reason = "what is read is not valued here")]
mod reader;

use files::{PERSONS, Random, amended, case, member, member_of, row};
use reader::{LARGEST, MEMBERS};
use std::collections::BTreeMap;
use std::process::exit;
use std::time::Instant;

const PASSES: usize = 4;
const ROUNDS: usize = 400;
const DAMAGED: usize = 2_000;

const HEADING: &str =
    "interest=600\nretire=65\npay=12\nformula=career\nunit=150\naverage=0\nmethod=BP\nassets=250000000.00\nyears=20\n";

/// A refusal's number and line, (0, 0) for none.
type Answer = (u64, u64);

mod rattle {
    use super::Answer;

    mod exported {
        unsafe extern "C" {
            pub fn kuyeshan_read(case: *const u8, case_len: usize, line: *mut u64) -> u64;
            pub fn kuyeshan_accept(case: *const u8, case_len: usize, line: *mut u64) -> u64;
        }
    }

    pub fn read(case: &[u8]) -> Answer {
        let mut line = 0;
        let number = unsafe { exported::kuyeshan_read(case.as_ptr(), case.len(), &mut line) };
        (number, line)
    }

    pub fn accept(case: &[u8]) -> Answer {
        let mut line = 0;
        let number = unsafe { exported::kuyeshan_accept(case.as_ptr(), case.len(), &mut line) };
        (number, line)
    }
}

mod rust {
    use super::{Answer, form::form, reader::walk};

    pub fn read(case: &[u8]) -> Answer {
        form(case).err().unwrap_or((0, 0))
    }

    pub fn accept(case: &[u8]) -> Answer {
        walk(case).err().unwrap_or((0, 0))
    }
}

/// A row and a member whose numbers are about as wide as a file of 65,536 bytes can hold. Their form is right.
fn wide_row(age: usize) -> String {
    format!("row={age},{},{},{},{}\n", 10_000 + age, 20_000 + age, 30_000 + age, 40_000 + age)
}

fn wide_member(j: usize) -> String {
    let wide = |first: usize| first * 100_000_000 + 7_654 * j;
    format!("member={},{},{},{},{}.{:02}\n", wide(1), wide(2), wide(3), wide(4), wide(5), j % 100)
}

/// 1,000 lines of these persons. The unit is so low that all of them may be one person's: they come to 943064.64.
fn of_persons(person: fn(usize) -> usize) -> Vec<u8> {
    case(&HEADING.replace("unit=150", "unit=5"), MEMBERS, row, |j| member_of(j, person(j)))
}

/// One person's lines, which come to 992219.25: not much is left, so that a damaged file can have too much.
fn nearly_all() -> Vec<u8> {
    case(HEADING, 59, row, |j| member_of(j, 1))
}

/// One side's best time for a file, in µs.
struct Side {
    answer: fn(&[u8]) -> Answer,
    best: f64,
}

impl Side {
    fn round(&mut self, case: &[u8]) {
        let start = Instant::now();
        for _ in 0..PASSES {
            assert_eq!((self.answer)(case), (0, 0));
        }
        self.best = self.best.min(start.elapsed().as_nanos() as f64 / (1_000 * PASSES) as f64);
    }
}

/// A file that nothing is refused in, and what is done with it.
struct Case {
    name: String,
    bytes: Vec<u8>,
    rattle: Side,
    rust: Side,
}

impl Case {
    fn new(name: String, bytes: Vec<u8>, rattle: fn(&[u8]) -> Answer, rust: fn(&[u8]) -> Answer) -> Case {
        assert!(bytes.len() <= LARGEST);
        assert_eq!(rattle(&bytes), (0, 0));
        let side = |answer| Side { answer, best: f64::INFINITY };
        Case { name, bytes, rattle: side(rattle), rust: side(rust) }
    }

    fn reading(what: &str, bytes: Vec<u8>) -> Case {
        Case::new(format!("reading {what}"), bytes, rattle::read, rust::read)
    }

    fn accepting(what: &str, bytes: Vec<u8>) -> Case {
        Case::new(format!("accepting {what}"), bytes, rattle::accept, rust::accept)
    }

    fn round(&mut self) {
        self.rattle.round(&self.bytes);
        self.rust.round(&self.bytes);
    }

    fn print(&self) {
        let title = format!("{}, {} bytes", self.name, self.bytes.len());
        let (rattle, rust) = (self.rattle.best, self.rust.best);
        println!("{title:66} {rattle:8.1} {rust:8.1} {:7.2}", rattle / rust);
    }

    /// Exits 1 where the sides answer a damaged file differently; else counts the answers by their number.
    fn compare(&self, random: &mut Random, answered: &mut BTreeMap<u64, usize>) {
        for _ in 0..DAMAGED {
            let bytes = random.damaged(&self.bytes);
            let (rattle, rust) = ((self.rattle.answer)(&bytes), (self.rust.answer)(&bytes));
            if rattle != rust {
                println!("{}, damaged: Rattle answers {rattle:?} and Rust {rust:?}", self.name);
                exit(1);
            }
            *answered.entry(rattle.0).or_insert(0) += 1;
        }
    }
}

fn main() {
    let wide = case(HEADING, MEMBERS, wide_row, wide_member);
    let many = case(HEADING, MEMBERS, row, member);
    let none = case(HEADING, 0, row, member);
    let listed = case(&amended(HEADING), 0, row, member);
    let mut cases = vec![
        Case::reading("1,000 members, numbers of 9 digits", wide),
        Case::reading("1,000 members", many.clone()),
        Case::reading("no members", none.clone()),
        Case::reading("no members, 20 amendments", listed.clone()),
        Case::accepting("1,000 members", many),
        Case::accepting("no members", none),
        Case::accepting("no members, 20 amendments", listed),
    ];
    cases.extend(PERSONS.map(|(name, person)| Case::accepting(&format!("1,000 lines of {name}"), of_persons(person))));
    for _ in 0..ROUNDS {
        cases.iter_mut().for_each(Case::round);
    }
    let title = format!("one file, µs, best of {ROUNDS} rounds");
    println!("{title:66} {:>8} {:>8} {:>7}", "Rattle", "Rust", "ratio");
    cases.iter().for_each(Case::print);
    println!("what differs: Rattle fills arrays, which it clears first, and copies them out where it accepts; where it");
    println!("reads, it clears the table of persons all the same, and Rust has no table there and keeps nothing");
    cases.push(Case::accepting("nearly all that a person may have", nearly_all()));
    let (mut random, mut answered) = (Random(1), BTreeMap::new());
    cases.iter().for_each(|case| case.compare(&mut random, &mut answered));
    println!("{} damaged files: the same answers, by number: {answered:?}", cases.len() * DAMAGED);
    assert!([28, 29, 53, 54, 55].iter().all(|number| answered.contains_key(number)));
}
