//! What the valuation of a case file costs in Rattle by either engine, beside a Rust program in u128 that works the same
//! factors in the same way, from the bytes of a file to its lines: for the plain engine each member's own A and G and then
//! T or Z; for the shared engine A and G once a plan, and T or Z in columns, each filled when a member first needs it.
//! bench/run builds and runs it. The entries take turns, and the best round of each counts; Python's oracle is run once,
//! as a process, for scale. Exits 1 where the answers or a byte of the buffers differ between any two of the three exports
//! and the two Rust forms: of these files, of drawn plans or of damaged files, with buffers long and one byte short.
//!
//! The same on both sides: the factors worked, year step by year step, and how often; of each member B(r) to accept it and
//! again to value it, by AB B(x) and B(x+1), by BP the sums of weights; and the table of persons.rs, cleared for each file,
//! in which the sum of its person is sought cell by cell. What differs:
//! - per file, reading and accepting, as casefile.rs says; and the amendments in force are gathered three times in Rattle,
//!   for the unit's rule, for the members and for the valuation, and in Rust twice, since the plan that accepting hands on
//!   has the unit valued;
//! - per file, Rattle keeps the figures in an array of 32,000 bytes, and the columns in one of 51,728, both of which it
//!   clears; it writes the lines, which surely fit 64 KiB, where they belong, four digits at a time. Rust has an Option for
//!   each column, writes each line, digit by digit, to a Vec that grows, and copies that out where it fits;
//! - per member, Rattle makes N and L of the same six numbers by any method: by CD it multiplies by the one year that is
//!   added, and at x = r by none, where Rust works N and drops it;
//! - in Rattle the rows go by value, 1,696 bytes, to the annuities of the plain engine, as document 01 wants it, and by
//!   reference to the columns of the shared one; and each side rounds as in bench/rounding, but for the two roundings of
//!   staying, which divide a word by a constant on both.
mod amendments;
mod engines;
mod entries;
mod factors;
mod files;
mod lines;
mod persons;
mod plans;
mod reader;

use entries::{ALL, Answer, Entry, Entry::*, VALUING};
use files::{PERSONS, Random};
use plans::{METHODS, all_pairs, drawn, measured, nearly_all, of_persons, with_amendments};
use reader::MEMBERS;
use std::collections::BTreeMap;
use std::io::Write;
use std::process::{Command, Stdio, exit};
use std::time::Instant;

const ROUNDS: usize = 100;
const DRAWN: usize = 3_000;
const DAMAGED: usize = 3_000;

const ROOM: usize = 65_536;

/// An accepted file, and each entry's best time for it in µs.
struct File {
    method: &'static str,
    members: usize,
    bytes: Vec<u8>,
    best: [f64; ALL.len()],
}

impl File {
    fn new(method: &'static str, members: usize, bytes: Vec<u8>) -> File {
        File { method, members, bytes, best: [f64::INFINITY; ALL.len()] }
    }

    fn measured(method: &'static str, members: usize) -> File {
        File::new(method, members, measured(method, members))
    }

    fn all_pairs(method: &'static str) -> File {
        File::new(method, MEMBERS, all_pairs(method))
    }

    /// Times each entry once more. Its first call is not counted: what that costs depends on which entry came before.
    fn round(&mut self, out: &mut [u8]) {
        let passes = 1 + 200 / (1 + self.members);
        for entry in ALL {
            let mut call = || assert!(entry.call()(&self.bytes, out).is_ok());
            call();
            let start = Instant::now();
            for _ in 0..passes {
                call();
            }
            let time = start.elapsed().as_nanos() as f64 / (1_000 * passes) as f64;
            self.best[entry as usize] = self.best[entry as usize].min(time);
        }
    }

    fn time(&self, entry: Entry) -> f64 {
        self.best[entry as usize]
    }

    fn sides(&self, rattle: Entry, rust: Entry) -> String {
        sides(self.time(rattle), self.time(rust), 1)
    }

    /// The ns of a member: what the file takes beyond one with no members.
    fn each(&self, entry: Entry, none: &File) -> f64 {
        (self.time(entry) - none.time(entry)) * 1_000.0 / self.members as f64
    }
}

/// The heads of the times on either side and of their ratio, and these.
const SIDES: &str = "    Rattle      Rust  ratio";

fn sides(rattle: f64, rust: f64, places: usize) -> String {
    format!(" {rattle:9.places$} {rust:9.places$} {:6.2}", rattle / rust)
}

/// One engine, for files of more and more members: the first has none.
fn print_growth(title: &str, files: &[File], rattle: Entry, rust: Entry) {
    println!("\n{title}\n{:7}{:>27}{:>27}", "", "one file, µs", "one member, ns");
    println!("members{SIDES}{SIDES}");
    for file in files {
        print!("{:7}{}", file.members, file.sides(rattle, rust));
        if file.members > 0 {
            print!("{}", sides(file.each(rattle, &files[0]), file.each(rust, &files[0]), 0));
        }
        println!();
    }
}

/// Both engines, and how many times as fast as the plain one the shared one is.
fn print_engines(title: &str, files: &[File]) {
    println!("\n{title}\n{:7}{:>27}{:>27}{:>16}", "", "plain", "shared", "Rattle's");
    println!("method {SIDES}{SIDES}  plain / shared");
    for file in files {
        let (plain, shared) = (file.sides(Plain, RustPlain), file.sides(Shared, RustShared));
        println!("{:7}{plain}{shared}{:16.2}", file.method, file.time(Plain) / file.time(Shared));
    }
}

/// The entry that chooses the engine, beside those that are one.
fn print_choice(title: &str, files: &[File]) {
    println!("\n{title}\nmethod  members     value     plain    shared   value / plain");
    for file in files {
        let [value, plain, shared] = [Value, Plain, Shared].map(|entry| file.time(entry));
        println!("{:7} {:7} {value:9.2} {plain:9.2} {shared:9.2} {:15.2}", file.method, file.members, value / plain);
    }
}

/// Accepting and the shared engine, by who stands on the lines.
fn print_persons(title: &str, files: &[File]) {
    println!("\n{title}\n{:28}{:>27}{:>27}", "", "accepting", "shared");
    println!("{:28}{SIDES}{SIDES}", "persons");
    for ((name, _), file) in PERSONS.iter().zip(files) {
        println!("{name:28}{}{}", file.sides(Accept, RustAccept), file.sides(Shared, RustShared));
    }
}

fn print_accepting(title: &str, files: [&File; 2]) {
    println!("\n{title}\nmembers{SIDES}");
    for file in files {
        println!("{:7}{}", file.members, file.sides(Accept, RustAccept));
    }
}

/// What Python's oracle prints for a file, and the µs that its process takes.
fn oracle(case: &[u8]) -> std::io::Result<(Vec<u8>, f64)> {
    let start = Instant::now();
    let mut python = Command::new("python3")
        .args(["-B", "tests/value_oracle.py"])
        .stdin(Stdio::piped())
        .stdout(Stdio::piped())
        .spawn()?;
    python.stdin.take().expect("a pipe").write_all(case)?;
    let said = python.wait_with_output()?.stdout;
    Ok((said, start.elapsed().as_nanos() as f64 / 1_000.0))
}

/// Prints Python's time for a file, and exits 1 where its lines are not ours.
fn print_scale(file: &File) {
    let mut out = vec![0; ROOM];
    let written = Value.call()(&file.bytes, &mut out).expect("an accepted file");
    match oracle(&file.bytes) {
        Ok((said, _)) if said != out[..written] => {
            println!("Python's oracle prints something else");
            exit(1);
        }
        Ok((_, time)) => println!("{:7} {time:9.0} {:15.0}", file.members, time / file.time(Value)),
        Err(error) => println!("no Python: {error}"),
    }
}

/// Exits 1 where two entries answer differently, or leave different bytes in a buffer; else what they answer.
fn compare(case: &[u8], room: usize) -> Answer {
    let value = |entry: Entry| {
        let mut out = vec![b'#'; room];
        (entry.call()(case, &mut out), out)
    };
    let first = value(VALUING[0]);
    for entry in &VALUING[1..] {
        let other = value(*entry);
        if other != first {
            println!("{}\n{:?} answers {:?}", String::from_utf8_lossy(case), VALUING[0], first.0);
            println!("{entry:?} answers {:?}, in a buffer of {room} bytes", other.0);
            exit(1);
        }
    }
    first.0
}

/// The same with a buffer that is long, and where a file is accepted with one that is a byte short.
fn compare_rooms(case: &[u8]) -> Answer {
    let answer = compare(case, ROOM);
    if let Ok(written) = answer {
        assert_eq!(compare(case, written - 1), Err((30, 0)));
    }
    answer
}

/// Exits 1 where the entries differ, of these files, of drawn plans or of damaged files.
fn check<'a>(files: impl Iterator<Item = &'a File>) {
    let mut random = Random(1);
    let mut refused = BTreeMap::new();
    files.for_each(|file| assert!(compare_rooms(&file.bytes).is_ok()));
    let mut good = METHODS.map(|method| measured(method, 20)).to_vec();
    good.extend([nearly_all(), with_amendments()]);
    for j in 0..DRAWN + DAMAGED {
        let case = if j < DRAWN { drawn(&mut random) } else { random.damaged(&good[j % good.len()]) };
        if let Err((number, _)) = compare_rooms(&case) {
            *refused.entry(number).or_insert(0) += 1;
        }
    }
    println!("{DRAWN} drawn plans and {DAMAGED} damaged files: the same answers and bytes; refused: {refused:?}");
    assert!([25, 28, 29, 53, 54, 55].iter().all(|number| refused.contains_key(number)));
}

fn main() {
    let mut growing = [0, 1, 10, 100, MEMBERS].map(|members| File::measured("CD", members));
    let mut methods = METHODS.map(|method| File::measured(method, MEMBERS));
    let mut pairs = ["CD", "CP"].map(File::all_pairs);
    let few = |method| [0, 1, 2, 3, 4, 5, 10].map(|members| File::measured(method, members));
    let mut few: Vec<File> = ["CD", "AB"].into_iter().flat_map(few).collect();
    let mut persons = PERSONS.map(|(_, person)| File::new("CD", MEMBERS, of_persons(person)));
    let mut out = vec![0; ROOM];
    for _ in 0..ROUNDS {
        let files = growing.iter_mut().chain(&mut methods).chain(&mut pairs).chain(&mut few).chain(&mut persons);
        files.for_each(|file| file.round(&mut out));
    }
    println!("best of {ROUNDS} rounds");
    print_growth("the plain engine and Rust with factors of each member's own, by CD", &growing, Plain, RustPlain);
    print_growth("the shared engine and Rust with shared columns, by CD", &growing, Shared, RustShared);
    print_engines("1,000 members by each method, µs", &methods);
    print_engines("1,000 members of all pairs of ages, the worst case for sharing, µs", &pairs);
    print_choice("few members, µs: `value` chooses the engine by their count", &few);
    print_accepting("accepting, µs", [&growing[0], &growing[4]]);
    print_persons("1,000 lines by CD, whose benefits are small, µs", &persons);
    println!("\nPython's oracle\nmembers        µs   times `value`");
    growing[1..].iter().for_each(print_scale);
    println!("\nwhat differs: Rattle passes rows by value, and clears and copies arrays; Rust copies its lines");
    check(growing.iter().chain(&methods).chain(&pairs).chain(&few).chain(&persons));
}
