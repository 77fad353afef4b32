//! Case files for the benches: good ones, and damaged ones.
use crate::amendments::AMENDMENTS;

/// A case file: a heading, with its amendments, and so many members, from its rows' and its members' lines.
pub fn case(heading: &str, members: usize, row: impl Fn(usize) -> String, member: impl Fn(usize) -> String) -> Vec<u8> {
    let rows: String = (15..=120).map(row).collect();
    let lines: String = (0..members).map(member).collect();
    format!("{heading}{rows}{lines}end={members}\n").into_bytes()
}

/// A heading with as many amendments after it as there may be, by which 342 are added to the unit. Every fourth rests on
/// none and the others on the one before; one is struck, and so the one that rests on it adds nothing either.
pub fn amended(heading: &str) -> String {
    let line = |j: usize| {
        let rests = if j % 4 == 1 { 0 } else { 49 * (j - 1) };
        format!("amend={},{rests},19,{}\n", 49 * j, u8::from(j == 11))
    };
    let lines: String = (1..=AMENDMENTS).map(line).collect();
    format!("{heading}{lines}")
}

/// A row of an accepted file.
pub fn row(age: usize) -> String {
    let death = if age < 120 { 500 + age * age * age / 4 } else { 1_000_000 };
    let others = if age < 65 { 60_000 - 900 * (age - 15) } else { 0 };
    format!("row={age},{death},{others},{},{}\n", others / 10, 1_000 + 40 * (age - 15))
}

/// A member of an accepted file, another person on each line.
pub fn member(j: usize) -> String {
    member_of(j, another(j))
}

/// The same of a person of the caller's.
pub fn member_of(j: usize, person: usize) -> String {
    member_line(j, person, 20 + j % 30, 50 + j % 15)
}

/// The same with an entry age and an age of the caller's too.
pub fn member_line(j: usize, person: usize, entry: usize, age: usize) -> String {
    format!("member={},{person},{entry},{age},{}.{:02}\n", 100_000_001 + 7 * j, 40_000 + 61 * j, j % 100)
}

/// Who stands on the lines of a file, by the number of a line: what a search of persons.rs takes depends on it. All have
/// nine decimal digits.
pub const PERSONS: [(&str, fn(usize) -> usize); 4] = [
    ("as many persons", another),
    ("one person", |_| 123_456_789),
    ("as many persons of one home", of_one_home),
    ("one person behind 18 others", behind_others),
];

/// Another person on each line; their numbers look random.
pub fn another(j: usize) -> usize {
    100_000_000 + Random(j as u64).below(900_000_000)
}

/// Another one on each line, all alike in the 12 binary digits of their home and in the lowest 7 of the 18 that are left: a
/// path of 7 nodes and then a full tree. A search looks at 15.9 cells on average; no 1,000 different persons make that more
/// than 17.2.
fn of_one_home(j: usize) -> usize {
    4_096 * (128 * (192 + j) + 77) + 777
}

/// 18 persons of one home, each like the last one in a digit more, and then that one on all other lines. The nth search
/// looks at n cells, and from the 19th on each at 19: behind a home 18 digits are left, so that none can look at more.
fn behind_others(j: usize) -> usize {
    let last = 4_096 * 100_000 + 777;
    if j < 18 { last ^ (4_096 << j) } else { last }
}

/// Numbers that look random and are the same in each run (splitmix64).
pub struct Random(pub u64);

impl Random {
    pub fn below(&mut self, limit: usize) -> usize {
        self.0 = self.0.wrapping_add(0x9e37_79b9_7f4a_7c15);
        let x = (self.0 ^ (self.0 >> 30)).wrapping_mul(0xbf58_476d_1ce4_e5b9);
        let x = (x ^ (x >> 27)).wrapping_mul(0x94d0_49bb_1331_11eb);
        ((x ^ (x >> 31)) % limit as u64) as usize
    }

    /// The file with a byte changed, put in, taken out or sent twice, a line taken out or sent twice, with its tail cut
    /// off or with bytes after it; now and then with two such faults.
    pub fn damaged(&mut self, case: &[u8]) -> Vec<u8> {
        let mut bytes = case.to_vec();
        for _ in 0..1 + self.below(4) / 3 {
            let at = self.below(bytes.len());
            let byte = b"\n,.=0123456789 emr"[self.below(18)];
            match self.below(9) {
                0 | 1 => bytes[at] = byte,
                2 => bytes.insert(at, byte),
                3 => drop(bytes.remove(at)),
                4 => bytes.insert(at, bytes[at]),
                5 | 6 => self.line_damaged(&mut bytes, at),
                7 => bytes.truncate(at.max(1)),
                _ => bytes.resize(bytes.len() + 1 + self.below(200), byte),
            }
        }
        bytes
    }

    fn line_damaged(&mut self, bytes: &mut Vec<u8>, at: usize) {
        let start = bytes[..at].iter().rposition(|&b| b == b'\n').map_or(0, |p| p + 1);
        let end = bytes[at..].iter().position(|&b| b == b'\n').map_or(bytes.len(), |p| at + p + 1);
        let line = bytes[start..end].to_vec();
        bytes.splice(start..end, line.repeat(2 * self.below(2)));
    }
}
