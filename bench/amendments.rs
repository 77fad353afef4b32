//! The amendments of a plan and what they add to its unit, for reader.rs: rules 2.11 to 2.13. As the proved side does it,
//! they are kept as they are read; those in force are gathered afterwards, from the first on, and a number is sought one by
//! one.

pub const AMENDMENTS: usize = 20;

/// Its number, the number of the one that it rests on or 0, what it adds to the unit, and 1 where it is struck.
pub type Amendment = [u64; 4];

/// Those of a file so far.
pub struct Amendments {
    listed: [Amendment; AMENDMENTS],
    pub count: usize,
}

impl Amendments {
    pub fn new() -> Amendments {
        Amendments { listed: [[0; 4]; AMENDMENTS], count: 0 }
    }

    /// Takes one more that keeps its rules. A refusal's number, 0 for none.
    pub fn add(&mut self, one: Amendment) -> u64 {
        let [number, rests, add, struck] = one;
        if !(1..=999).contains(&number) || rests > 999 || add > 100_000 || struck > 1 {
            return 11;
        }
        let before = &self.listed[..self.count];
        if before.len() == AMENDMENTS || before.last().is_some_and(|last| number <= last[0]) {
            return 53;
        }
        if rests != 0 && !has(before, rests) {
            return 54;
        }
        self.listed[self.count] = one;
        self.count += 1;
        0
    }

    /// What those in force add to the unit.
    pub fn additions(&self) -> u64 {
        let mut in_force = [[0; 4]; AMENDMENTS];
        let (mut count, mut sum) = (0, 0);
        for &one in &self.listed[..self.count] {
            let [_, rests, add, struck] = one;
            if struck == 0 && (rests == 0 || has(&in_force[..count], rests)) {
                in_force[count] = one;
                count += 1;
                sum += add;
            }
        }
        sum
    }
}

fn has(amendments: &[Amendment], number: u64) -> bool {
    amendments.iter().any(|one| one[0] == number)
}
