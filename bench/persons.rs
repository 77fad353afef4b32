//! What the lines of each person come to so far, for reader.rs: rule 7.10. A person is sought by its number, as the proved
//! side does it: at a home, which is the number's lowest 12 binary digits, and from there in a tree by the other digits,
//! the lowest first.
use crate::reader::{MEMBERS, MOST_BENEFIT};

const HOMES: u64 = 4_096;

/// A node is n where its person first stands on the nth member line; 0 is nobody.
pub struct Persons {
    /// The node at each home, and then the two that each node leads to.
    cells: [u32; HOMES as usize + 2 * (MEMBERS + 1)],
    /// Of each node from 1 on, its person and what that one's lines come to.
    sums: [[u64; 2]; MEMBERS],
}

impl Persons {
    pub fn new() -> Persons {
        Persons { cells: [0; HOMES as usize + 2 * (MEMBERS + 1)], sums: [[0; 2]; MEMBERS] }
    }

    /// Adds the benefit of the nth member line, which is within the ceiling by itself. False where the person's lines come
    /// to more.
    pub fn add(&mut self, nth: usize, person: u64, benefit: u64) -> bool {
        let cell = self.find(person);
        let node = self.cells[cell] as usize;
        if node == 0 {
            self.sums[nth - 1] = [person, benefit];
            self.cells[cell] = nth as u32;
            return true;
        }
        let sum = self.sums[node - 1][1] + benefit;
        if sum > MOST_BENEFIT {
            return false;
        }
        self.sums[node - 1][1] = sum;
        true
    }

    /// The cell with the person's node, or the one where that belongs.
    fn find(&self, person: u64) -> usize {
        let (mut cell, mut rest) = ((person % HOMES) as usize, person / HOMES);
        loop {
            let node = self.cells[cell] as usize;
            if node == 0 || self.sums[node - 1][0] == person {
                return cell;
            }
            cell = HOMES as usize + 2 * node + (rest % 2) as usize;
            rest /= 2;
        }
    }
}
