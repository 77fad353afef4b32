//! The lines of a valued case in Rust, for the benches to hold the proved ones to: RULES sections 11 and 13.
use crate::engines::Figures;
use crate::factors::{S, share};
use crate::reader::{Case, Member};

/// The lines of the members and of the plan, each member's from its figures.
#[inline(always)]
pub fn lines(case: &Case, mut figures: impl FnMut(&Member) -> Figures) -> Vec<u8> {
    let mut lines = Lines(Vec::new());
    let (mut value, mut cost, mut liability) = (0, 0, 0);
    for m in &case.members {
        let f = figures(m);
        lines.amounts(b"member=", m.id, &[f.benefit, f.value, f.cost, f.liability]);
        value += f.value;
        cost += f.cost;
        liability += f.liability;
    }
    let (negative, unfunded) = (liability < case.plan.assets, liability.abs_diff(case.plan.assets));
    let certain = certain_annuity(case.plan.interest, case.plan.years);
    lines.amounts(b"total=", case.members.len() as u64, &[value, cost, liability]);
    lines.signed(b"unfunded=", negative, unfunded);
    lines.signed(b"supplemental=", negative, share(unfunded, S, certain));
    lines.0
}

fn certain_annuity(i: u64, years: u64) -> u64 {
    (0..years).fold(0, |c, _| S + share(c, 1_000_000, 100 * (10_000 + i)))
}

struct Lines(Vec<u8>);

impl Lines {
    fn amounts(&mut self, key: &[u8], n: u64, amounts: &[u64]) {
        self.0.extend_from_slice(key);
        self.whole(n);
        for &cents in amounts {
            self.0.push(b',');
            self.amount(cents);
        }
        self.0.push(b'\n');
    }

    fn signed(&mut self, key: &[u8], negative: bool, cents: u64) {
        self.0.extend_from_slice(key);
        if negative && cents > 0 {
            self.0.push(b'-');
        }
        self.amount(cents);
        self.0.push(b'\n');
    }

    fn amount(&mut self, cents: u64) {
        self.whole(cents / 100);
        self.0.extend_from_slice(&[b'.', digit(cents / 10), digit(cents)]);
    }

    fn whole(&mut self, n: u64) {
        let mut digits = [0; 20];
        let (mut at, mut rest) = (digits.len(), n);
        loop {
            at -= 1;
            digits[at] = digit(rest);
            rest /= 10;
            if rest == 0 {
                break;
            }
        }
        self.0.extend_from_slice(&digits[at..]);
    }
}

fn digit(n: u64) -> u8 {
    b'0' + (n % 10) as u8
}
