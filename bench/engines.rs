//! A member's figures in Rust's u128, for the benches to hold the proved engines to: RULES section 9. They rest on
//! annuities of one of two forms: `Own`, worked for one member, or `Shared`, worked for all members of a plan.
use crate::factors::{Factors, LAST, Rows, S, fill, share};
use crate::reader::{Case, MONTHLY, Member, Method, accrued_benefit, place, weights};

pub struct Figures {
    pub benefit: u64,
    pub value: u64,
    pub cost: u64,
    pub liability: u64,
}

pub trait Annuities {
    /// G(k).
    fn deferred(&self, k: u64) -> u64;

    /// T(y,e), or Z(y,e) where the plan's method is CP.
    fn temporary(&mut self, y: u64, e: u64) -> u64;
}

/// The figures of an accepted member, by the plan's method.
pub fn figures(case: &Case, m: &Member, annuities: &mut impl Annuities) -> Figures {
    let Case { plan, rows, .. } = case;
    let (y, x, r) = (m.entry, m.age, plan.retire);
    let b = |k: u64| accrued_benefit(plan, rows, m, k);
    let (now, entered) = (annuities.deferred(x), annuities.deferred(y));
    let benefit = b(r);
    let value = share(benefit, now, S);
    let (cost, liability) = match plan.method {
        Method::AB => {
            let earned = b(x);
            let year = if x < r { b(x + 1) - earned } else { 0 };
            (share(year, now, S), share(earned, now, S))
        }
        Method::BD => (share(value, 1, r - y), share(value, x - y, r - y)),
        Method::BP => {
            let all = weights(rows, y, r);
            (share(value, weight(rows, x), all), share(value, weights(rows, y, x), all))
        }
        Method::CD => {
            let all = annuities.temporary(y, r);
            (share(benefit, entered, all), share(value, annuities.temporary(y, x), all))
        }
        // One word holds V(y) * S: 7,100,000,000 * S at most.
        Method::CP => {
            let all = annuities.temporary(y, r);
            let pay = share(share(benefit, entered, S) * S, weight(rows, x), all);
            (pay, share(value, annuities.temporary(y, x), all))
        }
    };
    Figures { benefit, value, cost: if x < r { cost } else { 0 }, liability }
}

fn weight(rows: &Rows, k: u64) -> u64 {
    rows[place(k)][3] as u64
}

/// G worked for the member, and T or Z each time that it is asked for.
pub struct Own<'a> {
    case: &'a Case,
    deferred: Factors,
}

impl Own<'_> {
    pub fn new(case: &Case) -> Own<'_> {
        Own { case, deferred: deferred_annuity(case) }
    }
}

impl Annuities for Own<'_> {
    fn deferred(&self, k: u64) -> u64 {
        self.deferred[place(k)]
    }

    fn temporary(&mut self, y: u64, e: u64) -> u64 {
        temporary_annuity(self.case, e)[place(y)]
    }
}

/// End ages, 15 to 75.
const ENDS: usize = 61;

/// G worked once, and T or Z in a column for each end age, which is filled when it is first asked for.
pub struct Shared<'a> {
    case: &'a Case,
    deferred: Factors,
    columns: [Option<Factors>; ENDS],
}

impl Shared<'_> {
    pub fn new(case: &Case) -> Shared<'_> {
        Shared { case, deferred: deferred_annuity(case), columns: [None; ENDS] }
    }
}

impl Annuities for Shared<'_> {
    fn deferred(&self, k: u64) -> u64 {
        self.deferred[place(k)]
    }

    fn temporary(&mut self, y: u64, e: u64) -> u64 {
        self.columns[place(e)].get_or_insert_with(|| temporary_annuity(self.case, e))[place(y)]
    }
}

/// G(k) for each age up to r: at r A(r), and 11/24 less where pensions are paid monthly.
fn deferred_annuity(case: &Case) -> Factors {
    let (r, i) = (case.plan.retire as usize, case.plan.interest);
    let life = fill(&case.rows, r, i, |_| S, LAST, S);
    let later = if case.plan.pay == MONTHLY { 458_333_333 } else { 0 };
    fill(&case.rows, r, i, |_| 0, r, life[place(case.plan.retire)] - later)
}

/// T(k,e), or Z(k,e) where the plan's method is CP, for each age up to e.
fn temporary_annuity(case: &Case, e: u64) -> Factors {
    let (r, i) = (case.plan.retire as usize, case.plan.interest);
    match case.plan.method {
        Method::CP => fill(&case.rows, r, i, |row| row[3] as u64 * S, e as usize, 0),
        _ => fill(&case.rows, r, i, |_| S, e as usize, 0),
    }
}
