//! A case file read and accepted in Rust, in one pass over the bytes, for the benches to hold the proved one to: RULES
//! sections 1 to 5 and 7. The answers are the proved ones; bench/casefile says how the work differs.
use crate::amendments::{Amendment, Amendments};
use crate::factors::{AGES, FIRST, Row, Rows, nearest_word};
use crate::persons::Persons;

pub const LARGEST: usize = 65_536;
pub const MEMBERS: usize = 1_000;

/// The pay of a plan whose pensions are paid monthly; that of a yearly one is 1.
pub const MONTHLY: u64 = 12;

const MOST_NUMBER: u64 = 999_999_999;
const MOST_SALARY: u64 = 100_000_000;
pub const MOST_BENEFIT: u64 = 100_000_000;

/// A refusal's number and line.
pub type Refusal = (u64, u64);

#[derive(Clone, Copy)]
pub enum Formula {
    Flat,
    Career,
    Final,
}

#[derive(Clone, Copy)]
pub enum Method {
    AB,
    BD,
    BP,
    CD,
    CP,
}

#[derive(Clone, Copy)]
pub struct Plan {
    pub interest: u64,
    pub retire: u64,
    pub pay: u64,
    pub formula: Formula,
    pub unit: u64,
    pub average: u64,
    pub method: Method,
    pub assets: u64,
    pub years: u64,
}

#[derive(Clone, Copy)]
pub struct Member {
    pub id: u64,
    pub person: u64,
    pub entry: u64,
    pub age: u64,
    pub salary: u64,
}

/// The plan has the unit valued.
pub struct Case {
    pub plan: Plan,
    pub rows: Rows,
    pub members: Vec<Member>,
}

/// Reads a case file, its form and its ranges.
#[inline(never)]
pub fn walk(case: &[u8]) -> Result<Case, Refusal> {
    if case.len() > LARGEST {
        return Err((1, 0));
    }
    let mut rest = Rest(case);
    let mut plan = rest.plan(true)?;
    let amendments = rest.amendments(&plan)?;
    plan.unit += amendments.additions();
    let listed = amendments.count as u64;
    let rows = rest.rows(listed)?;
    let members = rest.members(listed, &plan, &rows)?;
    Ok(Case { plan, rows, members })
}

/// The place of an age.
pub fn place(k: u64) -> usize {
    k as usize - FIRST
}

/// The weights of the ages from a to b - 1, summed.
pub fn weights(rows: &Rows, a: u64, b: u64) -> u64 {
    rows[place(a)..place(b)].iter().map(|row| row[3] as u64).sum()
}

/// B(k). One word holds these products: the largest is 500 * 60 * 100,000,000 * 1,000,000.
pub fn accrued_benefit(plan: &Plan, rows: &Rows, m: &Member, k: u64) -> u64 {
    if k <= m.entry {
        return 0;
    }
    let years = k - m.entry;
    let now = rows[place(m.age)][3] as u64;
    match plan.formula {
        Formula::Flat => plan.unit * years,
        Formula::Career => nearest_word(plan.unit * m.salary * weights(rows, m.entry, k), 10_000 * now),
        Formula::Final => {
            let n = plan.average.min(years);
            nearest_word(plan.unit * years * m.salary * weights(rows, k - n, k), 10_000 * n * now)
        }
    }
}

// ---- the range rules: a refusal's number, 0 for none

fn unless(kept: bool, number: u64) -> u64 {
    if kept { 0 } else { number }
}

/// The heading's unit, refused with 11, or the unit valued, refused with 55.
fn unit_rule(formula: Formula, unit: u64, number: u64) -> u64 {
    match formula {
        Formula::Flat => unless(unit <= 100_000, number),
        _ => unless(unit <= 500, number),
    }
}

fn average_rule(formula: Formula, average: u64) -> u64 {
    match formula {
        Formula::Final => unless((1..=10).contains(&average), 12),
        _ => unless(average == 0, 12),
    }
}

/// The row of an age, after an age with the weight `before`.
fn row_rule(age: u64, before: u64, [death, withdrawal, disability, weight]: [u64; 4]) -> u64 {
    if death > 1_000_000 || withdrawal > 1_000_000 || disability > 1_000_000 {
        return 11;
    }
    if age == 120 && death != 1_000_000 {
        return 14;
    }
    unless((1_000..=100_000).contains(&weight) && before <= weight, 15)
}

/// The nth member, after one with the id `before`: its benefit is added to what its person has.
fn member_rule(plan: &Plan, rows: &Rows, before: u64, nth: usize, m: &Member, persons: &mut Persons) -> u64 {
    if !(1..=MOST_NUMBER).contains(&m.id) || m.id <= before {
        return 21;
    }
    if !(1..=MOST_NUMBER).contains(&m.person) {
        return 28;
    }
    if !(15..plan.retire).contains(&m.entry) {
        return 22;
    }
    if !(m.entry..=plan.retire).contains(&m.age) {
        return 23;
    }
    if m.salary > MOST_SALARY {
        return 24;
    }
    let benefit = accrued_benefit(plan, rows, m, plan.retire);
    if benefit > MOST_BENEFIT {
        return 25;
    }
    unless(persons.add(nth, m.person, benefit), 29)
}

// ---- the lines

/// The bytes that are still to be read.
#[derive(Clone, Copy)]
pub struct Rest<'a>(pub &'a [u8]);

impl Rest<'_> {
    /// The terms: their form alone, or with `ranges` their ranges too.
    pub fn plan(&mut self, ranges: bool) -> Result<Plan, Refusal> {
        const FORMULAS: [(&[u8], Formula); 3] =
            [(b"flat", Formula::Flat), (b"career", Formula::Career), (b"final", Formula::Final)];
        const METHODS: [(&[u8], Method); 5] =
            [(b"AB", Method::AB), (b"BD", Method::BD), (b"BP", Method::BP), (b"CD", Method::CD), (b"CP", Method::CP)];
        let interest = self.term(ranges, 1, |s| s.keyed(b"interest="), |i| unless(i <= 2_000, 11))?;
        let retire = self.term(ranges, 2, |s| s.keyed(b"retire="), |r| unless((50..=75).contains(&r), 11))?;
        let pay = self.term(ranges, 3, |s| s.keyed(b"pay="), |p| unless(p == 1 || p == MONTHLY, 11))?;
        let formula = self.term(ranges, 4, |s| s.word(b"formula=", &FORMULAS), |_| 0)?;
        let unit = self.term(ranges, 5, |s| s.keyed(b"unit="), |u| unit_rule(formula, u, 11))?;
        let average = self.term(ranges, 6, |s| s.keyed(b"average="), |n| average_rule(formula, n))?;
        let method = self.term(ranges, 7, |s| s.word(b"method=", &METHODS), |_| 0)?;
        let assets = self.term(ranges, 8, |s| s.assets(), |a| unless(a <= 99_999_999_999_999, 11))?;
        let years = self.term(ranges, 9, |s| s.keyed(b"years="), |m| unless((1..=40).contains(&m), 11))?;
        Ok(Plan { interest, retire, pay, formula, unit, average, method, assets, years })
    }

    /// The unit is judged at the last line of the list: where the next bytes are no further one's.
    fn amendments(&mut self, plan: &Plan) -> Result<Amendments, Refusal> {
        let mut found = Amendments::new();
        while self.0.starts_with(b"amend=") {
            let line = found.count as u64 + 10;
            kept(found.add(self.line(10, line, Self::amendment)?), line)?;
            if !self.0.starts_with(b"amend=") {
                kept(unit_rule(plan.formula, plan.unit + found.additions(), 55), line)?;
            }
        }
        Ok(found)
    }

    /// After so many amendments.
    fn rows(&mut self, listed: u64) -> Result<Rows, Refusal> {
        let mut rows = [[0; 4]; AGES];
        let mut before = 0;
        for (row, age) in rows.iter_mut().zip(15..) {
            let read = self.term(true, age - 5 + listed, |s| s.row(age), |row| row_rule(age, before, row))?;
            before = read[3];
            *row = narrow(read);
        }
        Ok(rows)
    }

    fn members(&mut self, listed: u64, plan: &Plan, rows: &Rows) -> Result<Vec<Member>, Refusal> {
        let mut members = Vec::new();
        let mut persons = Persons::new();
        let mut before = 0;
        loop {
            let count = members.len() as u64;
            let line = count + 116 + listed;
            if self.0.starts_with(b"member=") {
                if members.len() == MEMBERS {
                    return Err(self.refused(27, line));
                }
                let m = self.line(20, line, Self::member)?;
                kept(member_rule(plan, rows, before, members.len() + 1, &m, &mut persons), line)?;
                before = m.id;
                members.push(m);
            } else {
                kept(unless(self.line(20, line, Self::end)? == count, 4), line)?;
                kept(unless(self.0.is_empty(), 3), line + 1)?;
                return Ok(members);
            }
        }
    }

    /// Takes a line of the heading's terms or of the table, and settles its range too where that is asked for.
    #[inline(always)]
    fn term<T: Copy>(
        &mut self,
        ranges: bool,
        line: u64,
        read: impl Fn(&mut Self) -> Option<T>,
        rule: impl Fn(T) -> u64,
    ) -> Result<T, Refusal> {
        let value = self.line(10, line, read)?;
        if ranges {
            kept(rule(value), line)?;
        }
        Ok(value)
    }

    /// Takes a line with its byte 10, or says which refusal the line is.
    #[inline(always)]
    pub fn line<T>(&mut self, number: u64, line: u64, read: impl Fn(&mut Self) -> Option<T>) -> Result<T, Refusal> {
        let start = *self;
        let value = read(self).filter(|_| self.key(b"\n").is_some());
        value.ok_or_else(|| start.refused(number, line))
    }

    #[cold]
    pub fn refused(self, number: u64, line: u64) -> Refusal {
        (if self.0.contains(&b'\n') { number } else { 2 }, line)
    }

    pub fn amendment(&mut self) -> Option<Amendment> {
        self.key(b"amend=")?;
        let mut numbers = [self.whole()?, 0, 0, 0];
        for number in &mut numbers[1..] {
            self.key(b",")?;
            *number = self.whole()?;
        }
        Some(numbers)
    }

    fn row(&mut self, age: u64) -> Option<[u64; 4]> {
        self.key(b"row=")?;
        if self.whole()? != age {
            return None;
        }
        let mut row = [0; 4];
        for number in &mut row {
            self.key(b",")?;
            *number = self.whole()?;
        }
        Some(row)
    }

    fn member(&mut self) -> Option<Member> {
        self.key(b"member=")?;
        let id = self.whole()?;
        self.key(b",")?;
        let person = self.whole()?;
        self.key(b",")?;
        let entry = self.whole()?;
        self.key(b",")?;
        let age = self.whole()?;
        self.key(b",")?;
        Some(Member { id, person, entry, age, salary: self.amount()? })
    }

    pub fn end(&mut self) -> Option<u64> {
        self.keyed(b"end=")
    }

    fn assets(&mut self) -> Option<u64> {
        self.key(b"assets=")?;
        self.amount()
    }

    fn keyed(&mut self, key: &[u8]) -> Option<u64> {
        self.key(key)?;
        self.whole()
    }

    fn word<T: Copy>(&mut self, key: &[u8], words: &[(&[u8], T)]) -> Option<T> {
        self.key(key)?;
        words.iter().find_map(|&(word, value)| self.key(word).map(|()| value))
    }

    #[inline(always)]
    pub fn key(&mut self, key: &[u8]) -> Option<()> {
        self.0 = self.0.strip_prefix(key)?;
        Some(())
    }

    #[inline(always)]
    fn digit(&mut self) -> Option<u64> {
        let (&b, rest) = self.0.split_first()?;
        let digit = b.wrapping_sub(b'0');
        if digit > 9 {
            return None;
        }
        self.0 = rest;
        Some(digit as u64)
    }

    /// 0, or 1 to 12 digits that don't begin with 0. One digit more is left for who comes next to refuse.
    #[inline(always)]
    pub fn whole(&mut self) -> Option<u64> {
        let mut n = self.digit()?;
        if n == 0 {
            return Some(0);
        }
        for _ in 1..12 {
            let Some(digit) = self.digit() else { break };
            n = 10 * n + digit;
        }
        Some(n)
    }

    /// In cents.
    #[inline(always)]
    pub fn amount(&mut self) -> Option<u64> {
        let dollars = self.whole()?;
        self.key(b".")?;
        Some(100 * dollars + 10 * self.digit()? + self.digit()?)
    }
}

fn kept(number: u64, line: u64) -> Result<(), Refusal> {
    if number == 0 { Ok(()) } else { Err((number, line)) }
}

/// A number that is too wide for a row is over every range.
fn narrow(row: [u64; 4]) -> Row {
    row.map(|n| n.min(u32::MAX as u64) as u32)
}
