//! The case files that bench/run values: plans with members as many as wished, of all pairs of ages, or of certain
//! persons; and drawn plans.
use crate::files::{Random, amended, another, case, member, member_line, member_of, row};
use crate::reader::MEMBERS;

pub const METHODS: [&str; 5] = ["AB", "BD", "BP", "CD", "CP"];

/// A final average over 5 years, retirement at 65, pensions paid monthly.
pub fn measured(method: &str, members: usize) -> Vec<u8> {
    case(&measured_heading(65, 150, method), members, row, member)
}

/// 1,000 members by the same terms, retirement at 75, whose entry age and age are spread evenly over the 1,890 pairs
/// that there are: every end age occurs.
pub fn all_pairs(method: &str) -> Vec<u8> {
    let pairs: Vec<(usize, usize)> = (15..75).flat_map(|entry| (entry..=75).map(move |age| (entry, age))).collect();
    let paired = |j: usize| {
        let (entry, age) = pairs[j * pairs.len() / MEMBERS];
        member_line(j, another(j), entry, age)
    };
    case(&measured_heading(75, 150, method), MEMBERS, row, paired)
}

/// 1,000 lines by CD and the same terms, but a unit so low that all of them may be one person's: they come to 939009.70.
pub fn of_persons(person: fn(usize) -> usize) -> Vec<u8> {
    case(&measured_heading(65, 4, "CD"), MEMBERS, row, |j| member_of(j, person(j)))
}

/// One person's lines, which come to 981631.41: not much is left.
pub fn nearly_all() -> Vec<u8> {
    case(&measured_heading(65, 150, "CD"), 44, row, |j| member_of(j, 1))
}

/// As many amendments as there may be, with which the unit is 492, and some members.
pub fn with_amendments() -> Vec<u8> {
    case(&amended(&measured_heading(65, 150, "CD")), 20, row, member)
}

/// A file of another plan, amendments and members, of up to three persons; some of its numbers are out of range now and
/// then.
pub fn drawn(random: &mut Random) -> Vec<u8> {
    let retire = 50 + random.below(26);
    let salaries = [60_000, 60_000, 60_000, 1_000_010][random.below(4)];
    let terms = terms(random.below(3), random.below(400), 1 + random.below(10));
    let method = METHODS[random.below(5)];
    let (assets, years) = (random.below(9_000_000), 1 + random.below(40));
    let pay = [1, 12][random.below(2)] + random.below(100) / 99;
    let heading = heading(random.below(2_020), retire, pay, &terms, method, assets, years) + &amendments(random);
    let persons = 1 + random.below(3);
    let seed = random.below(1 << 40);
    let [withdrawal, disability] =
        if seed % 2 == 0 { [seed % 60_011, seed % 9_001] } else { [seed % 999_983, seed % 999_979] };
    let rows = |age: usize| {
        let weight = 1_000 + (1 + seed % 801) * (age - 15);
        match age {
            120 => format!("row=120,1000000,0,0,{weight}\n"),
            _ => format!("row={age},{},{withdrawal},{disability},{weight}\n", age * age * age / 4),
        }
    };
    let members = |j: usize| {
        let draw = |j: usize| (seed >> (3 * j % 24)) + 13 * j;
        let entry = 15 + draw(j) % (retire - 15);
        let age = entry + draw(j + 1) % (retire - entry + 1);
        let person = match draw(j + 4) % 90 {
            0 => 0,
            1 => 1_000_000_000,
            n => 1 + 4_096 * (n % persons),
        };
        format!("member={},{person},{entry},{age},{}.{:02}\n", 7 * j + 1, draw(j + 2) % salaries, draw(j + 3) % 100)
    };
    case(&heading, random.below(8), rows, members)
}

/// The lines of up to 20 amendments, half the time of none. Some are struck; now and then one has the number before or
/// rests on itself, or they add too much.
fn amendments(random: &mut Random) -> String {
    let mut numbers = vec![0];
    let mut lines = String::new();
    for _ in 0..[0, 0, 3, 20][random.below(4)] {
        let before = numbers[numbers.len() - 1];
        let number = if before > 0 && random.below(60) == 0 { before } else { before + 1 + random.below(40) };
        let rests = if random.below(60) == 0 { number } else { numbers[random.below(numbers.len())] };
        let most = [8, 8, 8, 200][random.below(4)];
        let add = random.below(most);
        lines += &format!("amend={number},{rests},{add},{}\n", random.below(6) / 5);
        numbers.push(number);
    }
    lines
}

fn measured_heading(retire: usize, unit: usize, method: &str) -> String {
    heading(600, retire, 12, &terms(2, unit, 5), method, 250_000_000, 20)
}

fn heading(
    interest: usize,
    retire: usize,
    pay: usize,
    terms: &str,
    method: &str,
    assets: usize,
    years: usize,
) -> String {
    format!(
        "interest={interest}\nretire={retire}\npay={pay}\n{terms}method={method}\nassets={assets}.00\nyears={years}\n"
    )
}

/// The terms of a formula, of 3.
fn terms(formula: usize, unit: usize, average: usize) -> String {
    match formula {
        0 => format!("formula=flat\nunit={}\naverage=0\n", 20 * unit),
        1 => format!("formula=career\nunit={unit}\naverage=0\n"),
        _ => format!("formula=final\nunit={unit}\naverage={average}\n"),
    }
}
