//! The form of a case file in Rust and nothing more, in one pass over the bytes that keeps no amendment, no row and no
//! member: the plainest loop over the grammar, for reading to be held to. `reader::walk` keeps what it reads.
use crate::amendments::AMENDMENTS;
use crate::reader::{LARGEST, MEMBERS, Refusal, Rest};

#[inline(never)]
pub fn form(case: &[u8]) -> Result<(), Refusal> {
    if case.len() > LARGEST {
        return Err((1, 0));
    }
    let mut rest = Rest(case);
    rest.plan(false)?;
    let mut listed = 0;
    while rest.0.starts_with(b"amend=") {
        rest.line(10, listed + 10, Rest::amendment)?;
        if listed == AMENDMENTS as u64 {
            return Err((53, listed + 10));
        }
        listed += 1;
    }
    for age in 15..=120 {
        rest.line(10, age - 5 + listed, |s| row(s, age))?;
    }
    let mut count = 0;
    loop {
        let line = count + 116 + listed;
        if rest.0.starts_with(b"member=") {
            if count == MEMBERS as u64 {
                return Err(rest.refused(27, line));
            }
            rest.line(20, line, member)?;
            count += 1;
        } else {
            let end = rest.line(20, line, Rest::end)?;
            return match end == count {
                false => Err((4, line)),
                true if rest.0.is_empty() => Ok(()),
                true => Err((3, line + 1)),
            };
        }
    }
}

fn row(rest: &mut Rest, age: u64) -> Option<()> {
    rest.key(b"row=")?;
    if rest.whole()? != age {
        return None;
    }
    for _ in 0..4 {
        rest.key(b",")?;
        rest.whole()?;
    }
    Some(())
}

fn member(rest: &mut Rest) -> Option<()> {
    rest.key(b"member=")?;
    for _ in 0..4 {
        rest.whole()?;
        rest.key(b",")?;
    }
    rest.amount().map(drop)
}
