//! What bench/run calls on either side: three exports of the library that value a case file, two forms of a Rust program
//! that does the same, and accepting.

use Entry::*;

/// The bytes written, or a refusal's number and line.
pub type Answer = Result<usize, (u64, u64)>;

#[derive(Clone, Copy, Debug)]
pub enum Entry {
    Value,
    Plain,
    Shared,
    RustPlain,
    RustShared,
    Accept,
    RustAccept,
}

pub const VALUING: [Entry; 5] = [Value, Plain, Shared, RustPlain, RustShared];
pub const ALL: [Entry; 7] = [Value, Plain, Shared, RustPlain, RustShared, Accept, RustAccept];

impl Entry {
    pub fn call(self) -> fn(&[u8], &mut [u8]) -> Answer {
        match self {
            Value => rattle::value,
            Plain => rattle::plain,
            Shared => rattle::shared,
            RustPlain => rust::plain,
            RustShared => rust::shared,
            Accept => rattle::accept,
            RustAccept => rust::accept,
        }
    }
}

mod rattle {
    use super::Answer;

    type Valuing = unsafe extern "C" fn(*const u8, usize, *mut u8, usize, *mut u64, *mut u64) -> u64;

    macro_rules! valuing {
        ($($name:ident),*) => {
            unsafe extern "C" {
                $(fn $name(
                    case: *const u8,
                    case_len: usize,
                    out: *mut u8,
                    out_len: usize,
                    line: *mut u64,
                    written: *mut u64,
                ) -> u64;)*
            }
        };
    }

    valuing!(kuyeshan_value, kuyeshan_value_plain, kuyeshan_value_shared);

    unsafe extern "C" {
        fn kuyeshan_accept(case: *const u8, case_len: usize, line: *mut u64) -> u64;
    }

    pub fn value(case: &[u8], out: &mut [u8]) -> Answer {
        valued(kuyeshan_value, case, out)
    }

    pub fn plain(case: &[u8], out: &mut [u8]) -> Answer {
        valued(kuyeshan_value_plain, case, out)
    }

    pub fn shared(case: &[u8], out: &mut [u8]) -> Answer {
        valued(kuyeshan_value_shared, case, out)
    }

    fn valued(value: Valuing, case: &[u8], out: &mut [u8]) -> Answer {
        let (mut line, mut written) = (0, 0);
        let (o, len) = (out.as_mut_ptr(), out.len());
        match unsafe { value(case.as_ptr(), case.len(), o, len, &mut line, &mut written) } {
            0 => Ok(written as usize),
            number => Err((number, line)),
        }
    }

    /// Writes nothing.
    pub fn accept(case: &[u8], _: &mut [u8]) -> Answer {
        let mut line = 0;
        match unsafe { kuyeshan_accept(case.as_ptr(), case.len(), &mut line) } {
            0 => Ok(0),
            number => Err((number, line)),
        }
    }
}

mod rust {
    use super::Answer;
    use crate::engines::{Own, Shared, figures};
    use crate::lines::lines;
    use crate::reader::walk;

    #[inline(never)]
    pub fn plain(case: &[u8], out: &mut [u8]) -> Answer {
        let case = walk(case)?;
        copied(&lines(&case, |m| figures(&case, m, &mut Own::new(&case))), out)
    }

    #[inline(never)]
    pub fn shared(case: &[u8], out: &mut [u8]) -> Answer {
        let case = walk(case)?;
        let mut annuities = Shared::new(&case);
        copied(&lines(&case, |m| figures(&case, m, &mut annuities)), out)
    }

    fn copied(lines: &[u8], out: &mut [u8]) -> Answer {
        out.get_mut(..lines.len()).ok_or((30, 0))?.copy_from_slice(lines);
        Ok(lines.len())
    }

    pub fn accept(case: &[u8], _: &mut [u8]) -> Answer {
        walk(case).map(|_| 0)
    }
}
