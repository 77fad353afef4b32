//! value: a case file on standard input, the lines of its valuation or of its refusal on standard output; the program
//! `value` again, in Rust over the library. embed/run builds and runs it.
use std::io::{self, Read, Write};

/// No case file that is accepted is longer. The output buffer has this size too.
const LARGEST: usize = 65_536;

mod exported {
    extern "C" {
        pub fn kuyeshan_value(
            case: *const u8,
            case_len: usize,
            out: *mut u8,
            out_len: usize,
            line: *mut u64,
            written: *mut u64,
        ) -> u64;
        pub fn kuyeshan_refusal_line(number: u64, line: u64, out: *mut u8, out_len: usize, written: *mut u64) -> u64;
    }
}

struct Refusal {
    number: u64,
    line: u64,
}

/// Values a case file: how many bytes of `out` the lines take, or the refusal, which leaves `out` as it was. The export
/// requires nothing, and references are all that it needs of its pointers.
fn value(case: &[u8], out: &mut [u8]) -> Result<usize, Refusal> {
    let (mut line, mut written) = (0, 0);
    let (o, len) = (out.as_mut_ptr(), out.len());
    match unsafe { exported::kuyeshan_value(case.as_ptr(), case.len(), o, len, &mut line, &mut written) } {
        0 => Ok(written as usize),
        number => Err(Refusal { number, line }),
    }
}

/// Writes the line of a refusal: how many bytes of `out` it takes, 0 where it is longer than that.
fn refusal_line(refusal: Refusal, out: &mut [u8]) -> usize {
    let mut written = 0;
    let (o, len) = (out.as_mut_ptr(), out.len());
    unsafe { exported::kuyeshan_refusal_line(refusal.number, refusal.line, o, len, &mut written) };
    written as usize
}

fn main() -> io::Result<()> {
    // One byte more than a case file may have: an input that is too long fills it, and is refused and never cut.
    let mut case = Vec::new();
    io::stdin().take(LARGEST as u64 + 1).read_to_end(&mut case)?;
    let mut out = vec![0; LARGEST];
    let written = value(&case, &mut out).unwrap_or_else(|refusal| refusal_line(refusal, &mut out));
    io::stdout().write_all(&out[..written])
}
