//! write: a plan with two members, held as plain numbers, is written as its case file, and the file is valued; printed are
//! the file and then its lines. embed/run builds and runs it.
use std::io::{self, Write};

/// No case file is longer than this, nor are the lines of one.
const LARGEST: usize = 65_536;

/// For each age from 15 to 120: death, withdrawal, disability, weight.
type Rows = [[u32; 4]; 106];

mod exported {
    extern "C" {
        pub fn kuyeshan_write_case(
            plan: *const u64,
            amendments: *const [u64; 4],
            amendments_count: usize,
            rows: *const [u32; 4],
            members: *const [u64; 5],
            members_count: usize,
            out: *mut u8,
            out_len: usize,
            written: *mut u64,
        ) -> u64;
        pub fn kuyeshan_value(
            case: *const u8,
            case_len: usize,
            out: *mut u8,
            out_len: usize,
            line: *mut u64,
            written: *mut u64,
        ) -> u64;
    }
}

struct Refusal {
    number: u64,
    line: u64,
}

/// Writes the case file of these: how many bytes of `out` it takes, or the refusal, which has line 0 and leaves `out` as
/// it was. The export requires nothing, and references are all that it needs: an empty slice has no null pointer either.
fn write_case(
    plan: &[u64; 9],
    amendments: &[[u64; 4]],
    rows: &Rows,
    members: &[[u64; 5]],
    out: &mut [u8],
) -> Result<usize, Refusal> {
    let mut written = 0;
    let answer = unsafe {
        exported::kuyeshan_write_case(
            plan.as_ptr(),
            amendments.as_ptr(),
            amendments.len(),
            rows.as_ptr(),
            members.as_ptr(),
            members.len(),
            out.as_mut_ptr(),
            out.len(),
            &mut written,
        )
    };
    match answer {
        0 => Ok(written as usize),
        number => Err(Refusal { number, line: 0 }),
    }
}

/// Values a case file: how many bytes of `out` the lines take, or the refusal, which leaves `out` as it was.
fn value(case: &[u8], out: &mut [u8]) -> Result<usize, Refusal> {
    let (mut line, mut written) = (0, 0);
    let (o, len) = (out.as_mut_ptr(), out.len());
    match unsafe { exported::kuyeshan_value(case.as_ptr(), case.len(), o, len, &mut line, &mut written) } {
        0 => Ok(written as usize),
        number => Err(Refusal { number, line }),
    }
}

/// The short table: nobody leaves before 65, and nobody lives on.
fn short_table() -> Rows {
    let mut rows = [[0; 4]; 106];
    for (age, row) in (15..).zip(&mut rows) {
        let death = if age < 65 { 0 } else { 1_000_000 };
        *row = [death, 0, 0, if age < 64 { 1000 } else { 1100 }];
    }
    rows
}

fn main() -> io::Result<()> {
    // 10 percent, retirement at 65, paid yearly, 60.00 of yearly benefit a year of service at first, method CD; assets
    // 20.00, 2 years.
    let plan = [1000, 65, 1, 1, 6000, 0, 4, 2000, 2];
    // What was added to the 60.00 later: 30.00, and 10.00 that rest on them.
    let amendments = [[1, 0, 3000, 0], [4, 1, 1000, 0]];
    // The ids rise; the last number is the yearly pay in cents.
    let members = [[7, 1, 63, 64, 0], [9, 2, 40, 55, 3_125_050]];
    let (mut file, mut lines) = (vec![0; LARGEST], vec![0; LARGEST]);

    let answer = write_case(&plan, &amendments, &short_table(), &members, &mut file).and_then(|length| {
        file.truncate(length);
        value(&file, &mut lines)
    });
    let mut out = io::stdout();
    match answer {
        Ok(length) => {
            out.write_all(&file)?;
            out.write_all(&lines[..length])
        }
        Err(refusal) => writeln!(out, "refused={},{}", refusal.number, refusal.line),
    }
}
