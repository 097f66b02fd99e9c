//! A plain posting program to compare with: it reads a posts sheet and a staff sheet, settles the round and prints the
//! result sheet. Standing: points. Limit: seats.
//!
//! It does not raise cutoffs step by step. The teachers ask down their pick lists, and each lane keeps the best of those who
//! asked, up to its size (deferred acceptance). The cutoffs are read off the refusals that were made on the way: `round.rs`
//! says why these are the cutoffs that a settle ends with.
//!
//! Arguments: the posts sheet and the staff sheet, `posts.txt` and `staff.txt` in the working folder if they are not given.

mod round;
mod sheets;

use std::env;
use std::ffi::OsString;
use std::fs;
use std::io::{self, Write};
use std::process::ExitCode;

/// Status for a pair of sheets that is refused.
const REFUSED: u8 = 1;
/// Status when a file cannot be read or the output not be written.
const BROKEN: u8 = 2;

fn main() -> ExitCode {
    let mut arguments = env::args_os().skip(1);
    let posts = arguments.next().unwrap_or_else(|| "posts.txt".into());
    let staff = arguments.next().unwrap_or_else(|| "staff.txt".into());
    match run(posts, staff) {
        Ok(status) => status,
        Err(error) => {
            eprintln!("{error}");
            ExitCode::from(BROKEN)
        }
    }
}

fn run(posts: OsString, staff: OsString) -> io::Result<ExitCode> {
    let posts = fs::read(posts)?;
    let staff = fs::read(staff)?;
    let (text, status) = match sheets::read(&posts, &staff) {
        Ok(round) => (round::settle(&round).sheet(), ExitCode::SUCCESS),
        Err(fault) => {
            let sheet = if fault.sheet == 2 { &staff } else { &posts };
            let mut line = fault.text(sheet).to_vec();
            line.push(b'\n');
            io::stderr().write_all(&line)?;
            (fault.report(), ExitCode::from(REFUSED))
        }
    };
    io::stdout().write_all(text.as_bytes())?;
    Ok(status)
}
