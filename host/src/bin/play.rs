//! Plays a small match between the library, IntervalBitSet and a late player. A difference is printed, and the exit status is 1.

use std::error::Error;
use std::io;
use std::process::ExitCode;

use vizturel::play::{CAPACITY, Ending, Library, Rust, play};

fn match_played() -> Result<Ending, Box<dyn Error>> {
    let (mut library, mut rust, mut late) =
        (Library::with_capacity(CAPACITY)?, Rust::default(), Library::with_capacity(CAPACITY)?);
    Ok(play(&mut io::stdout().lock(), [&mut library, &mut rust, &mut late])?)
}

fn main() -> ExitCode {
    match match_played() {
        Ok(_) => ExitCode::SUCCESS,
        Err(failure) => {
            println!("{failure}");
            ExitCode::FAILURE
        }
    }
}
