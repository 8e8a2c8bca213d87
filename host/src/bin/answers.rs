//! Answers lists of calls on standard input, as `conformance/README.md` says: by the library, or, with `--oracle`, by the oracle.

use std::env;
use std::io::{self, Write};
use std::process::ExitCode;

use vizturel::conformance::{STORES, text};
use vizturel::differential::calls::{Call, Told};
use vizturel::differential::expected::{Expected, Store};
use vizturel::differential::library::Library;

// Answers every call in turn; what is none is told so.
fn answer(calls: &str, mut told: impl FnMut(&Call) -> Told) -> io::Result<()> {
    let mut out = io::BufWriter::new(io::stdout().lock());
    let mut lines = calls.lines().peekable();
    while lines.peek().is_some() {
        match text::read(&mut lines) {
            Some(call) => writeln!(out, "{}", text::tell(&call, &told(&call)))?,
            None => writeln!(out, "not understood")?,
        }
    }
    out.flush()
}

fn main() -> ExitCode {
    let by_oracle = match &env::args().skip(1).collect::<Vec<_>>()[..] {
        [] => false,
        [word] if word == "--oracle" => true,
        _ => {
            eprintln!("usage: answers [--oracle] < NAME.calls");
            return ExitCode::from(2);
        }
    };
    let mut library = Library { stores: vec![Vec::new(); STORES] };
    let mut oracle = Expected { stores: vec![Store::of(&[]); STORES] };
    let done = io::read_to_string(io::stdin())
        .and_then(|calls| answer(&calls, |call| if by_oracle { oracle.answer(call) } else { library.answer(call) }));
    match done {
        Ok(()) => ExitCode::SUCCESS,
        Err(why) => {
            eprintln!("{why}");
            ExitCode::FAILURE
        }
    }
}
