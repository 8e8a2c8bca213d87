//! The differential run. The last line is `N calls compared, 0 unequal`; at a difference the calls that show it are printed and the
//! exit status is 1.

use std::process::ExitCode;

use vizturel::Refusal;
use vizturel::differential::{self, Options};

const USAGE: &str = "usage: differential [--calls N] [--seed S] [--stride K]
  --calls N   calls of the random sequences (default 1000000)
  --seed S    where the numbers by chance begin (default 1)
  --stride K  run one in K cases of the exhaustive and damaged parts (default 1)";

fn options() -> Option<Options> {
    let mut options = Options { seed: 1, calls: 1_000_000, stride: 1, progress: true };
    let mut words = std::env::args().skip(1);
    while let Some(word) = words.next() {
        let number = words.next()?.parse().ok()?;
        match word.as_str() {
            "--calls" => options.calls = number,
            "--seed" => options.seed = number,
            "--stride" => options.stride = number.max(1),
            _ => return None,
        }
    }
    Some(options)
}

fn main() -> ExitCode {
    let Some(options) = options() else {
        eprintln!("{USAGE}");
        return ExitCode::from(2);
    };
    println!("seed {}, {} random calls, stride {}", options.seed, options.calls, options.stride);
    match differential::run(options) {
        Ok(score) => {
            for number in Refusal::ALL.map(Refusal::number) {
                println!("refused with {number}: {}", score.refused[number as usize]);
            }
            println!("in frames: {}", score.listed);
            println!("on maps, each by words and by single bytes: {}", score.mapped);
            println!("{} calls compared, 0 unequal", score.compared);
            ExitCode::SUCCESS
        }
        Err(difference) => {
            println!("{difference}");
            println!(
                "again: differential --seed {} --calls {} --stride {}",
                options.seed, options.calls, options.stride
            );
            ExitCode::FAILURE
        }
    }
}
