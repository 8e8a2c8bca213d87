//! The benchmarks: tables for docs/BENCHMARKS.md on standard output, progress on standard error, and a plot.

use std::process::ExitCode;

fn main() -> ExitCode {
    match std::env::args().nth(1).as_deref() {
        None => {
            eprintln!(
                "usage: bench PLOT.svg, or one part alone: bench gaps, bench maps, bench editions, bench mending, bench grid, bench why, \
                 bench heights, bench aged"
            );
            return ExitCode::from(2);
        }
        Some("maps") => vizturel::bench::run_maps(),
        Some("editions") => vizturel::bench::run_editions(),
        Some("mending") => vizturel::bench::run_mending(),
        Some("grid") => vizturel::bench::run_grid(),
        Some("why") => vizturel::bench::run_why(),
        Some("heights") => vizturel::bench::run_heights(),
        Some("aged") => vizturel::bench::run_aged(),
        #[cfg(feature = "bench_store")]
        Some("gaps") => vizturel::bench::run_gaps(),
        Some(plot) => vizturel::bench::run(plot),
    }
    ExitCode::SUCCESS
}
