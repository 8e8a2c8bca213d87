//! The benchmarks: the library against IntervalBitSet, both sides by the same calls on the same sets, in turn, in one run.
//!
//! What a side answers is compared with the other's outside the timed part, so a wrong answer ends the run.

mod aged;
mod bytes;
mod editions;
#[cfg(feature = "bench_store")]
mod gaps;
mod grid;
mod heights;
mod lists;
mod measure;
mod mending;
mod plot;
mod public;
#[cfg(target_arch = "x86_64")]
mod stack;
mod why;
mod work;

use lists::Lists;
use measure::{Figures, Progress, load};
use plot::{Axis, Panel};
use work::SIZES;

#[cfg(feature = "bench_store")]
fn tell_gaps(progress: &Progress) {
    println!("## Gaps, without the soundness check\n");
    gaps::measure(progress).tell("ns a search", 1.0);
}

/// Measures the gap search alone, and prints Markdown.
#[cfg(feature = "bench_store")]
pub fn run_gaps() {
    println!("load {} before\n", load());
    tell_gaps(&Progress::begin());
    println!("load {} after", load());
}

/// Measures maps alone, by words and by single bytes, and prints Markdown.
pub fn run_maps() {
    println!("load {} before\n", load());
    println!("## Maps\n");
    bytes::tell(&bytes::measure_maps(&Progress::begin()));
    println!("load {} after", load());
}

fn tell_editions(progress: &Progress) {
    println!("## Editions of written sets\n");
    editions::tell(&editions::measure(progress));
}

/// Measures the editions of written sets and the converter alone, and prints Markdown.
pub fn run_editions() {
    println!("load {} before\n", load());
    tell_editions(&Progress::begin());
    println!("load {} after", load());
}

fn tell_mending(progress: &Progress) {
    println!("## Mended sets\n");
    mending::tell(&mending::measure(progress));
}

/// Measures mending alone, and prints Markdown.
pub fn run_mending() {
    println!("load {} before\n", load());
    tell_mending(&Progress::begin());
    println!("load {} after", load());
}

fn tell_grid(progress: &Progress) {
    println!("## Cells of a grid\n");
    grid::tell(progress);
}

/// Measures rectangles and surveys of cells alone, and prints Markdown.
pub fn run_grid() {
    println!("load {} before\n", load());
    tell_grid(&Progress::begin());
    println!("load {} after", load());
}

fn tell_why(progress: &Progress) {
    println!("## Why lists stop\n");
    why::tell(progress);
}

/// Measures why lists are refused alone, and prints Markdown.
pub fn run_why() {
    println!("load {} before\n", load());
    tell_why(&Progress::begin());
    println!("load {} after", load());
}

fn tell_heights(progress: &Progress) {
    println!("## Lists for heights\n");
    heights::tell(progress);
    #[cfg(target_arch = "x86_64")]
    {
        println!("## Stack\n");
        stack::tell(progress);
    }
}

/// Measures the lists for heights, and the stack on the trees that they make, alone, and prints Markdown.
pub fn run_heights() {
    println!("load {} before\n", load());
    tell_heights(&Progress::begin());
    println!("load {} after", load());
}

fn tell_aged(progress: &Progress) -> Figures {
    println!("## Aged stores\n");
    let aged = aged::measure(progress);
    aged.tell();
    aged::checks(&aged)
}

/// Measures stores that have lived alone, and prints Markdown.
pub fn run_aged() {
    println!("load {} before\n", load());
    tell_aged(&Progress::begin());
    println!("load {} after", load());
}

/// Measures everything, prints Markdown, and draws the ratios into a file.
pub fn run(plot: &str) {
    let progress = Progress::begin();
    println!("load {} before\n", load());
    println!("## Single public calls\n");
    let public = public::measure(&progress);
    public.tell("ns a call", 1.0);
    println!("## Frames\n");
    let lists = Lists::measure(&progress);
    lists.tell();
    println!("## The soundness check by capacity\n");
    lists.tell_checks();
    println!("## The calls themselves, without the soundness check (no caller gets these)\n");
    lists.tell_alone();
    #[cfg(feature = "bench_store")]
    tell_gaps(&progress);
    println!("## Written sets and maps\n");
    let bytes = bytes::measure(&progress);
    bytes::tell(&bytes);
    tell_editions(&progress);
    tell_mending(&progress);
    tell_grid(&progress);
    tell_why(&progress);
    tell_heights(&progress);
    let aged = tell_aged(&progress);
    let by_words = bytes::by_words(&bytes);
    let runs = Axis { name: "runs", places: &SIZES };
    let capacity = Axis { name: "capacity", places: &aged::CAPACITIES };
    let panels = [
        Panel { title: "Frames of 10, 100 and 1,000 calls", figures: &lists.frames, axis: runs },
        Panel { title: "Frames of 1,000 calls of a kind", figures: &lists.fresh, axis: runs },
        Panel { title: "Single public calls", figures: &public, axis: runs },
        Panel { title: "Written sets and maps", figures: &by_words, axis: runs },
        Panel { title: "Aged stores: a check / one of a new store", figures: &aged, axis: capacity },
    ];
    plot::write(plot, &panels);
    println!("load {} after", load());
}
