//! The differential run, shortened: fixed seeds, a part of the exhaustive and damaged cases.

use vizturel::Refusal;
use vizturel::differential::{Options, run};

fn short(seed: u64) {
    let options = Options { seed, calls: 60_000, stride: 60, progress: false };
    match run(options) {
        Ok(score) => {
            assert!(score.compared > 300_000, "only {} calls were compared", score.compared);
            assert!(score.listed > 10_000, "only {} of them in frames", score.listed);
            assert!(score.mapped > 10_000, "only {} of them on maps", score.mapped);
            // Each refusal came up, so that each was compared.
            for refusal in Refusal::ALL {
                let count = score.refused[refusal.number() as usize];
                assert!(count > 100, "{refusal:?} came up {count} times");
            }
        }
        Err(difference) => panic!("{difference}"),
    }
}

#[test]
fn first_seed() {
    short(1);
}

#[test]
fn second_seed() {
    short(20_261_116);
}
