//! Deals body slots, and admits a player who comes late from the written set.
use vizturel::{Answer, Edition, SetBuf};

const RUNS: usize = 64; // the set has at most so many runs of slots in use

/// Takes the lowest free slot; none where all 2^64 are in use.
fn deal(bodies: &mut SetBuf) -> Answer<Option<u64>> {
    let slot = bodies.find(.., false)?;
    if let Some(x) = slot {
        bodies.set(x..=x, true)?;
    }
    Ok(slot)
}

fn main() -> Answer<()> {
    let mut bodies = SetBuf::with_capacity(RUNS)?;
    for _ in 0..5 {
        deal(&mut bodies)?;
    }
    bodies.set(2..=2, false)?; // body 2 is gone
    println!("dealt {:?}", deal(&mut bodies)?); // Some(2)
    println!("dealt {:?}", deal(&mut bodies)?); // Some(5)

    let mut out = [0; 5 + 16 * RUNS];
    let written = bodies.write(Edition::Rows, &mut out)?;
    println!("a written set of {} bytes", written.len());
    let mut late = SetBuf::with_capacity(RUNS)?;
    late.load(written)?;
    println!("dealt {:?} and {:?}", deal(&mut bodies)?, deal(&mut late)?); // Some(6) and Some(6)
    Ok(())
}
