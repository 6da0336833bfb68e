//! Reads and writes of the longest datagram in a pool, beside plain copies of it.
use crate::Done;
use block_pool::{Chain, Pool};
use rattle_std::process::HostRuntime;

// Copies 1,280 octets so often, by no pool. Answers what depends on each copy.
#[inline(never)]
fn copies(count: u32) -> u8 {
    let mut from = [7; 1280];
    let mut to = [0; 1280];
    for i in 0..count {
        to.copy_from_slice(&from);
        from[0] ^= to[(i % 1280) as usize];
    }
    from[0]
}

// Reads the chain so often. Answers what depends on each read.
#[inline(never)]
fn reads(pool: &Pool, chain: &Chain, count: u32) -> u8 {
    let mut to = [0; 1280];
    let mut all = 0;
    for i in 0..count {
        pool.read_at(chain, 0, &mut to);
        all ^= to[(i % 1280) as usize];
    }
    all
}

// Writes the chain so often.
#[inline(never)]
fn writes(pool: &mut Pool, chain: &Chain, count: u32) {
    for _ in 0..count {
        pool.write_at(chain, 0, &[7; 1280]);
    }
}

/// Writes a chain of 1,280 octets `count` times, reads it as often, and copies as many octets by no pool. Prints what came of the reads and of the copies.
pub fn run(rt: &HostRuntime, count: u32) -> Done {
    let mut pool = Pool::new(rt.alloc(), 80).map_err(|_| "no memory for the pool")?;
    let chain = pool.reserve(1280).map_err(|_| "the pool is full")?;
    writes(&mut pool, &chain, count);
    println!("pool {} {}", reads(&pool, &chain, count), copies(count));
    Ok(())
}
