//! Chains side by side in one pool: octets across the ends of blocks, chains given back in another order.

use std::dialect::*;

use block_pool::{Chain, Pool};
use std::test::Fail;

// A chain of this many octets, which the pool must have room for.
fn chain_of(pool: &mut Pool, octets: u16) -> Result<Chain, Fail>
    // requires { (1 ≤ octets) × (octets ≤ 1280) }
    // ensures long { IfOk result (λ chain. length (chain_octets pool.new chain) ≡ octets) }
    // ensures others { IfOk result (λ chain. (c : ℕ) → IsChain pool.old c
    // → (c ≡ chain → ⊥) × (chain_octets pool.new c ≡ chain_octets pool.old c)) }
{
    match pool.reserve(octets) {
        Ok(chain) => Ok(chain),
        Err(full) => Err(Fail::new(full)),
    }
}

#[test]
fn three_blocks() {
    std::test::check(|rt: HostRuntime| -> Result<(), Fail> {
    let mut pool = Pool::new(rt.alloc(), 3)?;
    let whole = chain_of(&mut pool, 129)?;
    assert_eq!(rt; pool.free_blocks(), 0);
    assert!(rt; pool.reserve(1).is_err());
    pool.write_at(&whole, 0, &[0xFF; 129]);
    pool.give_back(whole);
    let first = chain_of(&mut pool, 64)?;
    assert_eq!(rt; pool.free_blocks(), 2);
    let mut octets = [1; 64];
    pool.read_at(&first, 0, &mut octets);
    assert_eq!(rt; octets, [0; 64]);
    Ok(())
})
}

// Writes four octets into a chain of 192 zeros, and reads them with their neighbours.
fn around(pool: &mut Pool, chain: &Chain, at: u16) -> [u8; 6]
    // requires long { length (chain_octets pool.old chain.now) ≡ 192 }
    // requires within { (1 ≤ at) × (at ≤ 187) }
    // ensures others { (c : ℕ) → (c ≡ chain.now → ⊥) → chain_octets pool.new c ≡ chain_octets pool.old c }
    // ensures long { length (chain_octets pool.new chain.now) ≡ 192 }
{
    pool.write_at(chain, at, &[1, 2, 3, 4]);
    let mut octets = [9; 6];
    pool.read_at(chain, at - 1, &mut octets);
    octets
}

#[test]
fn chains_are_given_back_in_another_order() {
    std::test::check(|rt: HostRuntime| -> Result<(), Fail> {
    let mut pool = Pool::new(rt.alloc(), 6)?;
    let first = chain_of(&mut pool, 192)?;
    let second = chain_of(&mut pool, 192)?;
    assert_eq!(rt; pool.free_blocks(), 0);
    assert_eq!(rt; around(&mut pool, &second, 63), [0, 1, 2, 3, 4, 0]);
    pool.give_back(first);
    let third = chain_of(&mut pool, 192)?;
    assert_eq!(rt; around(&mut pool, &third, 64), [0, 1, 2, 3, 4, 0]);
    pool.give_back(second);
    pool.give_back(third);
    assert_eq!(rt; pool.free_blocks(), 6);
    let whole = chain_of(&mut pool, 384)?;
    let mut octets = [1; 384];
    pool.read_at(&whole, 0, &mut octets);
    assert_eq!(rt; octets, [0; 384]);
    Ok(())
})
}
