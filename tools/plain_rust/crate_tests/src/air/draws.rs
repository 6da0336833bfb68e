//! Vectors: the first words are those of PCG's own code in C (a PCG32 with the same state and stream), the others follow from
//! them by the formulas of `specs/Draws.antt`, computed by other code than this.

use std::dialect::*;

use air_draws::{Draws, Purpose};

#[test]
fn has_the_words_of_pcg32() {
    std::test::check(|rt: HostRuntime| {
    for (seed, purpose, words) in [
        (1, Purpose::Place, [0xc982_8f91, 0x1592_e274, 0xc026_2657]),
        (1, Purpose::Loss, [0x0f5d_eba9, 0x5bd7_525b, 0xb247_3657]),
        (1, Purpose::Backoff, [0xf239_3151, 0x5903_bd3a, 0x0974_f3f8]),
        (1, Purpose::Times, [0x840d_99ca, 0xa69d_804c, 0xda35_0e7a]),
        (1, Purpose::Keys, [0x97ae_f5d4, 0x44c5_3800, 0x5cc8_ecbd]),
        (
            1,
            Purpose::Failures,
            [0xdb7b_2723, 0x08b1_d9b8, 0xb096_83e7],
        ),
        (1, Purpose::Attack, [0x7263_a3ec, 0x7a3b_1163, 0xab7a_4ff0]),
        (42, Purpose::Place, [0x4df1_ccf9, 0xe583_8752, 0x58ed_9e10]),
        (
            u64::MAX,
            Purpose::Attack,
            [0xdb7b_2723, 0x0f3e_04f4, 0x4a7b_1f29],
        ),
    ] {
        let mut draws = Draws::new(seed, purpose);
        for word in words {
            assert_eq!(rt; draws.word(), word);
        }
    }
})
}

#[test]
fn has_numbers_below_a_bound() {
    std::test::check(|rt: HostRuntime| {
    let mut draws = Draws::new(7, Purpose::Loss);
    for (bound, number) in [
        (1, 0),
        (2, 0),
        (10, 6),
        (100, 57),
        (10_000, 4327),
        (u32::MAX, 3_090_381_400),
    ] {
        assert_eq!(rt; draws.below(bound), number);
    }
    assert_eq!(rt; draws.below(0), 0);
})
}

#[test]
fn may_happen_by_the_chance() {
    std::test::check(|rt: HostRuntime| {
    let mut draws = Draws::new(7, Purpose::Loss);
    // the numbers below 10,000 are 5925, 1874, 6014, 5793, 4327 and 7195
    for (chance, happened) in [
        (5926, true),
        (1874, false),
        (0, false),
        (10_000, true),
        (4328, true),
        (7195, false),
    ] {
        assert_eq!(rt; draws.happens(chance), happened);
    }
})
}

#[test]
fn has_keys_of_four_words() {
    std::test::check(|rt: HostRuntime| {
    let mut draws = Draws::new(1, Purpose::Keys);
    for key in [
        0x97ae_f5d4_44c5_3800_5cc8_ecbd_5b3b_0707_u128,
        0x2617_9043_ca4d_c07e_9632_7254_5ec9_7ee2,
    ] {
        assert_eq!(rt; draws.key(), key.to_be_bytes());
    }
})
}
