//! The part of `std::simd` that exported code uses: 16 octets at once, and 32 that a shuffle makes of two times 16.
//!
//! `swizzle_dyn` is the byte shuffle of the processor where the target has SSSE3 (x86-64 and i686), and else a software form with the same results, in which
//! no address and no branch depends on an octet of either side as it is written here. What a compiler makes of it is not proved.

/// Octets side by side.
#[derive(Clone, Copy, Debug, PartialEq, Eq)]
#[repr(transparent)]
pub struct Simd<T, const N: usize>([T; N]);

impl<const N: usize> Simd<u8, N> {
    #[inline(always)]
    pub const fn from_array(octets: [u8; N]) -> Simd<u8, N> {
        Simd(octets)
    }

    #[inline(always)]
    pub const fn to_array(self) -> [u8; N] {
        self.0
    }

    #[inline(always)]
    pub const fn splat(octet: u8) -> Simd<u8, N> {
        Simd([octet; N])
    }

    /// The octets at the places `at` of the two one after the other: place N is the first of `other`. A place from 2N on stops.
    #[inline(always)]
    pub fn shuffle<const M: usize>(self, other: Simd<u8, N>, at: [usize; M]) -> Simd<u8, M> {
        Simd(at.map(|it| if it < N { self.0[it] } else { other.0[it - N] }))
    }

    /// The octets at these places. A place from N on stops.
    #[inline(always)]
    pub fn swizzle<const M: usize>(self, at: [usize; M]) -> Simd<u8, M> {
        Simd(at.map(|it| self.0[it]))
    }

    /// Where `self` is at least `other`.
    #[inline(always)]
    pub fn simd_ge(self, other: Simd<u8, N>) -> Mask<N> {
        let mut at_least = [0; N];
        for ((to, a), b) in at_least.iter_mut().zip(self.0).zip(other.0) {
            *to = u8::from(a >= b);
        }
        Mask(at_least)
    }

    /// Where the two differ.
    #[inline(always)]
    pub fn simd_ne(self, other: Simd<u8, N>) -> Mask<N> {
        let mut differ = [0; N];
        for ((to, a), b) in differ.iter_mut().zip(self.0).zip(other.0) {
            *to = a ^ b;
        }
        Mask(differ)
    }
}

/// For each place 0, or not 0 where it is set.
pub struct Mask<const N: usize>([u8; N]);

impl<const N: usize> Mask<N> {
    /// A bit for each place, the first lowest. It is made without a branch.
    #[inline(always)]
    pub fn to_bitmask(self) -> u64 {
        let mut bits = 0;
        for (place, octet) in self.0.iter().enumerate() {
            let wide = u64::from(*octet);
            bits |= ((wide + 255) >> 8) << place;
        }
        bits
    }
}

macro_rules! lanes {
    ($name:ident, $call:ident, $by:expr) => {
        impl<const N: usize> core::ops::$name for Simd<u8, N> {
            type Output = Simd<u8, N>;

            #[inline(always)]
            fn $call(self, other: Simd<u8, N>) -> Simd<u8, N> {
                let mut all = self.0;
                for (to, octet) in all.iter_mut().zip(other.0) {
                    *to = $by(*to, octet);
                }
                Simd(all)
            }
        }
    };
}

// A sum is cut to an octet, and a shift by 8 or more is one by its lowest three bits, as `std::simd` has it without checks.
lanes!(BitXor, bitxor, |a: u8, b: u8| a ^ b);
lanes!(BitAnd, bitand, |a: u8, b: u8| a & b);
lanes!(BitOr, bitor, |a: u8, b: u8| a | b);
lanes!(Add, add, u8::wrapping_add);
lanes!(Shl, shl, |a: u8, b: u8| a.wrapping_shl(u32::from(b)));
lanes!(Shr, shr, |a: u8, b: u8| a.wrapping_shr(u32::from(b)));

impl Simd<u8, 16> {
    /// The octets of `self` at the places `at`; 0 at a place above 15.
    #[inline(always)]
    pub fn swizzle_dyn(self, at: Simd<u8, 16>) -> Simd<u8, 16> {
        #[cfg(target_feature = "ssse3")]
        return shuffled(self, at);
        #[cfg(not(target_feature = "ssse3"))]
        return by_bits(self, at);
    }
}

/// The shuffle of the processor. Its own rule for a place from 16 to 127 differs, so those are set to 128 first.
#[cfg(target_feature = "ssse3")]
#[inline(always)]
fn shuffled(table: Simd<u8, 16>, at: Simd<u8, 16>) -> Simd<u8, 16> {
    #[cfg(target_arch = "x86")]
    use core::arch::x86 as arch;
    #[cfg(target_arch = "x86_64")]
    use core::arch::x86_64 as arch;
    // SSSE3 is there by the target, and both sides have 16 octets.
    unsafe {
        let table: arch::__m128i = core::mem::transmute(table.0);
        let at: arch::__m128i = core::mem::transmute(at.0);
        let at = arch::_mm_adds_epu8(at, arch::_mm_set1_epi8(112));
        Simd(core::mem::transmute::<arch::__m128i, [u8; 16]>(arch::_mm_shuffle_epi8(table, at)))
    }
}

/// An octet in each place of a word.
#[inline(always)]
const fn spread(octet: u8) -> u32 {
    octet as u32 * 0x0101_0101
}

/// For each octet of the word 255 where its bit `bit` is set, and else 0.
#[inline(always)]
fn bit_of(word: u32, bit: u32) -> u32 {
    ((word >> bit) & 0x0101_0101).wrapping_mul(255)
}

/// Four places at a time: of the 16 octets of the table the lowest bit of a place leaves 8, the next 4, 2 and 1. All octets are read each time.
#[inline(never)]
#[cfg_attr(target_feature = "ssse3", allow(dead_code))]
fn by_bits(table: Simd<u8, 16>, at: Simd<u8, 16>) -> Simd<u8, 16> {
    let mut found = [0; 16];
    let all = table.0.map(spread);
    for (to, places) in found.chunks_exact_mut(4).zip(at.0.chunks_exact(4)) {
        let places = u32::from_le_bytes([places[0], places[1], places[2], places[3]]);
        let mut left = all;
        for bit in 0..4 {
            let mask = bit_of(places, bit);
            for pair in 0..8 >> bit {
                left[pair] = left[2 * pair] ^ (mask & (left[2 * pair] ^ left[2 * pair + 1]));
            }
        }
        let high = bit_of(places, 4) | bit_of(places, 5) | bit_of(places, 6) | bit_of(places, 7);
        to.copy_from_slice(&(left[0] & !high).to_le_bytes());
    }
    Simd(found)
}

#[allow(non_camel_case_types)]
pub type u8x16 = Simd<u8, 16>;
#[allow(non_camel_case_types)]
pub type u8x32 = Simd<u8, 32>;

/// What `std::simd::prelude` has.
pub mod prelude {
    pub use super::{Simd, u8x16, u8x32};
}

#[cfg(test)]
mod tests {
    use super::*;

    // Octets with no pattern.
    fn drawn(seed: u64) -> [u8; 16] {
        let mut state = seed.wrapping_mul(0x9e37_79b9_7f4a_7c15) | 1;
        core::array::from_fn(|_| {
            state ^= state << 13;
            state ^= state >> 7;
            state ^= state << 17;
            (state >> 32) as u8
        })
    }

    #[test]
    fn each_form_gives_the_octet_at_each_place() {
        for seed in 0..512 {
            let table = drawn(seed);
            for first in 0..=255u8 {
                let at: [u8; 16] = core::array::from_fn(|i| first.wrapping_add(7 * i as u8));
                let wanted = at.map(|it| if it < 16 { table[it as usize] } else { 0 });
                assert_eq!(by_bits(Simd(table), Simd(at)).0, wanted);
                assert_eq!(Simd(table).swizzle_dyn(Simd(at)).0, wanted);
            }
        }
    }

    #[test]
    fn a_shuffle_takes_the_octets_of_both_in_any_order() {
        for seed in 0..512 {
            let (a, b) = (drawn(seed), drawn(seed + 512));
            let in_turn = Simd(a).shuffle(Simd(b), core::array::from_fn::<_, 32, _>(|i| i / 2 + 16 * (i % 2)));
            let wanted: [u8; 32] = core::array::from_fn(|i| if i % 2 == 0 { a[i / 2] } else { b[i / 2] });
            assert_eq!(in_turn.to_array(), wanted);
            let backward = Simd(a).shuffle(Simd(b), core::array::from_fn::<_, 32, _>(|i| 31 - i));
            let wanted: [u8; 32] = core::array::from_fn(|i| if i < 16 { b[15 - i] } else { a[31 - i] });
            assert_eq!(backward.to_array(), wanted);
        }
    }

    #[test]
    fn a_swizzle_takes_the_octets_in_any_order() {
        for seed in 0..512 {
            let table = drawn(seed);
            let wanted: [u8; 8] = core::array::from_fn(|i| table[15 - 2 * i]);
            assert_eq!(Simd(table).swizzle(core::array::from_fn::<_, 8, _>(|i| 15 - 2 * i)).to_array(), wanted);
        }
    }

    #[test]
    fn a_bitmask_has_a_bit_for_each_octet_that_is_at_least_the_other() {
        for seed in 0..512 {
            let (a, b) = (drawn(seed), drawn(seed + 512));
            let wanted = (0..16).filter(|i| a[*i] >= b[*i]).map(|i| 1 << i).sum::<u64>();
            assert_eq!(Simd(a).simd_ge(Simd(b)).to_bitmask(), wanted);
            assert_eq!(Simd(a).simd_ge(Simd(a)).to_bitmask(), 0xffff);
        }
    }

    #[test]
    fn a_bitmask_has_a_bit_for_each_octet_that_differs() {
        for seed in 0..512 {
            let (a, b) = (drawn(seed), drawn(seed).map(|it| it & 0xfe));
            let wanted = (0..16).filter(|i| a[*i] != b[*i]).map(|i| 1 << i).sum::<u64>();
            assert_eq!(Simd(a).simd_ne(Simd(b)).to_bitmask(), wanted);
            assert_eq!(Simd(a).simd_ne(Simd(a)).to_bitmask(), 0);
        }
    }
}
