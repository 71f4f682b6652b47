//! Vectors of four numbers over `core::arch`, by the names of `std::simd`. All that is unsafe is here.

use core::arch::x86_64::*;
use std::ops::{Add, Mul, Sub};

/// Four numbers. Sums, differences and products wrap.
#[allow(non_camel_case_types)]
#[derive(Clone, Copy)]
pub struct u32x4(__m128i);

/// For each of four lanes whether two numbers were equal.
#[derive(Clone, Copy)]
pub struct Equal(__m128i);

/// The pattern of a swizzle that takes each lane from the given one.
pub const fn lanes(none: i32, first: i32, second: i32, both: i32) -> i32 {
    none + 4 * first + 16 * second + 64 * both
}

/// Reads the four numbers from a place on. The place is checked in builds with debug assertions alone, as Rattle
/// proves it.
#[inline(always)]
pub fn get(numbers: &[u32], at: usize) -> u32x4 {
    debug_assert!(at + 4 <= numbers.len());
    // SAFETY: callers keep within the slice; `bench/kernel.sh` also runs a build that checks it.
    u32x4(unsafe { _mm_loadu_si128(numbers.as_ptr().add(at).cast()) })
}

/// Writes four numbers from a place on. The place is checked as by `get`.
#[inline(always)]
pub fn put(numbers: &mut [u32], at: usize, four: u32x4) {
    debug_assert!(at + 4 <= numbers.len());
    // SAFETY: as for `get`.
    unsafe { _mm_storeu_si128(numbers.as_mut_ptr().add(at).cast(), four.0) }
}

impl u32x4 {
    pub const ZERO: u32x4 = u32x4(unsafe { core::mem::transmute::<[u32; 4], __m128i>([0; 4]) });

    #[inline(always)]
    pub fn splat(number: u32) -> u32x4 {
        u32x4(unsafe { _mm_set1_epi32(number as i32) })
    }

    #[inline(always)]
    pub fn from_array(numbers: [u32; 4]) -> u32x4 {
        u32x4(unsafe { core::mem::transmute::<[u32; 4], __m128i>(numbers) })
    }

    #[inline(always)]
    pub fn to_array(self) -> [u32; 4] {
        unsafe { core::mem::transmute::<__m128i, [u32; 4]>(self.0) }
    }

    #[inline(always)]
    pub fn simd_min(self, other: u32x4) -> u32x4 {
        u32x4(unsafe { _mm_min_epu32(self.0, other.0) })
    }

    #[inline(always)]
    pub fn simd_max(self, other: u32x4) -> u32x4 {
        u32x4(unsafe { _mm_max_epu32(self.0, other.0) })
    }

    #[inline(always)]
    pub fn simd_eq(self, other: u32x4) -> Equal {
        Equal(unsafe { _mm_cmpeq_epi32(self.0, other.0) })
    }

    /// Takes each lane from that of the pattern, which `lanes` makes.
    #[inline(always)]
    pub fn swizzle<const PATTERN: i32>(self) -> u32x4 {
        u32x4(unsafe { _mm_shuffle_epi32::<PATTERN>(self.0) })
    }

    /// Moves the number of each set without the first of two places to that with it: [0, a, 0, c] of [a, b, c, d].
    #[inline(always)]
    pub fn to_first(self) -> u32x4 {
        u32x4(unsafe { _mm_slli_epi64::<32>(self.0) })
    }

    /// Moves the number of each set without the second of two places to that with it: [0, 0, a, b] of [a, b, c, d].
    #[inline(always)]
    pub fn to_second(self) -> u32x4 {
        u32x4(unsafe { _mm_slli_si128::<8>(self.0) })
    }
}

impl Add for u32x4 {
    type Output = u32x4;

    #[inline(always)]
    fn add(self, other: u32x4) -> u32x4 {
        u32x4(unsafe { _mm_add_epi32(self.0, other.0) })
    }
}

impl Sub for u32x4 {
    type Output = u32x4;

    #[inline(always)]
    fn sub(self, other: u32x4) -> u32x4 {
        u32x4(unsafe { _mm_sub_epi32(self.0, other.0) })
    }
}

impl Mul for u32x4 {
    type Output = u32x4;

    #[inline(always)]
    fn mul(self, other: u32x4) -> u32x4 {
        u32x4(unsafe { _mm_mullo_epi32(self.0, other.0) })
    }
}

impl Equal {
    /// Takes the lanes of the one if the numbers were equal, else those of the other.
    #[inline(always)]
    pub fn select(self, one: u32x4, other: u32x4) -> u32x4 {
        u32x4(unsafe { _mm_or_si128(_mm_and_si128(self.0, one.0), _mm_andnot_si128(self.0, other.0)) })
    }
}
