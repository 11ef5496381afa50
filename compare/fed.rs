// The functions of libm that kira calls and this port does not work out. An executable that has
// these feeds kira our amplitudes and the tangents of its own choice: the linker takes them before
// libm's. Each must answer every argument, by the argument alone, since the optimiser counts on that
// of libm's: it calls `powf` early, and drops the answer where the level is 0 dB or at most -60 dB.
use crate::linked::{sedhavil_amplitude, sedhavil_eq_amplitude};

// The whole number k for which k / parts is x, among those from -99 on.
fn whole_of(x: f64, parts: f64) -> i32 {
    (x * parts + 100.5) as i32 - 100
}

// Where no amplitude is meant, NaN.
#[unsafe(no_mangle)]
extern "C" fn exp10f(x: f32) -> f32 {
    let k = whole_of(x as f64, 20.0);
    if k as f32 / 20.0 == x && (-59..=24).contains(&k) {
        sedhavil_amplitude(k)
    } else {
        f32::NAN
    }
}

#[unsafe(no_mangle)]
extern "C" fn exp10(x: f64) -> f64 {
    let k = whole_of(x, 40.0);
    if k as f64 / 40.0 == x && (-24..=24).contains(&k) {
        sedhavil_eq_amplitude(k)
    } else {
        f64::NAN
    }
}

#[unsafe(no_mangle)]
extern "C" fn powf(base: f32, x: f32) -> f32 {
    if base == 10.0 { exp10f(x) } else { f32::NAN }
}

#[unsafe(no_mangle)]
extern "C" fn pow(base: f64, x: f64) -> f64 {
    if base == 10.0 { exp10(x) } else { f64::NAN }
}

// ---- tangents

// kira asks for the tangent of PI times a relative frequency, which it clamps to 0.0001..0.5. So a
// key, below 2^48, travels as a frequency from 0.25 on, and `tan` answers with the key's tangent.
// The frequencies lie 2^-50 apart, so that the rounding of the product leaves each key to be told.
pub const KEYS: u64 = 1 << 48;

const UNIT: f64 = (1u64 << 50) as f64;

// The `cutoff` or `frequency` that stands for a key, where dt is 1.
pub fn frequency(key: u64) -> f64 {
    assert!(key < KEYS);
    0.25 + key as f64 / UNIT
}

#[unsafe(no_mangle)]
extern "C" fn tan(x: f64) -> f64 {
    let key = (x / std::f64::consts::PI - 0.25) * UNIT + 0.5;
    if 0.0 <= key && key < KEYS as f64 {
        tangent(key as u64)
    } else {
        f64::NAN
    }
}

// The first keys' tangents: the ends of the range and their neighbours, the ends of kira's own, some
// from between, and some that no stage may have, since `process` answers those too.
pub const EDGES: [f64; 26] = [
    f64::from_bits(0x3f20_0000_0000_0000), // 2^-13
    f64::from_bits(0x3f20_0000_0000_0001),
    1e17,
    f64::from_bits(0x4376_3457_85d8_9fff),
    0.0003141592756944053, // tan(PI * 0.0001)
    16331239353195370.0,   // tan(PI * 0.5)
    0.5,
    1.0,
    2.0,
    0.06554346281523822, // 1 kHz at 48 kHz
    1.3763819204711734,  // 13.23 kHz at 44.1 kHz
    1e8,
    134217728.0, // 2^27
    0.25,
    3.0,
    1e16,
    // just below 2^-13, just above 10^17
    f64::from_bits(0x3f1f_ffff_ffff_ffff),
    f64::from_bits(0x4376_3457_85d8_a001),
    0.0,
    -0.0,
    -1.0,
    5e-324,
    1e200,
    f64::INFINITY,
    f64::NEG_INFINITY,
    f64::NAN,
];

// How many of the edges a stage may have.
pub const PROPER: u64 = 16;

// Of any other key: a number from 2^-13 to 10^17 with random digits, each power of two as often.
pub fn tangent(key: u64) -> f64 {
    if key < EDGES.len() as u64 {
        return EDGES[key as usize];
    }
    let digits = scrambled(key);
    let power = 70 * (digits & 0xfff) >> 12;
    let g = f64::from_bits((1023 - 13 + power) << 52 | digits >> 12);
    if g <= 1e17 { g } else { g / 2.0 }
}

// The last steps of SplitMix64.
pub fn scrambled(key: u64) -> u64 {
    let a = (key ^ key >> 30).wrapping_mul(0xbf58_476d_1ce4_e5b9);
    let b = (a ^ a >> 27).wrapping_mul(0x94d0_49bb_1331_11eb);
    b ^ b >> 31
}
