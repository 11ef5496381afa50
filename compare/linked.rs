// The functions of the crate `compare_effects`, as Rust sees them, and what crosses to them and back. Each
// is safe to call: none takes a reference.

#[repr(C)]
#[derive(Clone, Copy, Debug, Default)]
pub struct Pair {
    pub left: f32,
    pub right: f32,
}

#[repr(C)]
#[derive(Clone, Copy, Debug, Default)]
pub struct Memory {
    pub ic1eq: Pair,
    pub ic2eq: Pair,
}

#[repr(C)]
#[derive(Clone, Copy, Debug)]
pub struct Processed {
    pub output: Pair,
    pub after: Memory,
}

#[repr(C)]
pub struct Weights {
    pub a1: f64,
    pub a2: f64,
    pub a3: f64,
}

#[repr(C)]
pub struct Coefficients {
    pub a1: f64,
    pub a2: f64,
    pub a3: f64,
    pub m0: f64,
    pub m1: f64,
    pub m2: f64,
}

unsafe extern "C" {
    pub safe fn sedhavil_sqrt_f32(x: f32) -> f32;
    pub safe fn sedhavil_sqrt_f64(x: f64) -> f64;
    pub safe fn sedhavil_as_f32(x: f64) -> f32;
    pub safe fn sedhavil_abs_f32(x: f32) -> f32;
    pub safe fn sedhavil_clamp_unit_f32(x: f32) -> f32;
    pub safe fn sedhavil_clamp_unit_f64(x: f64) -> f64;
    pub safe fn sedhavil_clamp_signed_unit_f32(x: f32) -> f32;
    pub safe fn sedhavil_at_least_hundredth_f64(x: f64) -> f64;
    pub safe fn sedhavil_amplitude(decibels: i32) -> f32;
    pub safe fn sedhavil_eq_amplitude(gain: i32) -> f64;
    pub safe fn sedhavil_volume_control(input: Pair, volume: i32) -> Pair;
    pub safe fn sedhavil_panning_control(input: Pair, panning: f32) -> Pair;
    pub safe fn sedhavil_distortion(input: Pair, kind: u32, drive: i32, mix: f32) -> Pair;
    pub safe fn sedhavil_filter(
        input: Pair,
        memory: Memory,
        mode: u32,
        g: f64,
        resonance: f64,
        mix: f32,
    ) -> Processed;
    pub safe fn sedhavil_eq_filter(
        input: Pair,
        memory: Memory,
        kind: u32,
        g: f64,
        q: f64,
        gain: i32,
    ) -> Processed;
    pub safe fn sedhavil_weigh(g: f64, k: f64) -> Weights;
    pub safe fn sedhavil_coefficients(kind: u32, g: f64, q: f64, gain: i32) -> Coefficients;
}
