//! A stage with its settings.

use std::f64::consts::PI;

/// How a distortion holds a sample back that is too loud.
#[derive(Clone, Copy, Debug, PartialEq, Eq, Hash)]
pub enum DistortionKind {
    /// Cuts the sample off at -1 and 1.
    HardClip,
    /// Bends the sample, x / (1 + |x|), which never reaches 1.
    SoftClip,
}

/// Which frequencies a filter lets pass.
#[derive(Clone, Copy, Debug, PartialEq, Eq, Hash)]
pub enum FilterMode {
    /// Those below the cutoff frequency.
    LowPass,
    /// Those around the cutoff frequency.
    BandPass,
    /// Those above the cutoff frequency.
    HighPass,
    /// All but those around the cutoff frequency.
    Notch,
}

/// Which frequencies an EQ filter makes louder or softer.
#[derive(Clone, Copy, Debug, PartialEq, Eq, Hash)]
pub enum EqFilterKind {
    /// Those around its frequency.
    Bell,
    /// Those below its frequency.
    LowShelf,
    /// Those above its frequency.
    HighShelf,
}

/// One of kira's seven effects, with its settings. More kinds will come.
#[derive(Clone, Copy, Debug, PartialEq)]
#[non_exhaustive]
pub enum Stage {
    /// Makes the sound louder or softer.
    VolumeControl {
        /// The level in whole dB, at most 24. From -60 down is silence.
        volume: i32,
    },
    /// Moves the sound to the left or to the right.
    PanningControl {
        /// The side, from -1 for left to 1 for right. What lies beyond is clamped.
        panning: f32,
    },
    /// Distorts the sound.
    Distortion {
        /// How loud samples are held back.
        kind: DistortionKind,
        /// The level in whole dB at which the sound is clipped, from -59 to 24.
        drive: i32,
        /// The share of the effect, from 0 for dry to 1 for wet. What lies beyond is clamped.
        mix: f32,
    },
    /// Lets only some frequencies pass.
    Filter {
        /// Which frequencies pass.
        mode: FilterMode,
        /// The [`tangent`] of the cutoff frequency, from 2^-13 to 10^17: not the frequency itself, which would
        /// be taken and mean something else.
        tangent: f64,
        /// How much the cutoff frequency rings, from 0 to 1. What lies beyond is clamped.
        resonance: f64,
        /// The share of the effect, from 0 for dry to 1 for wet. What lies beyond is clamped.
        mix: f32,
    },
    /// Makes some frequencies louder or softer.
    EqFilter {
        /// Which frequencies are changed.
        kind: EqFilterKind,
        /// The [`tangent`] of the frequency, from 2^-13 to 10^17, as a filter has it.
        tangent: f64,
        /// The change of level in whole dB, from -24 to 24.
        gain: i32,
        /// How narrow the change is, from 0 to 1,000. What lies below 0.01 counts as 0.01.
        q: f64,
    },
    /// Adds the echoes of a room.
    Reverb {
        /// How long the room sounds on, from 0 to 1.
        feedback: f32,
        /// How fast high frequencies die away, from 0 to 1.
        damping: f32,
        /// How far left and right are apart, from 0 to 1.
        stereo_width: f32,
        /// The share of the effect, from 0 for dry to 1 for wet. What lies beyond is clamped.
        mix: f32,
    },
    /// Repeats the sound after a while.
    Delay {
        /// How many frames later, from 1 to 480,000.
        frames: u32,
        /// The level in whole dB at which the sound comes back, at most 24. It scales every echo, the first
        /// one too: from -60 down there is no echo at all.
        feedback: i32,
        /// The share of the effect, from 0 for dry to 1 for wet. What lies beyond is clamped.
        mix: f32,
        /// How many of the stages after it are its feedback stages, with those that they own in turn.
        owned: usize,
    },
}

/// The tangent that a filter or an EQ filter is given, by kira's formula: tan(pi * f / rate), with f / rate
/// clamped to 0.0001..0.5.
///
/// This is the host's own `tan`, and nothing is proved of it. kira has the time of a frame, dt = 1 / rate,
/// where this has the rate: its filter works out `cutoff / (1.0 / dt)` and its EQ `frequency * dt`, which
/// can differ from `frequency / rate` in the last bit. To have kira's very tangent, work it out as kira
/// does and pass that.
pub fn tangent(frequency: f64, rate: u32) -> f64 {
    (PI * (frequency / f64::from(rate)).clamp(0.0001, 0.5)).tan()
}
