use crate::{Decibels, Mix, Value};
use std::time::Duration;

pub struct CompressorBuilder {
    pub threshold: Value<f64>,
    pub ratio: Value<f64>,
    pub attack_duration: Value<Duration>,
    pub release_duration: Value<Duration>,
    pub makeup_gain: Value<Decibels>,
    pub mix: Value<Mix>,
}

crate::opened!(OpenCompressor, Compressor, CompressorBuilder);

// kira's file names the defaults; they never come to be used.
impl CompressorBuilder {
    pub const DEFAULT_THRESHOLD: f64 = 0.0;
    pub const DEFAULT_RATIO: f64 = 1.0;
    pub const DEFAULT_ATTACK_DURATION: Duration = Duration::ZERO;
    pub const DEFAULT_RELEASE_DURATION: Duration = Duration::ZERO;
    pub const DEFAULT_MAKEUP_GAIN: Decibels = Decibels::IDENTITY;
    pub const DEFAULT_MIX: Mix = Mix::WET;
}
