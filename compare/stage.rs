// A stage that holds no line, and kira's own effect for it.
use crate::fed;
use kira::effect::Effect;
use kira::effect::distortion::{DistortionBuilder, DistortionKind, OpenDistortion};
use kira::effect::eq_filter::{EqFilterBuilder, EqFilterKind, OpenEqFilter};
use kira::effect::filter::{FilterBuilder, FilterMode, OpenFilter};
use kira::effect::panning_control::{OpenPanningControl, PanningControlBuilder};
use kira::effect::volume_control::{OpenVolumeControl, VolumeControlBuilder};
use kira::{Decibels, Frame, Mix, Panning, Value};

// A tangent is given by its key (fed.rs); a case by its place in CLIPS, MODES or KINDS.
#[derive(Clone, Copy, Debug)]
pub enum Stage {
    Volume {
        volume: i32,
    },
    Panning {
        panning: f32,
    },
    Distortion {
        kind: u32,
        drive: i32,
        mix: f32,
    },
    Filter {
        mode: u32,
        key: u64,
        resonance: f64,
        mix: f32,
    },
    Eq {
        kind: u32,
        key: u64,
        q: f64,
        gain: i32,
    },
}

pub const CLIPS: [DistortionKind; 2] = [DistortionKind::HardClip, DistortionKind::SoftClip];
pub const MODES: [FilterMode; 4] = [
    FilterMode::LowPass,
    FilterMode::BandPass,
    FilterMode::HighPass,
    FilterMode::Notch,
];
pub const KINDS: [EqFilterKind; 3] = [
    EqFilterKind::Bell,
    EqFilterKind::LowShelf,
    EqFilterKind::HighShelf,
];

// The two frames that a filter remembers; the other effects remember nothing.
pub trait Remembering: Effect {
    fn remembered(&mut self) -> Option<[&mut Frame; 2]> {
        None
    }
}

impl Remembering for OpenVolumeControl {}
impl Remembering for OpenPanningControl {}
impl Remembering for OpenDistortion {}

impl Remembering for OpenFilter {
    fn remembered(&mut self) -> Option<[&mut Frame; 2]> {
        Some(self.memory())
    }
}

impl Remembering for OpenEqFilter {
    fn remembered(&mut self) -> Option<[&mut Frame; 2]> {
        Some(self.memory())
    }
}

pub fn effect_of(stage: Stage) -> Box<dyn Remembering> {
    let level = |decibels: i32| Value::Fixed(Decibels(decibels as f32));
    let mixed = |mix| Value::Fixed(Mix(mix));
    match stage {
        Stage::Volume { volume } => Box::new(VolumeControlBuilder(level(volume)).open()),
        Stage::Panning { panning } => {
            Box::new(PanningControlBuilder(Value::Fixed(Panning(panning))).open())
        }
        Stage::Distortion { kind, drive, mix } => {
            let builder = DistortionBuilder {
                kind: CLIPS[kind as usize],
                drive: level(drive),
                mix: mixed(mix),
            };
            Box::new(builder.open())
        }
        Stage::Filter {
            mode,
            key,
            resonance,
            mix,
        } => {
            let builder = FilterBuilder {
                mode: MODES[mode as usize],
                cutoff: Value::Fixed(fed::frequency(key)),
                resonance: Value::Fixed(resonance),
                mix: mixed(mix),
            };
            Box::new(builder.open())
        }
        Stage::Eq { kind, key, q, gain } => {
            let builder = EqFilterBuilder {
                kind: KINDS[kind as usize],
                frequency: Value::Fixed(fed::frequency(key)),
                gain: level(gain),
                q: Value::Fixed(q),
            };
            Box::new(builder.open())
        }
    }
}
