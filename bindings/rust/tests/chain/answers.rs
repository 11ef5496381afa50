//! Chains built, or refused; document 01's values, P5 and P7 to P9; tangents, and what refusals say.

use crate::{UNIT, delay};
use sedhavil::{
    Chain, DistortionKind, EqFilterKind, FilterMode, NotSet, Refusal, Stage, floats_needed, tangent,
};

/// To build such a chain is refused so, and so is to ask for its floats.
fn refused(rate: u32, stages: &[Stage], refusal: Refusal, number: u32, place: usize) {
    assert_eq!(Chain::new(rate, stages).err(), Some(refusal));
    assert_eq!(floats_needed(rate, stages), Err(refusal));
    assert_eq!((refusal.number(), refusal.place()), (number, place));
}

fn taken(rate: u32, stages: &[Stage]) {
    let mut chain = Chain::new(rate, stages).unwrap();
    assert_eq!((chain.rate(), chain.stages()), (rate, stages));
    assert_eq!(Ok(chain.store().len()), floats_needed(rate, stages));
    assert_eq!(chain.render(&mut [0.25; 4]), Ok(()));
}

#[test]
fn rates() {
    refused(7_999, &[UNIT], Refusal::Rate, 1, 0);
    refused(192_001, &[UNIT], Refusal::Rate, 1, 0);
    taken(8_000, &[UNIT]);
    taken(192_000, &[UNIT]);
}

#[test]
fn lists() {
    refused(48_000, &[UNIT; 17], Refusal::Stages, 2, 0);
    taken(48_000, &[UNIT; 16]);
    taken(48_000, &[]);
    refused(48_000, &[UNIT, delay(1, 1)], Refusal::Shape(1), 3, 1);
    taken(48_000, &[delay(1, 2), delay(1, 1), UNIT]);
    // a stage of depth 4
    let deep = [delay(1, 4), delay(1, 3), delay(1, 2), delay(1, 1), UNIT];
    refused(48_000, &deep, Refusal::Shape(4), 3, 4);
}

#[test]
fn settings() {
    let eq = |gain| Stage::EqFilter { kind: EqFilterKind::Bell, tangent: 1.0, gain, q: 1.0 };
    let filter =
        |tangent, resonance| Stage::Filter { mode: FilterMode::LowPass, tangent, resonance, mix: 1.0 };
    let drive = |drive| Stage::Distortion { kind: DistortionKind::HardClip, drive, mix: 1.0 };
    let width = |stereo_width| Stage::Reverb { feedback: 1.0, damping: 0.0, stereo_width, mix: 7.0 };
    let out = [
        delay(0, 0),
        delay(480_001, 0),
        eq(25),
        eq(-25),
        filter(1.0001e17, 0.0),
        filter(1.0, f64::INFINITY),
        drive(-60),
        drive(25),
        width(1.5),
        Stage::VolumeControl { volume: 25 },
        Stage::PanningControl { panning: f32::NAN },
    ];
    for stage in out {
        refused(48_000, &[UNIT, stage], Refusal::Setting(1), 4, 1);
    }
    let inside = [
        eq(24),
        eq(-24),
        filter(1e17, -3.0),
        drive(-59),
        drive(24),
        width(1.0),
        Stage::VolumeControl { volume: i32::MIN },
        Stage::PanningControl { panning: 7.0 },
    ];
    for stage in inside {
        taken(48_000, &[UNIT, stage]);
    }
}

#[test]
fn stores() {
    let reverb = Stage::Reverb { feedback: 0.9, damping: 0.1, stereo_width: 1.0, mix: 0.5 };
    assert_eq!(floats_needed(44_100, &[reverb]), Ok(25_450));
    assert_eq!(Chain::new(44_100, &[reverb]).unwrap().store(), vec![0.0; 25_450]);
    assert_eq!(floats_needed(48_000, &[delay(480_000, 0), UNIT]), Ok(960_000));
    assert_eq!(floats_needed(48_000, &[]), Ok(0));
}

fn one_frame(stage: Stage, input: f32) -> [u32; 2] {
    let mut samples = [input; 2];
    Chain::new(48_000, &[stage]).unwrap().render(&mut samples).unwrap();
    samples.map(f32::to_bits)
}

/// P7 to P9, and P5 through a volume.
#[test]
fn values() {
    let clip = |kind| Stage::Distortion { kind, drive: 0, mix: 1.0 };
    assert_eq!(one_frame(clip(DistortionKind::HardClip), 3.0), [1f32.to_bits(); 2]);
    assert_eq!(one_frame(clip(DistortionKind::SoftClip), 1.0), [0.5f32.to_bits(); 2]);
    assert_eq!(one_frame(Stage::PanningControl { panning: -1.0 }, 1.0), [0x3fb5_04f3, 0]);
    let small = Stage::PanningControl { panning: 2f32.powi(-30) };
    assert_eq!(one_frame(small, 1.0), [0x3f7f_ffff; 2]);
    for (volume, amplitude) in [(0, 1.0), (20, 10.0), (-60, 0.0)] {
        assert_eq!(one_frame(Stage::VolumeControl { volume }, 1.0), [f32::to_bits(amplitude); 2]);
    }
}

/// kira's clamp at both ends, tan(0.0001 pi) by its series; a quarter of the rate is tan(pi / 4), which is
/// 1 but for rounding.
#[test]
fn tangents() {
    let at = |frequency| tangent(frequency, 48_000);
    assert!((at(0.0) - 3.141_592_756_944_05e-4).abs() < 1e-17);
    assert_eq!(at(0.0), at(4.8));
    assert!(at(4.8) < at(4.9));
    assert!((at(12_000.0) - 1.0).abs() < 1e-15);
    assert!(at(23_999.0) < at(24_000.0));
    assert_eq!(at(30_000.0), at(24_000.0));
    for frequency in [0.0, 20.0, 1_000.0, 24_000.0, 1e9] {
        let tangent = at(frequency);
        let stage = Stage::Filter { mode: FilterMode::LowPass, tangent, resonance: 0.0, mix: 1.0 };
        assert_eq!(floats_needed(48_000, &[stage]), Ok(0), "{frequency}");
    }
}

#[test]
fn said() {
    let entry = "refusal 11 (entry 2): this entry of the order names no top stage, or one that cannot go on";
    assert_eq!(Refusal::Entry(2).to_string(), entry);
    let samples = "refusal 7: the number of samples is odd";
    assert_eq!(Refusal::Samples.to_string(), samples);
    assert_eq!(NotSet::Refused(Refusal::Samples).to_string(), samples);
    let top = "refusal 9 (top stage 1): this top stage's progress is past the last frame or ahead of the stage before it";
    assert_eq!(Refusal::Progress(1).to_string(), top);
    let kind = "a stage keeps its kind as long as its chain goes on: build another chain for a change";
    assert_eq!(NotSet::Kind.to_string(), kind);
}
