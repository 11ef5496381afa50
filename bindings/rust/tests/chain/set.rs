//! Settings changed between blocks: heard at once, with lines and memories kept, or refused with nothing
//! changed.

use crate::{UNIT, busy, delay, held, rendered, uneven};
use sedhavil::{Chain, DistortionKind, EqFilterKind, FilterMode, NotSet, Refusal, Stage};

const REVERB: Stage = Stage::Reverb { feedback: 0.9, damping: 0.1, stereo_width: 1.0, mix: 0.5 };

/// Two settings of each kind, unlike in each that may change.
fn changes() -> [(Stage, Stage); 7] {
    let distortion = |kind, drive, mix| Stage::Distortion { kind, drive, mix };
    let filter = |mode, tangent, resonance, mix| Stage::Filter { mode, tangent, resonance, mix };
    let eq = |kind, tangent, gain, q| Stage::EqFilter { kind, tangent, gain, q };
    [
        (UNIT, Stage::VolumeControl { volume: -6 }),
        (Stage::PanningControl { panning: 0.0 }, Stage::PanningControl { panning: 0.5 }),
        (distortion(DistortionKind::HardClip, 0, 1.0), distortion(DistortionKind::SoftClip, 6, 0.5)),
        (filter(FilterMode::LowPass, 0.25, 0.5, 1.0), filter(FilterMode::Notch, 0.5, 0.25, 0.5)),
        (eq(EqFilterKind::Bell, 0.25, 6, 1.0), eq(EqFilterKind::LowShelf, 0.5, -6, 0.5)),
        (REVERB, Stage::Reverb { feedback: 0.5, damping: 0.5, stereo_width: 0.5, mix: 0.25 }),
        (delay(2, 1), Stage::Delay { frames: 2, feedback: -6, mix: 0.5, owned: 1 }),
    ]
}

/// The next block is heard with the new settings, and all bits are those of a chain that is resumed with
/// them.
#[test]
fn heard() {
    for (before, after) in changes() {
        let mut chain = Chain::new(8_000, &[delay(3, 0), before, UNIT]).unwrap();
        chain.render(&mut uneven(300)).unwrap();
        let unchanged = rendered(&mut chain.clone(), uneven(300));
        let mut parts = chain.clone().into_parts();
        parts.stages[1] = after;
        let mut resumed = Chain::resumed(parts).unwrap();

        assert_eq!(chain.set(1, after), Ok(()));
        assert_eq!(chain.stages(), [delay(3, 0), after, UNIT]);
        assert_eq!(held(&chain), held(&resumed));
        let changed = rendered(&mut chain, uneven(300));
        assert_ne!(changed, unchanged, "{after:?}");
        assert_eq!(changed, rendered(&mut resumed, uneven(300)), "{after:?}");
        assert_eq!(held(&chain), held(&resumed));
    }
}

/// An echo that has begun goes on in the line, and comes out with the new feedback.
#[test]
fn echo() {
    let echo = |feedback| Stage::Delay { frames: 2, feedback, mix: 1.0, owned: 0 };
    let mut chain = Chain::new(48_000, &[echo(0)]).unwrap();
    chain.render(&mut [1.0, 1.0, 0.0, 0.0]).unwrap();
    chain.set(0, echo(20)).unwrap();
    let mut samples = [0.0; 4];
    chain.render(&mut samples).unwrap();
    assert_eq!(samples, [10.0, 10.0, 0.0, 0.0]);
}

/// Set there and back is as if it was never set.
#[test]
fn back() {
    let mut chain = Chain::new(8_000, &busy()).unwrap();
    chain.render(&mut uneven(9)).unwrap();
    let mut unset = chain.clone();
    chain.set(3, Stage::Reverb { feedback: 0.0, damping: 0.0, stereo_width: 0.0, mix: 0.0 }).unwrap();
    chain.set(3, busy()[3]).unwrap();
    assert_eq!(rendered(&mut chain, uneven(9)), rendered(&mut unset, uneven(9)));
    assert_eq!(held(&chain), held(&unset));
}

#[test]
fn refused() {
    let stages = [delay(2, 1), UNIT, REVERB];
    let mut chain = Chain::new(8_000, &stages).unwrap();
    chain.render(&mut uneven(9)).unwrap();
    let before = held(&chain);
    let next = rendered(&mut chain.clone(), uneven(300));
    let loud = Stage::Delay { frames: 2, feedback: 25, mix: 1.0, owned: 1 };
    let no_number = Stage::Delay { frames: 2, feedback: 0, mix: f32::NAN, owned: 1 };
    let long = Stage::Reverb { feedback: 1.5, damping: 0.1, stereo_width: 1.0, mix: 0.5 };
    for (at, stage, refusal) in [
        (3, UNIT, NotSet::NoStage),
        (usize::MAX, UNIT, NotSet::NoStage),
        (0, UNIT, NotSet::Kind),
        (1, delay(2, 0), NotSet::Kind),
        (0, delay(3, 1), NotSet::Frames),
        (0, delay(480_001, 2), NotSet::Frames),
        (0, delay(2, 0), NotSet::Owned),
        (0, delay(2, 2), NotSet::Owned),
        (0, loud, NotSet::Refused(Refusal::Setting(0))),
        (0, no_number, NotSet::Refused(Refusal::Setting(0))),
        (1, Stage::VolumeControl { volume: 25 }, NotSet::Refused(Refusal::Setting(1))),
        (2, long, NotSet::Refused(Refusal::Setting(2))),
    ] {
        assert_eq!(chain.set(at, stage), Err(refusal));
        assert_eq!(held(&chain), before);
        assert_eq!(rendered(&mut chain.clone(), uneven(300)), next, "{stage:?}");
    }
}
