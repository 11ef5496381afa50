//! The layout of a stage's words, as the library reads it: its version, the words of each kind, an unused
//! word that is not 0, and words of the layout before this one, which had five to a stage.

use super::{LAYOUT_VERSION, WORDS, of_stage};
use crate::{DistortionKind, EqFilterKind, FilterMode, Stage, face, layout_version};

const STAGES: [(Stage, usize); 7] = [
    (Stage::VolumeControl { volume: -6 }, 2),
    (Stage::PanningControl { panning: -1.0 }, 2),
    (Stage::Distortion { kind: DistortionKind::SoftClip, drive: 24, mix: 0.5 }, 4),
    (Stage::Filter { mode: FilterMode::Notch, tangent: 1.0, resonance: 0.5, mix: 1.0 }, 5),
    (Stage::EqFilter { kind: EqFilterKind::HighShelf, tangent: 1.0, gain: -24, q: 0.5 }, 5),
    (Stage::Reverb { feedback: 0.5, damping: 0.25, stereo_width: 1.0, mix: 0.5 }, 5),
    (Stage::Delay { frames: 1, feedback: -60, mix: 1.0, owned: 0 }, 5),
];

fn answer(words: &[u64]) -> (u32, usize) {
    let room = face::floats_needed(8_000, words);
    (room.number, room.place)
}

/// The words of each kind's stage, one after another, with this one changed.
fn changed(place: usize, at: usize, word: u64) -> Vec<u64> {
    let mut words: Vec<u64> = STAGES.iter().flat_map(|&(stage, _)| of_stage(stage)).collect();
    words[WORDS * place + at] = word;
    words
}

#[test]
fn version() {
    assert_eq!(layout_version(), LAYOUT_VERSION);
}

#[test]
fn unused_words() {
    for (place, (_, used)) in STAGES.into_iter().enumerate() {
        for at in used..WORDS {
            assert_eq!(answer(&changed(place, at, 0)).0, 0);
            for word in [1, u64::MAX] {
                assert_eq!(answer(&changed(place, at, word)), (102, place), "word {at}");
            }
        }
    }
}

#[test]
fn five_words() {
    let old: Vec<u64> = STAGES.iter().flat_map(|&(stage, _)| of_stage(stage)[..5].to_vec()).collect();
    for stages in 1..=STAGES.len() {
        assert_eq!(answer(&old[..5 * stages]), (101, 0));
    }
    // as many words as five stages have
    let delay = of_stage(STAGES[6].0);
    assert_eq!(answer(&delay[..5].repeat(12)), (102, 0));
}

fn are<const USED: usize>(stage: Stage, used: [u64; USED]) {
    let words = of_stage(stage);
    assert_eq!(words[..USED], used);
    assert_eq!(words[USED..], vec![0; WORDS - USED]);
}

/// The words are those of the fixed interface, and 0 after the last that is used.
#[test]
fn words() {
    let minus = |n: u64| u64::MAX - (n - 1);
    are(Stage::VolumeControl { volume: -6 }, [0, minus(6)]);
    are(Stage::PanningControl { panning: -1.0 }, [1, 0xbf80_0000]);
    let soft = Stage::Distortion { kind: DistortionKind::SoftClip, drive: 24, mix: 0.5 };
    are(soft, [2, 1, 24, 0x3f00_0000]);
    let notch = Stage::Filter { mode: FilterMode::Notch, tangent: 1.0, resonance: 0.5, mix: 1.0 };
    are(notch, [3, 3, 0x3ff0_0000_0000_0000, 0x3fe0_0000_0000_0000, 0x3f80_0000]);
    let high = Stage::EqFilter { kind: EqFilterKind::HighShelf, tangent: 1.0, gain: -24, q: 0.5 };
    are(high, [4, 2, 0x3ff0_0000_0000_0000, minus(24), 0x3fe0_0000_0000_0000]);
    let reverb = Stage::Reverb { feedback: 0.5, damping: 0.25, stereo_width: 1.0, mix: -0.0 };
    are(reverb, [5, 0x3f00_0000, 0x3e80_0000, 0x3f80_0000, 0x8000_0000]);
    let delay = Stage::Delay { frames: 480_000, feedback: -60, mix: 1.0, owned: 15 };
    are(delay, [6, 480_000, minus(60), 0x3f80_0000, 15]);
}

#[test]
fn codes() {
    let modes = [FilterMode::LowPass, FilterMode::BandPass, FilterMode::HighPass, FilterMode::Notch];
    for (code, mode) in (0..).zip(modes) {
        assert_eq!(of_stage(Stage::Filter { mode, tangent: 1.0, resonance: 0.0, mix: 0.0 })[1], code);
    }
    for (code, kind) in (0..).zip([EqFilterKind::Bell, EqFilterKind::LowShelf, EqFilterKind::HighShelf]) {
        assert_eq!(of_stage(Stage::EqFilter { kind, tangent: 1.0, gain: 0, q: 0.0 })[1], code);
    }
    for (code, kind) in (0..).zip([DistortionKind::HardClip, DistortionKind::SoftClip]) {
        assert_eq!(of_stage(Stage::Distortion { kind, drive: 0, mix: 0.0 })[1], code);
    }
}
