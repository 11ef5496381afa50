//! The crate against document 01: its values, its numbers on each side of an edge, and each refusal by name,
//! number and place, with nothing changed. And a chain taken apart, resumed, reset and set.

mod answers;
mod blocks;
mod parts;
mod set;

use sedhavil::{Chain, DistortionKind, FilterMode, POSITIONS, Stage};

const UNIT: Stage = Stage::VolumeControl { volume: 0 };

fn delay(frames: u32, owned: usize) -> Stage {
    Stage::Delay { frames, feedback: 0, mix: 1.0, owned }
}

/// Stages with lines, positions and memories of every sort, one in a delay's feedback.
fn busy() -> Vec<Stage> {
    vec![
        Stage::Filter { mode: FilterMode::LowPass, tangent: 0.25, resonance: 0.5, mix: 0.5 },
        delay(3, 1),
        Stage::Distortion { kind: DistortionKind::SoftClip, drive: 6, mix: 0.5 },
        Stage::Reverb { feedback: 0.9, damping: 0.1, stereo_width: 1.0, mix: 0.5 },
    ]
}

/// So many frames; no two neighbours are alike, and neither are their sides.
fn uneven(frames: usize) -> Vec<f32> {
    (0..2 * frames).map(|i| (i * 7 % 11) as f32 * 0.125 - 0.5).collect()
}

fn bits(samples: &[f32]) -> Vec<u32> {
    samples.iter().map(|x| x.to_bits()).collect()
}

/// All that a chain holds, floats by their bits.
fn held(chain: &Chain) -> (u32, Vec<Stage>, Vec<u32>, [usize; POSITIONS], Vec<u32>) {
    let memories = chain.memories();
    let floats = bits(memories.floats());
    (chain.rate(), chain.stages().to_vec(), bits(chain.store()), *memories.positions(), floats)
}

/// What a chain makes of these samples.
fn rendered(chain: &mut Chain, mut samples: Vec<f32>) -> Vec<u32> {
    chain.render(&mut samples).unwrap();
    bits(&samples)
}
