//! The words that stages are for the library: twelve each. The kind comes first, then its numbers: a level
//! in two's complement, a float by its bits. Words that the kind does not use are 0.

use crate::face::{self, Reply};
use crate::refusal::answered;
use crate::{Refusal, Stage};

/// The layout that this crate was made for. It goes up with each change of what is handed to the library, of
/// [`Memories`](crate::Memories) too, so a host holds it against [`layout_version`](crate::layout_version).
pub const LAYOUT_VERSION: u32 = 1;

/// The words of a stage.
const WORDS: usize = 12;

fn of_stage(stage: Stage) -> [u64; WORDS] {
    let level = |decibels: i32| decibels as i64 as u64;
    let single = |x: f32| u64::from(x.to_bits());
    match stage {
        Stage::VolumeControl { volume } => padded([0, level(volume)]),
        Stage::PanningControl { panning } => padded([1, single(panning)]),
        Stage::Distortion { kind, drive, mix } => padded([2, kind as u64, level(drive), single(mix)]),
        Stage::Filter { mode, tangent, resonance, mix } => {
            padded([3, mode as u64, tangent.to_bits(), resonance.to_bits(), single(mix)])
        }
        Stage::EqFilter { kind, tangent, gain, q } => {
            padded([4, kind as u64, tangent.to_bits(), level(gain), q.to_bits()])
        }
        Stage::Reverb { feedback, damping, stereo_width, mix } => {
            padded([5, single(feedback), single(damping), single(stereo_width), single(mix)])
        }
        Stage::Delay { frames, feedback, mix, owned } => {
            padded([6, u64::from(frames), level(feedback), single(mix), owned as u64])
        }
    }
}

fn padded<const USED: usize>(used: [u64; USED]) -> [u64; WORDS] {
    let mut words = [0; WORDS];
    words[..USED].copy_from_slice(&used);
    words
}

pub(crate) fn of_stages(stages: &[Stage]) -> Vec<u64> {
    stages.iter().copied().flat_map(of_stage).collect()
}

/// Those of the stage at this place become another stage's.
pub(crate) fn put(words: &mut [u64], at: usize, stage: Stage) {
    words[WORDS * at..][..WORDS].copy_from_slice(&of_stage(stage));
}

/// How many floats the lines of these stages need: refusals 1 to 4.
pub(crate) fn needed(rate: u32, words: &[u64]) -> Result<usize, Refusal> {
    let face::Room { number, place, floats } = face::floats_needed(rate, words);
    answered(Reply { number, place })?;
    Ok(floats)
}

#[cfg(test)]
mod tests;
