// The flat face's own answers, 101 and 102, and its words for a stage (docs of the crate `sedhavil`), read
// plainly: what a caller's words mean, or that they mean nothing.
use crate::table::{ALL_FLOATS, ALL_POSITIONS, Delay, PLACES, Refusal, Reverb, Stage};

pub const WORDS: usize = 12;

fn single(word: u64) -> Option<f32> {
    u32::try_from(word).ok().map(f32::from_bits)
}

fn decibels(word: u64) -> Option<i32> {
    i32::try_from(word as i64).ok()
}

fn below(word: u64, cases: u64) -> Option<()> {
    (word < cases).then_some(())
}

// How many of its words a stage of this kind uses.
pub fn used(kind: u64) -> usize {
    match kind {
        0 | 1 => 2,
        2 => 4,
        _ => 5,
    }
}

// Words that a kind does not use are 0.
pub fn stage(words: [u64; WORDS]) -> Option<Stage> {
    let [kind, a, b, c, d, ..] = words;
    if words[used(kind)..].iter().any(|&word| word != 0) {
        return None;
    }
    Some(match kind {
        0 => Stage::Volume {
            volume: decibels(a)?,
        },
        1 => Stage::Panning {
            panning: single(a)?,
        },
        2 => {
            below(a, 2)?;
            Stage::Distortion {
                drive: decibels(b)?,
                mix: single(c)?,
            }
        }
        3 => {
            below(a, 4)?;
            Stage::Filter {
                g: f64::from_bits(b),
                resonance: f64::from_bits(c),
                mix: single(d)?,
            }
        }
        4 => {
            below(a, 3)?;
            Stage::Eq {
                g: f64::from_bits(b),
                gain: decibels(c)?,
                q: f64::from_bits(d),
            }
        }
        5 => Stage::Reverb(Reverb {
            feedback: single(a)?,
            damping: single(b)?,
            width: single(c)?,
            mix: single(d)?,
        }),
        6 => Stage::Delay(Delay {
            frames: u32::try_from(a).ok()?,
            feedback: decibels(b)?,
            mix: single(c)?,
            owned: d as usize,
        }),
        _ => return None,
    })
}

// 101: the first slice of a wrong length, among those that a function takes.
pub fn wrong_length(
    words: usize,
    positions: usize,
    floats: usize,
    progress: usize,
) -> Option<Refusal> {
    let wrong = [
        words % WORDS != 0,
        positions != ALL_POSITIONS,
        floats != ALL_FLOATS,
        progress != PLACES,
    ];
    let place = wrong.iter().position(|&is_wrong| is_wrong)?;
    Some(Refusal { number: 101, place })
}

// The stages, or 102 and the first place that has no meaning.
pub fn stages(words: &[u64]) -> Result<Vec<Stage>, Refusal> {
    let each = words.chunks_exact(WORDS).enumerate();
    each.map(|(place, words)| {
        let words = words.try_into().expect("a stage's words");
        stage(words).ok_or(Refusal { number: 102, place })
    })
    .collect()
}
