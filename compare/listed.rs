// Random lists of stages in each other, with settings across their ranges, and a rate for them.
use crate::case::Listed;
use crate::common::Random;
use crate::fed;
use crate::inputs::{drive, gain, key, mix, panning, q, resonance, volume};
use crate::rates::Rates;
use crate::stage::Stage;
use crate::table::{Delay, Reverb};

fn until<T>(random: &mut Random, of: fn(&mut Random) -> T, is_fit: impl Fn(&T) -> bool) -> T {
    loop {
        let value = of(random);
        if is_fit(&value) {
            return value;
        }
    }
}

fn finite(random: &mut Random, of: fn(&mut Random) -> f32) -> f32 {
    until(random, of, |x| x.is_finite())
}

fn unit(random: &mut Random) -> f32 {
    match random.below(8) {
        0 => random.one_of(&[0.0, -0.0, 1.0, f32::from_bits(1), 1.0 - f32::EPSILON / 2.0]),
        _ => random.unit() as f32,
    }
}

// Louder than the input now and then, but mostly such that a long run does not end in infinities.
fn feedback(random: &mut Random) -> i32 {
    match random.below(4) {
        0 => volume(random),
        _ => random.between(-30, 0),
    }
}

// Short lines wrap often.
fn delay_frames(random: &mut Random) -> u32 {
    match random.below(4096) {
        0 => random.one_of(&[480_000, 479_999, 192_001]),
        1..16 => random.between(1_000, 20_000) as u32,
        16..256 => random.between(9, 400) as u32,
        _ => random.between(1, 8) as u32,
    }
}

fn tangent(random: &mut Random) -> u64 {
    until(random, key, |&key| {
        (1.0 / 8192.0..=1e17).contains(&fed::tangent(key))
    })
}

// A stage of one of the first six kinds.
fn stage(random: &mut Random) -> Listed {
    match random.below(11) {
        0 | 1 => Listed::Alone(Stage::Volume {
            volume: volume(random),
        }),
        2 | 3 => Listed::Alone(Stage::Panning {
            panning: finite(random, panning),
        }),
        4 | 5 => Listed::Alone(Stage::Distortion {
            kind: random.below(2) as u32,
            drive: until(random, drive, |drive| *drive > -60),
            mix: finite(random, mix),
        }),
        6 | 7 => Listed::Alone(Stage::Filter {
            mode: random.below(4) as u32,
            key: tangent(random),
            resonance: until(random, resonance, |x| x.is_finite()),
            mix: finite(random, mix),
        }),
        8 | 9 => Listed::Alone(Stage::Eq {
            kind: random.below(3) as u32,
            key: tangent(random),
            q: until(random, q, |q| (0.0..=1000.0).contains(q)),
            gain: gain(random),
        }),
        _ => Listed::Reverb(Reverb {
            feedback: unit(random),
            damping: unit(random),
            width: unit(random),
            mix: finite(random, mix),
        }),
    }
}

fn delay(random: &mut Random, owned: usize) -> Listed {
    Listed::Delay(Delay {
        frames: delay_frames(random),
        feedback: feedback(random),
        mix: finite(random, mix),
        owned,
    })
}

// So many stages, the first of them at this depth.
fn span(random: &mut Random, room: usize, depth: usize, list: &mut Vec<Listed>) {
    let mut left = room;
    while left > 0 {
        if random.below(3) > 0 {
            list.push(stage(random));
            left -= 1;
            continue;
        }
        let owned = match depth {
            0..3 => random.below(left as u64) as usize,
            _ => 0,
        };
        list.push(delay(random, owned));
        span(random, owned, depth + 1, list);
        left -= 1 + owned;
    }
}

pub fn list(random: &mut Random, stages: usize) -> Vec<Listed> {
    let mut list = vec![];
    span(random, stages, 0, &mut list);
    list
}

// With a reverb, mostly a low rate: its lines are short then.
pub fn rate(random: &mut Random, rates: &Rates, list: &[Listed]) -> u32 {
    let has_reverb = list.iter().any(|s| matches!(s, Listed::Reverb(_)));
    loop {
        let usual = [8_000, 11_025, 22_050, 44_100, 48_000, 96_000, 192_000];
        let rate = match random.below(32) {
            0 => random.one_of(&usual),
            1 => random.between(8_000, 192_000) as u32,
            _ if has_reverb => random.between(8_000, 8_400) as u32,
            _ => random.between(8_000, 192_000) as u32,
        };
        if !has_reverb || !rates.differ(rate) {
            return rate;
        }
    }
}
