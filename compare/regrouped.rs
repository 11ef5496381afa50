// Wrong ways to work out a filter or an EQ, each of which random inputs could miss: the same numbers
// in another order, or rounded at another place. `step` is one channel of kira's filter and EQ,
// written out once more, with at most one such change; directed.rs has inputs at which each change
// shows in the f32 results, and `search` found them.
use crate::common::{Random, bits32};
use crate::fed;
use crate::linked::sedhavil_eq_amplitude;
use crate::stage::Stage;

#[derive(Clone, Copy, Debug, PartialEq)]
pub enum Change {
    // as kira has it
    None,
    // 1 / (1 + (g * g + g * k)), not 1 / (1 + g * (g + k))
    A1Spread,
    // g / (1 + g * (g + k)), not g * a1
    A2Divided,
    // (g * g) * a1, not g * (g * a1)
    A3Squared,
    // a1 narrowed before a2 and a3 are worked out from it
    A1NarrowedEarly,
    // v1 with one rounding fewer, as by a fused multiplication and addition
    V1Fused,
    // ic2eq + (ic1eq * a2 + v3 * a3), not (ic2eq + ic1eq * a2) + v3 * a3
    V2Regrouped,
    // x - (v1 * k + v2), not (x - v1 * k) - v2
    HighPassRegrouped,
    // the filter's k worked out in f32
    KNarrowedEarly,
    // x * m0 + (v1 * m1 + v2 * m2), not (x * m0 + v1 * m1) + v2 * m2
    OutputRegrouped,
    // (1 / q) / a, not 1 / (q * a)
    BellKDivided,
    // k * (a * a) - k, not k * (a * a - 1)
    BellM1Spread,
    // v2 * 0 left out
    BellM2Dropped,
    // g * (1 / sqrt(a)), not g / sqrt(a)
    LowShelfRootInverted,
    // k * ((1 - a) * a), not (k * (1 - a)) * a
    HighShelfM1Regrouped,
}

pub const CHANGES: [Change; 14] = [
    Change::A1Spread,
    Change::A2Divided,
    Change::A3Squared,
    Change::A1NarrowedEarly,
    Change::V1Fused,
    Change::V2Regrouped,
    Change::HighPassRegrouped,
    Change::KNarrowedEarly,
    Change::OutputRegrouped,
    Change::BellKDivided,
    Change::BellM1Spread,
    Change::BellM2Dropped,
    Change::LowShelfRootInverted,
    Change::HighShelfM1Regrouped,
];

// A stage and one channel: the sample, and the two that are remembered.
#[derive(Clone, Copy, Debug)]
pub struct Directed {
    pub change: Change,
    pub stage: Stage,
    pub x: f32,
    pub ic1eq: f32,
    pub ic2eq: f32,
}

pub const fn filter(
    change: Change,
    mode: u32,
    key: u64,
    resonance: f64,
    channel: [f32; 3],
) -> Directed {
    let stage = Stage::Filter {
        mode,
        key,
        resonance,
        mix: 1.0,
    };
    directed(change, stage, channel)
}

pub const fn eq(
    change: Change,
    kind: u32,
    key: u64,
    q: f64,
    gain: i32,
    channel: [f32; 3],
) -> Directed {
    directed(change, Stage::Eq { kind, key, q, gain }, channel)
}

const fn directed(change: Change, stage: Stage, [x, ic1eq, ic2eq]: [f32; 3]) -> Directed {
    Directed {
        change,
        stage,
        x,
        ic1eq,
        ic2eq,
    }
}

fn weights(change: Change, g: f64, k: f64) -> [f64; 3] {
    let sum = match change {
        Change::A1Spread => 1.0 + (g * g + g * k),
        _ => 1.0 + g * (g + k),
    };
    let a1 = 1.0 / sum;
    let next = match change {
        Change::A1NarrowedEarly => a1 as f32 as f64,
        _ => a1,
    };
    let a2 = match change {
        Change::A2Divided => g / sum,
        _ => g * next,
    };
    let a3 = match change {
        Change::A3Squared => g * g * a1,
        _ => g * a2,
    };
    [a1, a2, a3]
}

// a1, a2, a3; then m0, m1 and m2 of an EQ, or k and nothing of a filter
fn coefficients(change: Change, stage: Stage) -> [f64; 6] {
    match stage {
        Stage::Filter { key, resonance, .. } => {
            let clamped = resonance.clamp(0.0, 1.0);
            let k = match change {
                Change::KNarrowedEarly => (2.0 - 1.9 * clamped as f32) as f64,
                _ => 2.0 - 1.9 * clamped,
            };
            let [a1, a2, a3] = weights(change, fed::tangent(key), k);
            [a1, a2, a3, k, 0.0, 0.0]
        }
        Stage::Eq { kind, key, q, gain } => {
            let (g, q, a) = (fed::tangent(key), q.max(0.01), sedhavil_eq_amplitude(gain));
            let root = a.sqrt();
            let (g, k) = match (kind, change) {
                (0, Change::BellKDivided) => (g, 1.0 / q / a),
                (0, _) => (g, 1.0 / (q * a)),
                (1, Change::LowShelfRootInverted) => (g * (1.0 / root), 1.0 / q),
                (1, _) => (g / root, 1.0 / q),
                _ => (g * root, 1.0 / q),
            };
            let [m0, m1, m2] = match (kind, change) {
                (0, Change::BellM1Spread) => [1.0, k * (a * a) - k, 0.0],
                (0, _) => [1.0, k * (a * a - 1.0), 0.0],
                (1, _) => [1.0, k * (a - 1.0), a * a - 1.0],
                (_, Change::HighShelfM1Regrouped) => [a * a, k * ((1.0 - a) * a), 1.0 - a * a],
                _ => [a * a, k * (1.0 - a) * a, 1.0 - a * a],
            };
            let [a1, a2, a3] = weights(change, g, k);
            [a1, a2, a3, m0, m1, m2]
        }
        _ => panic!("no filter"),
    }
}

// The sample that comes out, and the two that are remembered.
pub fn step(change: Change, input: &Directed) -> [f32; 3] {
    let [a1, a2, a3, m0, m1, m2] = coefficients(change, input.stage).map(|c| c as f32);
    let (x, ic1eq, ic2eq) = (input.x, input.ic1eq, input.ic2eq);
    let v3 = x - ic2eq;
    let v1 = match change {
        Change::V1Fused => v3.mul_add(a2, ic1eq * a1),
        _ => ic1eq * a1 + v3 * a2,
    };
    let v2 = match change {
        Change::V2Regrouped => ic2eq + (ic1eq * a2 + v3 * a3),
        _ => ic2eq + ic1eq * a2 + v3 * a3,
    };
    let output = match (input.stage, change) {
        (Stage::Filter { mode: 0, .. }, _) => v2,
        (Stage::Filter { mode: 1, .. }, _) => v1,
        (Stage::Filter { mode: 2, .. }, Change::HighPassRegrouped) => x - (v1 * m0 + v2),
        (Stage::Filter { mode: 2, .. }, _) => x - v1 * m0 - v2,
        (Stage::Filter { .. }, _) => x - v1 * m0,
        (_, Change::OutputRegrouped) => x * m0 + (v1 * m1 + v2 * m2),
        (Stage::Eq { kind: 0, .. }, Change::BellM2Dropped) => x * m0 + v1 * m1,
        _ => x * m0 + v1 * m1 + v2 * m2,
    };
    let mixed = match input.stage {
        Stage::Filter { .. } => output * 1.0 + x * 0.0,
        _ => output,
    };
    [mixed, v1 * 2.0 - ic1eq, v2 * 2.0 - ic2eq]
}

pub fn shows(input: &Directed) -> bool {
    step(input.change, input).map(bits32) != step(Change::None, input).map(bits32)
}

// ---- the search

// The stage with its resonance, or its q, at another place.
fn moved(stage: Stage, place: u64) -> Stage {
    let mut stage = stage;
    match &mut stage {
        Stage::Filter { resonance: p, .. } | Stage::Eq { q: p, .. } => *p = f64::from_bits(place),
        _ => {}
    }
    stage
}

fn random_stage(change: Change, random: &mut Random) -> Stage {
    // from 2^-13 to 2^8, where sums have digits to lose
    let key = loop {
        let key = random.next() >> 16;
        if fed::tangent(key) < 256.0 {
            break key;
        }
    };
    let is_filter = match change {
        Change::HighPassRegrouped | Change::KNarrowedEarly => true,
        Change::OutputRegrouped
        | Change::BellKDivided
        | Change::BellM1Spread
        | Change::BellM2Dropped
        | Change::LowShelfRootInverted
        | Change::HighShelfM1Regrouped => false,
        _ => random.below(2) == 0,
    };
    if is_filter {
        let mode = match change {
            Change::HighPassRegrouped => 2,
            _ => random.below(4) as u32,
        };
        return Stage::Filter {
            mode,
            key,
            resonance: unit(random),
            mix: 1.0,
        };
    }
    let kind = match change {
        Change::BellKDivided | Change::BellM1Spread | Change::BellM2Dropped => 0,
        Change::LowShelfRootInverted => 1,
        Change::HighShelfM1Regrouped => 2,
        _ => random.below(3) as u32,
    };
    let gain = match change {
        Change::BellM2Dropped => 0,
        _ => random.below(49) as i32 - 24,
    };
    let q = unit(random) * 10.0;
    Stage::Eq { kind, key, q, gain }
}

// from 0.001 to 1
fn unit(random: &mut Random) -> f64 {
    0.001 + 0.999 * (random.next() >> 11) as f64 / (1u64 << 53) as f64
}

fn channel(random: &mut Random) -> f32 {
    match random.below(8) {
        0 => -0.0,
        _ => (random.below(1 << 25) as f32 / (1 << 24) as f32) - 1.0,
    }
}

// Two neighbouring places of the parameter between which the coefficient `index`, narrowed, goes
// from one f32 to another, so that it lies next to a tie of the narrowing; the upper one.
fn tie(stage: Stage, index: usize, from: u64) -> Option<u64> {
    let narrowed =
        |place| (coefficients(Change::None, moved(stage, place))[index] as f32).to_bits();
    let (mut low, mut high) = (from, from + (1 << 32));
    if narrowed(low) == narrowed(high) {
        return None;
    }
    while 1 < high - low {
        let middle = low + (high - low) / 2;
        if narrowed(middle) == narrowed(low) {
            low = middle;
        } else {
            high = middle;
        }
    }
    Some(high)
}

pub fn find(change: Change, random: &mut Random) -> Directed {
    loop {
        let stage = random_stage(change, random);
        let (Stage::Filter { resonance: p, .. } | Stage::Eq { q: p, .. }) = stage else {
            continue;
        };
        let index = random.below(6) as usize;
        let Some(place) = tie(stage, index, p.to_bits()) else {
            continue;
        };
        for near in place - 4..place + 4 {
            let channel = [channel(random), channel(random), channel(random)];
            let input = directed(change, moved(stage, near), channel);
            if shows(&input) {
                return input;
            }
        }
    }
}

// Prints directed.rs.
pub fn search(each: usize) {
    println!("// Inputs at which a change of regrouped.rs shows. Printed by `effects --search`.");
    println!("use crate::regrouped::Change::*;");
    println!("use crate::regrouped::{{Directed, eq, filter}};\n");
    println!("#[rustfmt::skip]");
    let count = each * CHANGES.len();
    println!("pub const DIRECTED: [Directed; {count}] = [");
    let mut random = Random(0x5ed1_0021);
    for change in CHANGES {
        for _ in 0..each {
            print(&find(change, &mut random));
        }
    }
    println!("];");
}

fn print(input: &Directed) {
    let (change, channel) = (input.change, [input.x, input.ic1eq, input.ic2eq]);
    match input.stage {
        Stage::Filter {
            mode,
            key,
            resonance,
            ..
        } => println!("    filter({change:?}, {mode}, {key:#x}, {resonance:?}, {channel:?}),"),
        Stage::Eq { kind, key, q, gain } => {
            println!("    eq({change:?}, {kind}, {key:#x}, {q:?}, {gain}, {channel:?}),")
        }
        _ => panic!("no filter"),
    }
}
