// Cases that are listed and not left to chance: each kind and mode at each depth, each limit of a setting
// at the number itself and at the next one on both sides, counts of stages, lengths of blocks, rates. Most
// of what they hold is drawn.
use crate::case::{Call, Case, Listed, What};
use crate::common::Random;
use crate::face::Held;
use crate::fed;
use crate::inputs::{DOUBLES, QS, SINGLES, audible, sample};
use crate::stage::Stage;
use crate::table::{ALL_FLOATS, ALL_POSITIONS, Delay, PLACES, POSITIONS, Reverb};

// The limits 24, -24 and -59, and what lies next to them and to -60.
const LEVELS: [i32; 14] = [
    i32::MIN,
    -61,
    -60,
    -59,
    -58,
    -25,
    -24,
    -23,
    0,
    23,
    24,
    25,
    1000,
    i32::MAX,
];

// The limits 0 and 1, and what lies next to them.
const UNITS: [f32; 10] = [
    0.0,
    -0.0,
    0.0f32.next_up(),
    0.0f32.next_down(),
    1.0,
    1.0f32.next_down(),
    1.0f32.next_up(),
    -1.0,
    f32::INFINITY,
    f32::NAN,
];

// ---- stages

pub fn volume(volume: i32) -> Listed {
    Listed::Alone(Stage::Volume { volume })
}

pub fn panning(panning: f32) -> Listed {
    Listed::Alone(Stage::Panning { panning })
}

pub fn distortion(kind: usize, drive: i32, mix: f32) -> Listed {
    let kind = kind as u32 % 2;
    Listed::Alone(Stage::Distortion { kind, drive, mix })
}

pub fn filter(mode: usize, key: u64, resonance: f64, mix: f32) -> Listed {
    Listed::Alone(Stage::Filter {
        mode: mode as u32 % 4,
        key,
        resonance,
        mix,
    })
}

pub fn eq(kind: usize, key: u64, gain: i32, q: f64) -> Listed {
    let kind = kind as u32 % 3;
    Listed::Alone(Stage::Eq { kind, key, q, gain })
}

pub fn reverb(feedback: f32, damping: f32, width: f32, mix: f32) -> Listed {
    Listed::Reverb(Reverb {
        feedback,
        damping,
        width,
        mix,
    })
}

pub fn delay(frames: u32, feedback: i32, mix: f32, owned: usize) -> Listed {
    Listed::Delay(Delay {
        frames,
        feedback,
        mix,
        owned,
    })
}

// Each kind and mode, with settings from inside their ranges.
fn kinds(random: &mut Random) -> Vec<Listed> {
    let mut list = vec![
        volume(random.between(-59, 24)),
        panning(audible(random)),
        reverb(
            random.unit() as f32,
            random.unit() as f32,
            random.unit() as f32,
            random.unit() as f32,
        ),
        delay(
            random.between(1, 4) as u32,
            random.between(-20, 3),
            random.unit() as f32,
            0,
        ),
    ];
    for kind in 0..2 {
        list.push(distortion(
            kind,
            random.between(-20, 24),
            random.unit() as f32,
        ));
    }
    for mode in 0..4 {
        let key = random.next() >> 16;
        list.push(filter(mode, key, random.unit(), random.unit() as f32));
    }
    for kind in 0..3 {
        let key = random.next() >> 16;
        list.push(eq(
            kind,
            key,
            random.between(-24, 24),
            0.1 + 2.0 * random.unit(),
        ));
    }
    list
}

// Each setting at and past its limits, the others plain. Those of g are among the keys of fed.rs.
fn settings() -> Vec<Listed> {
    let mut list = vec![];
    list.extend(LEVELS.map(volume));
    list.extend(LEVELS.map(|level| distortion(level as usize, level, 0.5)));
    list.extend(LEVELS.map(|level| eq(level as usize, 7, level, 0.7)));
    list.extend(LEVELS.map(|level| delay(1, level, 0.5, 0)));
    list.extend(SINGLES.map(panning));
    list.extend((0..2).flat_map(|kind| SINGLES.map(|mix| distortion(kind, 6, mix))));
    list.extend((0..4).flat_map(|mode| SINGLES.map(|mix| filter(mode, 6, 0.5, mix))));
    list.extend(SINGLES.map(|mix| reverb(0.9, 0.1, 1.0, mix)));
    list.extend(SINGLES.map(|mix| delay(2, -3, mix, 0)));
    list.extend((0..4).flat_map(|mode| DOUBLES.map(|x| filter(mode, 7, x, 0.75))));
    list.extend((0..3).flat_map(|kind| QS.map(|q| eq(kind, 6, 6, q))));
    for key in 0..fed::EDGES.len() as u64 {
        list.extend((0..4).map(|mode| filter(mode, key, 0.3, 1.0)));
        list.extend((0..3).map(|kind| eq(kind, key, -7, 1.0)));
    }
    list.extend(UNITS.map(|x| reverb(x, 0.1, 1.0, 0.5)));
    list.extend(UNITS.map(|x| reverb(0.9, x, 1.0, 0.5)));
    list.extend(UNITS.map(|x| reverb(0.9, 0.1, x, 0.5)));
    let frames = [0, 1, 2, 8_192, 8_193, 479_999, 480_000, 480_001, u32::MAX];
    list.extend(frames.map(|frames| delay(frames, -6, 0.5, 0)));
    let owned = [1, 15, 16, 1 << 32, 1 << 63, usize::MAX - 1, usize::MAX];
    list.extend(owned.map(|owned| delay(1, -6, 0.5, owned)));
    list
}

// ---- cases

// Each top stage is run on each frame, from a progress of 0 on. The store is as long as is needed, where
// a record has room for that, and all is 0.
pub fn silent(rate: u32, stages: Vec<Listed>, samples: usize) -> Case {
    let needed: usize = stages.iter().map(|stage| stage.floats(rate)).sum();
    let mut case = Case {
        rate,
        stages,
        loose: 0,
        held: Held {
            samples: vec![0.0; samples],
            positions: vec![0; ALL_POSITIONS],
            floats: vec![0.0; ALL_FLOATS],
            store: vec![0.0; needed.min(16_384)],
            progress: vec![0; PLACES],
        },
        calls: vec![Call {
            block: None,
            what: What::Start,
            at_once: 0,
        }],
    };
    let tops = case.tops().len();
    let steps = tops * (samples / 2);
    case.calls[0].what = What::Run((0..steps.min(64)).map(|i| i % tops).collect());
    case
}

// The same, with something in every place.
fn case(random: &mut Random, rate: u32, stages: Vec<Listed>, samples: usize) -> Case {
    let mut case = silent(rate, stages, samples);
    let held = &mut case.held;
    held.samples.fill_with(|| audible(random));
    held.floats.fill_with(|| sample(random));
    held.store.fill_with(|| sample(random));
    for (place, stage) in case.stages.iter().take(PLACES).enumerate() {
        let lines = stage.read().map_or(vec![], |stage| stage.lines(rate));
        for (line, &length) in lines.iter().enumerate() {
            let at = random.below(length as u64) as usize;
            held.positions[POSITIONS * place + line] = at;
        }
    }
    case.calls[0].at_once = random.one_of(&[0, 1, 4_096]);
    case
}

// A stage inside so many delays.
fn nested(random: &mut Random, stage: Listed, depth: usize) -> Vec<Listed> {
    let outer = (0..depth).map(|i| {
        let frames = random.between(1, 3) as u32;
        delay(frames, random.between(-9, 0), 0.5, depth - i)
    });
    let outer: Vec<Listed> = outer.collect();
    outer.into_iter().chain([stage]).collect()
}

fn depths(random: &mut Random, cases: &mut Vec<Case>) {
    for depth in 0..=4 {
        for _ in 0..4 {
            for stage in kinds(random) {
                let stages = nested(random, stage, depth);
                let frames = random.between(1, 3) as usize;
                cases.push(case(random, 8_000, stages, 2 * frames));
            }
        }
    }
}

fn counts(random: &mut Random, cases: &mut Vec<Case>) {
    for count in 0..=18 {
        let stages = (0..count).map(|i| volume(-i)).collect();
        cases.push(case(random, 44_100, stages, 2));
    }
}

fn blocks(random: &mut Random, cases: &mut Vec<Case>) {
    for samples in [0, 1, 2, 3, 8_189, 8_190, 8_191, 8_192, 8_193, 8_194] {
        for stage in [delay(3, -6, 0.5, 0), filter(0, 6, 0.5, 1.0)] {
            let mut case = case(random, 48_000, vec![stage, volume(-6)], samples);
            cases.push(case.clone());
            // of the last frame, and past it
            let frames = samples / 2;
            for done in [frames.saturating_sub(1), frames, frames + 1] {
                case.held.progress[..2].fill(done);
                case.held.progress[1] = done.saturating_sub(1);
                for order in [vec![], vec![0], vec![1], vec![0, 1], vec![2]] {
                    case.calls[0].what = What::Run(order);
                    cases.push(case.clone());
                }
            }
        }
    }
}

fn rates(random: &mut Random, cases: &mut Vec<Case>) {
    for rate in [
        0,
        1,
        7_999,
        8_000,
        8_001,
        191_999,
        192_000,
        192_001,
        u32::MAX,
    ] {
        cases.push(case(random, rate, vec![panning(-0.3)], 2));
    }
    for rate in [8_000, 11_025, 16_000, 22_050] {
        let stages = vec![reverb(0.8, 0.3, 0.7, 0.4)];
        cases.push(case(random, rate, stages, 4));
    }
}

// The functions other than `run`.
pub const OTHERS: [What; 3] = [What::Render, What::Start, What::FloatsNeeded];

fn others(random: &mut Random, cases: &mut Vec<Case>) {
    for what in OTHERS {
        for rate in [7_999, 8_000, 192_000, 192_001] {
            let mut case = case(random, rate, vec![delay(2, -6, 0.5, 0)], 4);
            case.calls[0].what = what.clone();
            cases.push(case);
        }
        for stage in kinds(random) {
            let stages = nested(random, stage, 1);
            let mut case = case(random, 8_000, stages, 4);
            case.calls[0].what = what.clone();
            cases.push(case);
        }
    }
    for rate in [8_000, 11_025, 22_050, 44_100, 48_000, 96_000, 192_000] {
        let mut case = silent(rate, vec![reverb(0.9, 0.1, 1.0, 0.5)], 0);
        case.calls[0].what = What::FloatsNeeded;
        cases.push(case);
    }
}

pub fn cases(random: &mut Random) -> Vec<Case> {
    let mut cases = vec![];
    depths(random, &mut cases);
    for stage in settings() {
        cases.push(case(random, 8_000, vec![stage], 2));
    }
    counts(random, &mut cases);
    blocks(random, &mut cases);
    rates(random, &mut cases);
    others(random, &mut cases);
    cases
}
