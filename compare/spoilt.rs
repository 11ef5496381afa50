// What can be wrong with a call, or lie at an edge: each of these changes one thing of a case that was
// accepted. Several at once show which refusal comes first.
use crate::case::{Case, Listed, What};
use crate::common::Random;
use crate::drawn;
use crate::inputs::{DOUBLES, QS, SINGLES, key};
use crate::rates::Rates;
use crate::stage::Stage;
use crate::table::{self, Delay};
use crate::words::WORDS;

const LEVELS: [i32; 12] = [
    -61,
    -60,
    -59,
    -25,
    -24,
    0,
    24,
    25,
    26,
    1000,
    i32::MAX,
    i32::MIN,
];

fn level(random: &mut Random) -> i32 {
    random.one_of(&LEVELS)
}

fn single(random: &mut Random) -> f32 {
    match random.below(4) {
        0 => random.any_f32(),
        _ => random.one_of(&SINGLES),
    }
}

fn any_place(random: &mut Random, length: usize) -> Option<usize> {
    (length > 0).then(|| random.below(length as u64) as usize)
}

fn rate(random: &mut Random, case: &mut Case) {
    let edges = [7_999, 8_000, 192_000, 192_001, 0, 1, 44_100, u32::MAX];
    case.rate = random.one_of(&edges);
}

fn many_stages(random: &mut Random, case: &mut Case) {
    let count = random.between(15, 19) as usize;
    while case.stages.len() < count {
        let stage = Stage::Volume { volume: 0 };
        case.stages.push(Listed::Alone(stage));
    }
}

fn owned(random: &mut Random, case: &mut Case) {
    let Some(place) = any_place(random, case.stages.len()) else {
        return;
    };
    let count = case.stages.len();
    let owned = match random.below(4) {
        0 => random.one_of(&[
            usize::MAX,
            usize::MAX - 1,
            usize::MAX - place,
            1 << 63,
            1 << 32,
        ]),
        1 => count - 1 - place,
        2 => count - place,
        _ => random.below(20) as usize,
    };
    match &mut case.stages[place] {
        Listed::Delay(delay) => delay.owned = owned,
        other => {
            // its line is the store's next float pair, and all later lines move
            *other = Listed::Delay(Delay {
                frames: 1,
                feedback: 0,
                mix: 0.5,
                owned,
            });
            if let Some(position) = case.held.positions.get_mut(table::POSITIONS * place) {
                *position = 0;
            }
        }
    }
    refill(case);
}

// As much store as is needed, so that something else decides.
fn refill(case: &mut Case) {
    let floats = case.stages.iter().map(|stage| stage.floats(case.rate));
    let needed: usize = floats.sum();
    if needed < 1 << 20 {
        case.held.store.resize(needed, 0.5);
    }
}

fn spoil_alone(random: &mut Random, stage: &mut Stage) {
    match stage {
        Stage::Volume { volume } => *volume = level(random),
        Stage::Panning { panning } => *panning = single(random),
        Stage::Distortion { drive, mix, .. } => match random.below(2) {
            0 => *drive = level(random),
            _ => *mix = single(random),
        },
        Stage::Filter {
            key: of,
            resonance,
            mix,
            ..
        } => match random.below(3) {
            0 => *of = key(random),
            1 => *resonance = random.one_of(&DOUBLES),
            _ => *mix = single(random),
        },
        Stage::Eq {
            key: of, q, gain, ..
        } => match random.below(3) {
            0 => *of = key(random),
            1 => *q = random.one_of(&QS),
            _ => *gain = level(random),
        },
    }
}

fn setting(random: &mut Random, case: &mut Case) {
    let Some(place) = any_place(random, case.stages.len()) else {
        return;
    };
    match &mut case.stages[place] {
        Listed::Alone(stage) => spoil_alone(random, stage),
        Listed::Reverb(r) => {
            let settings = [&mut r.feedback, &mut r.damping, &mut r.width, &mut r.mix];
            let which = random.below(4) as usize;
            *settings.into_iter().nth(which).expect("below 4") = single(random);
        }
        Listed::Delay(delay) => match random.below(3) {
            0 => {
                let edges = [0, 1, 480_000, 480_001, u32::MAX];
                delay.frames = random.one_of(&edges);
            }
            1 => delay.feedback = level(random),
            _ => delay.mix = single(random),
        },
        Listed::Words(_) => {}
    }
}

fn store(random: &mut Random, case: &mut Case) {
    let floats = case.stages.iter().map(|stage| stage.floats(case.rate));
    let needed = floats.sum::<usize>().min(1 << 20);
    let length = match random.below(4) {
        0 => needed.saturating_sub(1),
        1 => needed,
        2 => needed + 1,
        _ => random.below(needed as u64 + 1) as usize,
    };
    case.held.store.resize(length, -0.5);
}

fn position(random: &mut Random, case: &mut Case) {
    let Some(place) = any_place(random, case.stages.len().min(table::PLACES)) else {
        return;
    };
    let lines = match case.stages[place] {
        Listed::Delay(delay) => vec![delay.frames as usize],
        Listed::Reverb(_) => table::reverb_lines(case.rate).to_vec(),
        _ => vec![],
    };
    let line = random.below(table::POSITIONS as u64) as usize;
    let line = if lines.len() == 1 { line % 2 } else { line };
    let length = lines.get(line).copied().unwrap_or(7);
    let at = random.one_of(&[
        length,
        length.wrapping_sub(1),
        length.wrapping_add(1),
        usize::MAX,
    ]);
    if let Some(own) = case.held.positions.get_mut(table::POSITIONS * place + line) {
        *own = at;
    }
}

fn odd_samples(_: &mut Random, case: &mut Case) {
    case.held.samples.push(0.25);
}

fn many_frames(random: &mut Random, case: &mut Case) {
    // most cases are short, so that many can be judged
    if random.below(4) == 0 {
        let length = random.between(8_191, 8_195) as usize;
        case.held.samples.resize(length, 0.125);
    }
}

fn progress(random: &mut Random, case: &mut Case) {
    let frames = case.held.samples.len() / 2;
    let Some(k) = any_place(random, case.tops().len().min(table::PLACES)) else {
        return;
    };
    if k >= case.held.progress.len() {
        return;
    }
    let before = case.held.progress[k.saturating_sub(1)];
    let edges = [
        frames,
        frames + 1,
        before,
        before.wrapping_add(1),
        0,
        usize::MAX,
    ];
    case.held.progress[k] = random.one_of(&edges);
}

fn sample(random: &mut Random, case: &mut Case) {
    if let Some(at) = any_place(random, case.held.samples.len()) {
        case.held.samples[at] = random.one_of(&[
            f32::NAN,
            f32::INFINITY,
            f32::NEG_INFINITY,
            f32::MAX,
            f32::from_bits(0xffff_ffff),
        ]);
    }
}

fn entry(random: &mut Random, case: &mut Case) {
    let tops = case.tops().len();
    let mut named = || match random.below(4) {
        0 => random.one_of(&[tops, tops + 1, table::PLACES, usize::MAX]),
        _ => random.below(tops as u64 + 1) as usize,
    };
    let (added, kept) = (named(), named());
    if let What::Run(order) = &mut case.calls[0].what {
        match random.below(3) {
            0 => order.push(added),
            1 => order.insert(random.below(order.len() as u64 + 1) as usize, added),
            _ => {
                if let Some(at) = any_place(random, order.len()) {
                    order[at] = kept;
                }
            }
        }
    }
}

fn length(random: &mut Random, case: &mut Case) {
    let up = random.below(2) == 0;
    let changed = |length: usize| if up { length + 1 } else { length - 1 };
    let held = &mut case.held;
    match random.below(5) {
        0 => case.loose = random.between(1, WORDS as i32 - 1) as usize,
        1 => held.positions.resize(changed(table::ALL_POSITIONS), 0),
        2 => held.floats.resize(changed(table::ALL_FLOATS), 0.0),
        3 => held.progress.resize(changed(table::PLACES), 0),
        _ => held.positions.clear(),
    }
}

// A word that its type cannot hold, an unknown code, or any.
fn word(random: &mut Random, case: &mut Case) {
    let Some(place) = any_place(random, case.stages.len()) else {
        return;
    };
    let mut words = case.stages[place].words();
    let at = random.below(5) as usize;
    words[at] = match random.below(8) {
        0 => random.next(),
        1 => words[at] | 1 << random.between(32, 63),
        2 => random.below(9),
        3 => 1 << 31,
        4 => (1 << 31) - 1,
        5 => (i32::MIN as i64 - 1) as u64,
        6 => i32::MIN as i64 as u64,
        _ => 1 << 32,
    };
    case.stages[place] = Listed::Words(words);
}

// A bit in a word that few kinds use, or none.
fn unused_word(random: &mut Random, case: &mut Case) {
    let Some(place) = any_place(random, case.stages.len()) else {
        return;
    };
    let mut words = case.stages[place].words();
    words[random.between(2, WORDS as i32 - 1) as usize] |= 1 << random.below(64);
    case.stages[place] = Listed::Words(words);
}

const SPOILERS: [fn(&mut Random, &mut Case); 16] = [
    rate,
    many_stages,
    owned,
    owned,
    setting,
    setting,
    store,
    position,
    odd_samples,
    many_frames,
    progress,
    sample,
    entry,
    length,
    word,
    unused_word,
];

// A case of one call, short, with up to three things changed.
pub fn case(random: &mut Random, rates: &Rates) -> Case {
    let mut case = drawn::short_case(random, rates);
    match random.below(8) {
        0 => case.calls[0].what = What::Start,
        1 => case.calls[0].what = What::FloatsNeeded,
        2 => case.calls[0].what = What::Render,
        _ => {}
    }
    for _ in 0..random.one_of(&[0, 1, 1, 1, 1, 2, 2, 3]) {
        random.one_of(&SPOILERS)(random, &mut case);
    }
    // a reverb that kira has with other lines
    let has_reverb = case.stages.iter().any(|s| matches!(s, Listed::Reverb(_)));
    if has_reverb && rates.differ(case.rate) {
        case.rate = 8_000;
    }
    case
}
