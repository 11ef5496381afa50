// Cases that are listed with all that they hold: the inputs of directed.rs, mixes of both zeros, a half run
// block for each function, and what the flat face refuses before document 01's checks.
use crate::case::{Case, Listed, What};
use crate::directed::DIRECTED;
use crate::edges::{OTHERS, delay, distortion, eq, filter, panning, reverb, silent, volume};
use crate::table::{ALL_FLOATS, ALL_POSITIONS, COMB_FLOATS, FLOATS, PLACES};
use crate::words::{self, WORDS};

// The inputs of directed.rs, the same left and right.
fn directed() -> impl Iterator<Item = Case> {
    DIRECTED.iter().map(|input| {
        let mut case = silent(8_000, vec![Listed::Alone(input.stage)], 2);
        case.held.samples.fill(input.x);
        let (ic1eq, ic2eq) = (input.ic1eq, input.ic2eq);
        case.held.floats[COMB_FLOATS..FLOATS].copy_from_slice(&[ic1eq, ic1eq, ic2eq, ic2eq]);
        case
    })
}

// A mix of 0 and one of -0, on an input of -0: only the sign of a zero that comes out tells them apart.
fn zero_mixes() -> Vec<Case> {
    let of_mix = |mix: f32| {
        let mut stages = vec![reverb(0.9, 0.1, 1.0, mix), delay(1, 0, mix, 0)];
        stages.extend((0..2).map(|kind| distortion(kind, 6, mix)));
        stages.extend((0..4).map(|mode| filter(mode, 6, 0.5, mix)));
        stages
    };
    let stages = [0.0, -0.0].into_iter().flat_map(of_mix);
    let cases = stages.map(|stage| {
        let mut case = silent(8_000, vec![stage], 2);
        case.held.samples.fill(-0.0);
        case.held.floats[..FLOATS].fill(0.5);
        case.held.store.iter_mut().take(2).for_each(|x| *x = 0.5);
        case
    });
    cases.collect()
}

// A half run block of a delay, which owns a filter, and a volume, with something at the first and the last
// place of all that is held.
fn half_run(what: What) -> Case {
    let stages = vec![delay(2, -6, 0.5, 1), filter(0, 7, 0.5, 0.5), volume(-3)];
    let mut case = silent(44_100, stages, 4);
    let held = &mut case.held;
    held.samples = vec![0.5, -0.25, 0.75, -1.0];
    held.store = vec![0.125, 0.25, -0.375, 0.5, -0.625, 0.75];
    (held.positions[0], held.positions[ALL_POSITIONS - 1]) = (1, 7);
    held.floats[0] = 0.875;
    held.floats[FLOATS + COMB_FLOATS..2 * FLOATS].copy_from_slice(&[0.1, -0.2, 0.3, -0.4]);
    held.floats[ALL_FLOATS - 1] = -0.875;
    (held.progress[0], held.progress[PLACES - 1]) = (1, 9);
    case.calls[0].what = what;
    case
}

// The half run block for each function, and for orders that are refused at their end.
pub fn half_runs() -> Vec<Case> {
    let orders = [vec![1, 0, 1], vec![0, 0], vec![0, 2]].map(What::Run);
    orders.into_iter().chain(OTHERS).map(half_run).collect()
}

// Slices one shorter and one longer than they must be, for each function.
fn lengths() -> Vec<Case> {
    let spoil: [fn(&mut Case); 9] = [
        |case| case.loose = 1,
        |case| case.loose = WORDS - 1,
        |case| case.held.positions.truncate(ALL_POSITIONS - 1),
        |case| case.held.positions.push(0),
        |case| case.held.positions.clear(),
        |case| case.held.floats.truncate(ALL_FLOATS - 1),
        |case| case.held.floats.push(0.0),
        |case| case.held.progress.truncate(PLACES - 1),
        |case| case.held.progress.push(0),
    ];
    let mut cases = vec![];
    for case in half_runs() {
        cases.extend(spoil.iter().map(|spoil| {
            let mut case = case.clone();
            spoil(&mut case);
            case
        }));
    }
    cases
}

// Words next to those that are stages: a word past its type or its cases, and a word that is not used and
// not 0.
fn odd_words() -> Vec<Case> {
    let plain = [
        volume(0),
        panning(0.5),
        distortion(0, 0, 0.5),
        filter(0, 6, 0.5, 0.5),
        eq(0, 6, 0, 1.0),
        reverb(0.9, 0.1, 1.0, 0.5),
        delay(1, 0, 0.5, 0),
    ];
    let past = [
        1,
        2,
        3,
        4,
        7,
        1 << 31,
        (i32::MIN as i64 - 1) as u64,
        1 << 32,
        u64::MAX,
    ];
    let mut cases = vec![];
    for stage in plain {
        for (at, word) in (0..WORDS).flat_map(|at| past.map(|word| (at, word))) {
            let mut words = stage.words();
            let is_used = at < words::used(words[0]);
            words[at] = word;
            if words::stage(words).is_none() && (is_used || word == 1) {
                let stages = vec![volume(0), Listed::Words(words)];
                cases.push(silent(8_000, stages, 2));
            }
        }
    }
    cases
}

pub fn cases() -> Vec<Case> {
    let mut cases: Vec<Case> = directed().collect();
    cases.extend(zero_mixes());
    cases.extend(half_runs());
    cases.extend(lengths());
    cases.extend(odd_words());
    cases
}
