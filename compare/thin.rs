// Makes what a case holds mostly zero, so that its record is short: what its call reads or refuses stays
// for the most part.
use crate::case::{Call, Case, What};
use crate::common::Random;
use crate::record::LARGEST;
use crate::table::{COMB_FLOATS, PLACES, POSITIONS};
use std::collections::HashSet;

// A block of more samples is silent but for its ends, each of so many.
const BLOCK: usize = 64;
const END: usize = 4;

fn one_in(random: &mut Random, n: u64) -> bool {
    random.below(n) == 0
}

// A number that is a unit.
fn round(number: &mut usize) {
    if *number >= LARGEST {
        *number = usize::MAX;
    }
}

// A NaN is one of the NaNs.
fn floats(random: &mut Random, floats: &mut [f32], is_kept: impl Fn(&mut Random, usize) -> bool) {
    for (at, x) in floats.iter_mut().enumerate() {
        if x.to_bits() != 0 && !is_kept(random, at) {
            *x = 0.0;
        }
        if x.is_nan() {
            *x = f32::NAN;
        }
    }
}

// How many positions each line of each stage has.
fn lines(case: &Case) -> Vec<Vec<usize>> {
    let lines = case.stages.iter().take(PLACES);
    let lines = lines.map(|s| s.read().map_or(vec![], |stage| stage.lines(case.rate)));
    lines.collect()
}

// The floats of the store that the next frames read, with half of a reverb's lines.
fn read_soon(random: &mut Random, case: &Case) -> HashSet<usize> {
    let frames = (case.held.samples.len() / 2).min(4);
    let (mut soon, mut start) = (HashSet::new(), 0);
    for (place, lines) in lines(case).iter().enumerate() {
        let wide = if lines.len() == 1 { 2 } else { 1 };
        for (line, &length) in lines.iter().enumerate() {
            let own = case.held.positions.get(POSITIONS * place + line);
            let at = own.copied().unwrap_or(0);
            if length > 0 && (wide == 2 || one_in(random, 2)) {
                for i in 0..frames {
                    let from = start + wide * ((at % length + i) % length);
                    soon.extend(from..from + wide);
                }
            }
            start += wide * length;
        }
    }
    soon
}

// Whether a stage of this kind uses this one of its place's floats.
fn uses(kind: u64, float: usize) -> bool {
    match kind {
        3 | 4 => float >= COMB_FLOATS,
        5 => float < COMB_FLOATS,
        _ => false,
    }
}

fn positions(random: &mut Random, case: &mut Case) {
    let lines = lines(case);
    for (at, position) in case.held.positions.iter_mut().enumerate() {
        let of = lines.get(at / POSITIONS).map_or(0, |lines| lines.len());
        if at % POSITIONS >= of && !one_in(random, 256) {
            *position = 0;
        }
        round(position);
    }
}

pub fn thin(random: &mut Random, case: &mut Case) {
    positions(random, case);
    let soon = read_soon(random, case);
    let kinds: Vec<u64> = case.stages.iter().map(|stage| stage.words()[0]).collect();
    let tops = case.tops().len();
    let held = &mut case.held;
    floats(random, &mut held.store, |random, at| {
        soon.contains(&at) || one_in(random, 4096)
    });
    floats(random, &mut held.floats, |random, at| {
        let is_used = kinds.get(at / 20).is_some_and(|&kind| uses(kind, at % 20));
        is_used && !one_in(random, 3) || one_in(random, 256)
    });
    let samples = held.samples.len();
    let is_finite: Vec<bool> = held.samples.iter().map(|x| x.is_finite()).collect();
    floats(random, &mut held.samples, |_, at| {
        samples <= BLOCK || at < END || at + END >= samples || !is_finite[at]
    });
    for (k, done) in held.progress.iter_mut().enumerate() {
        if k >= tops && !one_in(random, 32) {
            *done = 0;
        }
        round(done);
    }
    if let Call {
        what: What::Run(order),
        ..
    } = &mut case.calls[0]
    {
        order.iter_mut().for_each(round);
    }
}
