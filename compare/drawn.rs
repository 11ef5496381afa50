// Random cases that are accepted: a list of stages, what lines and memories hold at entry, blocks, and
// orders of steps.
use crate::case::{Call, Case, Listed, What};
use crate::common::Random;
use crate::face::Held;
use crate::inputs::{audible, sample};
use crate::listed::{list, rate};
use crate::rates::Rates;
use crate::table;

// ---- what is held

// What lines, memories and samples are drawn from.
#[derive(Clone, Copy)]
enum Air {
    Silent,
    Audible,
    // now and then a number of any kind
    Spotted,
    Wild,
}

fn air(random: &mut Random) -> Air {
    random.one_of(&[
        Air::Silent,
        Air::Audible,
        Air::Audible,
        Air::Spotted,
        Air::Spotted,
        Air::Wild,
    ])
}

fn float(random: &mut Random, air: Air) -> f32 {
    match air {
        Air::Silent => 0.0,
        Air::Audible => audible(random),
        Air::Spotted if random.below(64) > 0 => audible(random),
        _ => sample(random),
    }
}

// Long lines hold the same 997 over and over: drawing each would take longer than comparing them.
fn floats(random: &mut Random, count: usize) -> Vec<f32> {
    let air = air(random);
    let drawn: Vec<f32> = (0..count.min(997)).map(|_| float(random, air)).collect();
    drawn.iter().copied().cycle().take(count).collect()
}

// Finite samples, in some blocks so loud that stages overflow, or so soft that they are subnormal.
fn block(random: &mut Random, frames: usize) -> Vec<f32> {
    let air = air(random);
    let scale = match random.below(8) {
        0 => 2.0f32.powi(random.between(-140, 127)),
        _ => 1.0,
    };
    let sample = |random: &mut Random| loop {
        let x = float(random, air) * scale;
        if x.is_finite() {
            return x;
        }
    };
    (0..2 * frames).map(|_| sample(random)).collect()
}

fn frames(random: &mut Random) -> usize {
    let frames = match random.below(64) {
        0 => random.between(500, 5000).min(4096),
        1..16 => random.between(0, 8),
        16..24 => random.between(64, 400),
        _ => random.between(8, 64),
    };
    frames as usize
}

// Positions: those of lines below their lengths, the others anything.
fn positions(random: &mut Random, rate: u32, list: &[Listed]) -> Vec<usize> {
    let mut positions: Vec<usize> = (0..table::ALL_POSITIONS)
        .map(|_| random.next() as usize)
        .collect();
    for (place, stage) in list.iter().enumerate() {
        let own = &mut positions[table::POSITIONS * place..];
        let mut at = |length: usize| match random.below(4) {
            0 => length - 1,
            _ => random.below(length as u64) as usize,
        };
        match *stage {
            Listed::Delay(delay) => own[0] = at(delay.frames as usize),
            Listed::Reverb(_) => {
                let lines = table::reverb_lines(rate);
                lines.iter().zip(own).for_each(|(&n, own)| *own = at(n));
            }
            _ => {}
        }
    }
    positions
}

// Progress of a block that is half run, as far as each top stage may be; past them anything.
fn progress(random: &mut Random, frames: usize, tops: usize) -> Vec<usize> {
    let mut most = match random.below(3) {
        0 => frames,
        _ => 0,
    };
    let mut progress = vec![];
    for k in 0..table::PLACES {
        if k < tops {
            most = match random.below(3) {
                0 => most,
                _ => random.below(most as u64 + 1) as usize,
            };
            progress.push(most);
        } else {
            progress.push(random.next() as usize);
        }
    }
    progress
}

// ---- calls

// An order that is accepted, of at most so many entries.
fn order(random: &mut Random, done: &mut [usize], frames: usize, entries: usize) -> Vec<usize> {
    let tops = done.len();
    let mut order = vec![];
    // how often the last stage is named again
    let stays = random.below(4);
    let mut last = 0;
    while order.len() < entries {
        let may = |done: &[usize], k: usize| match k {
            0 => done[0] < frames,
            _ => done[k] < done[k - 1],
        };
        let mut k = match random.below(4) < stays {
            true => last,
            false => random.below(tops as u64) as usize,
        };
        if !may(done, k) {
            match (0..tops).map(|i| (k + i) % tops).find(|&k| may(done, k)) {
                Some(other) => k = other,
                None => break,
            }
        }
        done[k] += 1;
        order.push(k);
        last = k;
    }
    order
}

fn at_once(random: &mut Random) -> usize {
    match random.below(3) {
        0 => 0,
        1 => random.between(1, 9) as usize,
        _ => 4096,
    }
}

fn calls(random: &mut Random, held: &Held, tops: usize, count: usize) -> Vec<Call> {
    let mut frames_now = held.samples.len() / 2;
    let mut done = held.progress[..tops].to_vec();
    let mut calls = vec![];
    for number in 0..count {
        let is_new = number > 0 && random.below(3) > 0;
        let block = is_new.then(|| {
            let frames = frames(random);
            (frames_now, done) = (frames, vec![0; tops]);
            block(random, frames)
        });
        let what = match random.below(64) {
            0 => What::Start,
            1 => What::FloatsNeeded,
            2..10 => {
                done.fill(frames_now);
                What::Render
            }
            _ => {
                let left: usize = done.iter().map(|done| frames_now - done).sum();
                let entries = match random.below(2) {
                    0 => left,
                    _ => random.below(left as u64 + 1) as usize,
                };
                What::Run(order(random, &mut done, frames_now, entries))
            }
        };
        let at_once = at_once(random);
        calls.push(Call {
            block,
            what,
            at_once,
        });
    }
    calls
}

// A case of up to 16 stages that is accepted at every call.
pub fn case(random: &mut Random, rates: &Rates) -> Case {
    let stages = random.between(0, table::PLACES as i32) as usize;
    let frames = frames(random);
    let calls = match random.below(128) {
        0 => random.between(100, 300),
        _ => random.between(1, 12),
    };
    let calls = calls as usize;
    drawn(random, rates, stages, frames, calls)
}

// One of few stages and frames, and one call.
pub fn short_case(random: &mut Random, rates: &Rates) -> Case {
    let stages = random.between(0, 6) as usize;
    let frames = random.between(0, 6) as usize;
    drawn(random, rates, stages, frames, 1)
}

fn drawn(random: &mut Random, rates: &Rates, stages: usize, frames: usize, count: usize) -> Case {
    let stages = list(random, stages);
    let rate = rate(random, rates, &stages);
    let needed: usize = stages.iter().map(|stage| stage.floats(rate)).sum();
    let spare = match random.below(2) {
        0 => 0,
        _ => random.below(9) as usize,
    };
    let mut case = Case {
        rate,
        stages,
        loose: 0,
        held: Held::default(),
        calls: vec![],
    };
    let tops = case.tops().len();
    let progress = progress(random, frames, tops);
    let mut samples = block(random, frames);
    // frames that stage 0 has run may hold anything
    let run = if tops == 0 { 0 } else { 2 * progress[0] };
    samples[..run].copy_from_slice(&floats(random, run));
    case.held = Held {
        samples,
        positions: positions(random, rate, &case.stages),
        floats: floats(random, table::ALL_FLOATS),
        store: floats(random, needed + spare),
        progress,
    };
    case.calls = calls(random, &case.held, tops, count);
    case
}
