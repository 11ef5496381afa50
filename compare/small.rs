// Small cases, all of them: every shape of up to five stages, and every order of up to seven entries
// over up to three top stages and three frames.
use crate::case::{Call, Case, Listed, What};
use crate::face::Held;
use crate::judge::{self, Seen, judge};
use crate::shrink;
use crate::stage::Stage;
use crate::table::{ALL_FLOATS, ALL_POSITIONS, Delay, PLACES};
use crate::tally::Tally;
use std::collections::HashMap;

// One kind at each place, and such settings that each shows in what comes out.
fn no_delay(place: usize) -> Listed {
    Listed::Alone(match place % 5 {
        0 => Stage::Filter {
            mode: 2,
            key: 6,
            resonance: 0.3,
            mix: 0.75,
        },
        1 => Stage::Eq {
            kind: 1,
            key: 7,
            q: 0.7,
            gain: 5,
        },
        2 => Stage::Distortion {
            kind: 1,
            drive: 7,
            mix: 0.5,
        },
        3 => Stage::Volume { volume: -3 },
        _ => Stage::Panning { panning: -0.3 },
    })
}

fn delay(place: usize, owned: usize) -> Listed {
    Listed::Delay(Delay {
        frames: 1 + place as u32 % 3,
        feedback: -2 - place as i32,
        mix: 0.4,
        owned,
    })
}

// No two of them alike.
fn numbers(count: usize, from: f32) -> Vec<f32> {
    (0..count).map(|i| from + i as f32 / 512.0).collect()
}

fn case(stages: Vec<Listed>, frames: usize, progress: &[usize], calls: Vec<What>) -> Case {
    let floats = stages.iter().map(|stage| stage.floats(8_000));
    let floats: usize = floats.sum();
    let mut held = Held {
        samples: numbers(2 * frames, -0.3),
        positions: vec![0; ALL_POSITIONS],
        floats: numbers(ALL_FLOATS, 0.1),
        store: numbers(floats + 1, 0.2),
        progress: vec![9; PLACES],
    };
    held.progress[..progress.len()].copy_from_slice(progress);
    let calls = calls.into_iter().map(|what| Call {
        block: None,
        what,
        at_once: 0,
    });
    Case {
        rate: 8_000,
        stages,
        loose: 0,
        held,
        calls: calls.collect(),
    }
}

// The digits of a number, so many of them, each below a base.
fn digits(number: u64, base: u64, count: usize) -> Vec<usize> {
    let digit = |at: usize| (number / base.pow(at as u32) % base) as usize;
    (0..count).map(digit).collect()
}

// At each place one that is no delay, or a delay that owns 0 to 6.
pub fn shapes(seen: &mut Seen) -> bool {
    let mut tally = Tally::new("all shapes of 0 to 5 stages", "shapes");
    for count in 0..=5 {
        for number in 0..8u64.pow(count as u32) {
            let owned = digits(number, 8, count);
            let stages = owned.iter().enumerate().map(|(place, &owned)| match owned {
                7 => no_delay(place),
                _ => delay(place, owned),
            });
            let calls = vec![
                What::FloatsNeeded,
                What::Run(vec![0, 0]),
                What::Render,
                What::Start,
            ];
            let case = case(stages.collect(), 4, &[0; PLACES], calls);
            let judged = judge(&case, seen);
            tally.check(judged.is_ok(), || shrink::report(&case));
        }
    }
    tally.close()
}

// A delay that owns an EQ, a filter, and a delay of one frame: as many of them as there are tops.
fn chain(tops: usize) -> Vec<Listed> {
    let all = [delay(1, 1), no_delay(1), no_delay(0), delay(0, 0)];
    all[..[0, 2, 3, 4][tops]].to_vec()
}

// Every progress, lawful ones alone or others as well.
fn starts(tops: usize, frames: usize, lawful: bool) -> Vec<Vec<usize>> {
    let base = frames as u64 + 2;
    let all = (0..base.pow(tops as u32)).map(|number| digits(number, base, tops));
    let is_lawful = |start: &Vec<usize>| {
        start.iter().all(|&done| done <= frames) && start.windows(2).all(|w| w[1] <= w[0])
    };
    all.filter(|start| !lawful || is_lawful(start)).collect()
}

// Every order of these lengths, entries that name no top stage among them. Those that are accepted and
// name each stage equally often must leave the same.
fn orders_from(
    tally: &mut Tally,
    seen: &mut Seen,
    tops: usize,
    frames: usize,
    start: &[usize],
    longest: usize,
) {
    let base = tops as u64 + 1;
    let mut left: HashMap<Vec<usize>, Held> = HashMap::new();
    for length in 0..=longest {
        for number in 0..base.pow(length as u32) {
            let order = digits(number, base, length);
            let mut named = vec![0; tops + 1];
            order.iter().for_each(|&k| named[k] += 1);
            let case = case(chain(tops), frames, start, vec![What::Run(order)]);
            let accepted = seen.answers[0];
            let judged = judge(&case, seen);
            tally.check(judged.is_ok(), || shrink::report(&case));
            let (Ok(held), true) = (judged, seen.answers[0] > accepted) else {
                continue;
            };
            let first = left.entry(named).or_insert_with(|| held.clone());
            if let Some(what) = judge::difference(&held, first, true) {
                tally.differ(|| {
                    format!("another order of the same steps leaves something else, {what}\n{case}")
                });
            }
        }
    }
}

pub fn orders(seen: &mut Seen) -> bool {
    let mut tally = Tally::new("all orders of 0 to 7 entries", "orders");
    for tops in 0..=3 {
        for frames in 0..=3 {
            for start in starts(tops, frames, true) {
                orders_from(&mut tally, seen, tops, frames, &start, 7);
            }
        }
    }
    let same = tally.close();
    let mut tally = Tally::new("on any progress", "orders");
    for tops in 0..=3 {
        for frames in 0..=3 {
            for start in starts(tops, frames, false) {
                orders_from(&mut tally, seen, tops, frames, &start, 2);
            }
        }
    }
    same & tally.close()
}
