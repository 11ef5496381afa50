// What must come of a call: its answer by document 01's table, and what it leaves by kira's effects.
use crate::case::{Call, Case, What};
use crate::face::Held;
use crate::kira_chain::KiraChain;
use crate::table::{self, Refusal, floats_needed, refusal_of_run, refusal_of_start};
use crate::words;
use kira::Frame;

pub const ACCEPTED: Refusal = Refusal {
    number: 0,
    place: 0,
};

// The answer by the words' meaning and by the table, and the stages where there is one.
pub fn told(case: &Case, words: &[u64], held: &Held, what: &What) -> Refusal {
    let (positions, floats, progress) =
        (held.positions.len(), held.floats.len(), held.progress.len());
    let wrong = match what {
        What::Run(_) | What::Render => {
            words::wrong_length(words.len(), positions, floats, progress)
        }
        What::Start => words::wrong_length(words.len(), positions, floats, table::PLACES),
        What::FloatsNeeded => words::wrong_length(
            words.len(),
            table::ALL_POSITIONS,
            table::ALL_FLOATS,
            table::PLACES,
        ),
    };
    if let Some(refusal) = wrong {
        return refusal;
    }
    let stages = match words::stages(words) {
        Ok(stages) => stages,
        Err(refusal) => return refusal,
    };
    let refusal_with = |order: &[usize]| {
        refusal_of_run(&table::Call {
            rate: case.rate,
            stages: &stages,
            positions: &held.positions,
            samples: &held.samples,
            floats: held.store.len(),
            progress: &held.progress,
            order,
        })
    };
    let refusal = match what {
        What::Run(order) => refusal_with(order),
        What::Render => refusal_with(&[]),
        What::Start => refusal_of_start(case.rate, &stages, held.store.len()),
        What::FloatsNeeded => Some(floats_needed(case.rate, &stages)),
    };
    refusal.unwrap_or(ACCEPTED)
}

// How far each top stage is after an accepted call.
pub fn progress_after(held: &Held, tops: usize, what: &What) -> Vec<usize> {
    let mut progress = held.progress.clone();
    match what {
        What::Run(order) => order.iter().for_each(|&k| progress[k] += 1),
        _ => progress[..tops].fill(held.samples.len() / 2),
    }
    progress
}

// kira's effects do what an accepted call asks for.
pub fn perform(kira: &mut KiraChain, tops: usize, call: &Call, held: &mut Held) {
    let pairs = held.samples.chunks_exact(2);
    let mut frames: Vec<Frame> = pairs.map(|pair| Frame::new(pair[0], pair[1])).collect();
    let after = progress_after(held, tops, &call.what);
    match &call.what {
        What::Run(order) if call.at_once == 0 => {
            let mut done = held.progress.clone();
            for &k in order {
                kira.process(k, &mut frames[done[k]..done[k] + 1]);
                done[k] += 1;
            }
        }
        _ => {
            for k in 0..tops {
                for block in frames[held.progress[k]..after[k]].chunks_mut(call.at_once.max(1)) {
                    kira.process(k, block);
                }
            }
        }
    }
    for (pair, frame) in held.samples.chunks_exact_mut(2).zip(&frames) {
        (pair[0], pair[1]) = (frame.left, frame.right);
    }
    held.progress = after;
    kira.read_into(held);
}

// A fresh start: memories at zero, refused or not; the needed floats +0 where it is accepted.
pub fn clear(case: &Case, words: &[u64], answer: Refusal, held: &mut Held) {
    held.positions.fill(0);
    held.floats.fill(0.0);
    if answer == ACCEPTED {
        let stages = words::stages(words).expect("accepted");
        held.store[..table::needed(case.rate, &stages)].fill(0.0);
    }
}
