// Judges a case: each call's answer against document 01's table; a refused call must have changed no
// byte; what an accepted one leaves must be what kira's effects leave, bit for bit, every NaN counted
// as one.
use crate::case::{Case, Listed, What};
use crate::common::bits32;
use crate::expected::{ACCEPTED, clear, perform, progress_after, told};
use crate::face::{self, Held};
use crate::kira_chain::KiraChain;
use crate::table::Refusal;

// What was judged.
#[derive(Clone, Default)]
pub struct Seen {
    // calls by the number of their answer; those of `FloatsNeeded` that give floats are under 0
    pub answers: [u64; 12],
    // 101 and 102
    pub flat: [u64; 2],
    // steps of top stages that were accepted, and of those those compared with kira's
    pub steps: u64,
    pub steps_held: u64,
    // with those of stages in delays: by kind, in document 01's order, and by depth
    pub by_kind: [u64; 7],
    pub by_depth: [u64; 4],
    // numbers compared with kira's
    pub numbers: u64,
}

impl Seen {
    pub fn refused(&self) -> u64 {
        self.answers[1..].iter().sum::<u64>() + self.flat.iter().sum::<u64>()
    }

    fn count(&mut self, answer: Refusal) {
        match answer.number {
            101 => self.flat[0] += 1,
            102 => self.flat[1] += 1,
            number => self.answers[number as usize] += 1,
        }
    }
}

// ---- the comparison

fn first_float(name: &str, one_nan: bool, ours: &[f32], theirs: &[f32]) -> Option<String> {
    let bits = |x: f32| {
        if one_nan {
            bits32(x)
        } else {
            x.to_bits() as u64
        }
    };
    let mut both = ours.iter().zip(theirs);
    let at = both.position(|(&ours, &theirs)| bits(ours) != bits(theirs))?;
    let (ours, theirs) = (ours[at], theirs[at]);
    Some(format!(
        "{name}[{at}]: ours {ours:?} ({:08x}), not {theirs:?} ({:08x})",
        ours.to_bits(),
        theirs.to_bits()
    ))
}

fn first_number(name: &str, ours: &[usize], theirs: &[usize]) -> Option<String> {
    let at = ours.iter().zip(theirs).position(|(a, b)| a != b)?;
    Some(format!(
        "{name}[{at}]: ours {}, not {}",
        ours[at], theirs[at]
    ))
}

// The first number of ours that is not as it should be.
pub fn difference(ours: &Held, theirs: &Held, one_nan: bool) -> Option<String> {
    first_float("samples", one_nan, &ours.samples, &theirs.samples)
        .or_else(|| first_float("store", one_nan, &ours.store, &theirs.store))
        .or_else(|| first_number("positions", &ours.positions, &theirs.positions))
        .or_else(|| first_float("floats", one_nan, &ours.floats, &theirs.floats))
        .or_else(|| first_number("progress", &ours.progress, &theirs.progress))
}

fn ask(case: &Case, words: &[u64], held: &mut Held, what: &What) -> Refusal {
    match what {
        What::Run(order) => face::run(case.rate, words, held, order),
        What::Render => face::render(case.rate, words, held),
        What::Start => face::start(case.rate, words, held),
        What::FloatsNeeded => face::floats_needed(case.rate, words),
    }
}

fn count_steps(case: &Case, before: &Held, after: &Held, is_held: bool, seen: &mut Seen) {
    for (k, &top) in case.tops().iter().enumerate() {
        let steps = (after.progress[k] - before.progress[k]) as u64;
        seen.steps += steps;
        if is_held {
            seen.steps_held += steps;
            for place in top..=top + case.stages[top].owned() {
                seen.by_kind[case.stages[place].words()[0] as usize] += steps;
                seen.by_depth[case.depth(place)] += steps;
            }
        }
    }
    if is_held {
        let floats = after.samples.len() + after.store.len() + after.floats.len();
        seen.numbers += (floats + after.positions.len() + after.progress.len()) as u64;
    }
}

// All calls of a case; gives what is left, or says what differs.
pub fn judge(case: &Case, seen: &mut Seen) -> Result<Held, String> {
    let words = case.words();
    let is_fed = !case.stages.iter().any(|s| matches!(s, Listed::Words(_)));
    let longest = case
        .calls
        .iter()
        .map(|call| call.at_once)
        .max()
        .unwrap_or(1);
    let mut held = case.held.clone();
    let mut kira: Option<KiraChain> = None;
    for (number, call) in case.calls.iter().enumerate() {
        if let Some(block) = &call.block {
            held.samples.clone_from(block);
            held.progress.fill(0);
        }
        let answer = told(case, &words, &held, &call.what);
        let mut expected = held.clone();
        let ours = ask(case, &words, &mut held, &call.what);
        if ours != answer {
            return Err(format!(
                "call {number}: answered {} at {}, not {} at {}",
                ours.number, ours.place, answer.number, answer.place
            ));
        }
        seen.count(answer);
        let is_run = matches!(call.what, What::Run(_) | What::Render) && answer == ACCEPTED;
        if is_run && is_fed {
            let tops = case.tops().len();
            let before = expected.clone();
            let kira = kira
                .get_or_insert_with(|| KiraChain::new(case.rate, &case.stages, longest, &before));
            perform(kira, tops, call, &mut expected);
            count_steps(case, &before, &expected, true, seen);
        } else if is_run {
            // by words alone: kira has no such stage, and only the progress is known
            let after = progress_after(&expected, case.tops().len(), &call.what);
            if held.progress != after {
                return Err(format!("call {number}: progress {:?}", held.progress));
            }
            count_steps(case, &expected, &held, false, seen);
            continue;
        } else if matches!(call.what, What::Start) && answer.number < 100 {
            clear(case, &words, answer, &mut expected);
            kira = None;
        }
        if let Some(what) = difference(&held, &expected, is_run) {
            return Err(format!("call {number}, answer {}: {what}", answer.number));
        }
    }
    Ok(held)
}
