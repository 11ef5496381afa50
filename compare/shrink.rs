// Makes a case that fails smaller for as long as it fails: fewer calls, stages, frames and entries,
// plainer settings, zeros where there were numbers.
use crate::case::{Case, What};
use crate::judge::{Seen, judge};
use crate::smaller::{plainer, replace, tidied, without};
use std::time::{Duration, Instant};

const PATIENCE: Duration = Duration::from_secs(10);

// What differs, and the smallest case found that differs.
pub fn report(case: &Case) -> String {
    let Some(why) = failure(case) else {
        return format!("it does not fail again\n{case}");
    };
    let mut shrinker = Shrinker {
        case: case.clone(),
        why,
        end: Instant::now() + PATIENCE,
    };
    shrinker.shrink();
    format!("{}\n{}", shrinker.why, shrinker.case)
}

fn failure(case: &Case) -> Option<String> {
    judge(case, &mut Seen::default()).err()
}

struct Shrinker {
    case: Case,
    why: String,
    end: Instant,
}

impl Shrinker {
    fn is_late(&self) -> bool {
        Instant::now() > self.end
    }

    // Takes the other case if it fails too, perhaps with entries left out that it can no longer take.
    fn offer(&mut self, other: Case) -> bool {
        if self.is_late() {
            return false;
        }
        let tidied = tidied(&other);
        for other in [other, tidied] {
            if let Some(why) = failure(&other) {
                (self.case, self.why) = (other, why);
                return true;
            }
        }
        false
    }

    fn offer_changed(&mut self, change: impl FnOnce(&mut Case)) -> bool {
        let mut other = self.case.clone();
        change(&mut other);
        self.offer(other)
    }

    fn shrink(&mut self) {
        loop {
            let before = size(&self.case);
            self.fewer_calls();
            self.fewer_stages();
            self.fewer_frames();
            self.fewer_entries();
            self.plainer_stages();
            self.zeros();
            if size(&self.case) == before || self.is_late() {
                return;
            }
        }
    }

    fn fewer_calls(&mut self) {
        for at in (0..self.case.calls.len()).rev() {
            self.offer_changed(|case| {
                case.calls.remove(at);
            });
        }
        for at in 0..self.case.calls.len() {
            if self.case.calls[at].at_once != 0 {
                self.offer_changed(|case| case.calls[at].at_once = 0);
            }
        }
    }

    fn fewer_stages(&mut self) {
        let mut place = self.case.stages.len();
        while place > 0 {
            place = (place - 1).min(self.case.stages.len());
            if place == self.case.stages.len() {
                continue;
            }
            // with all that it owns, or alone
            let whole = self.case.stages[place].owned().saturating_add(1);
            let whole = whole.min(self.case.stages.len() - place);
            if !self.offer(without(&self.case, place, whole)) && whole > 1 {
                self.offer(without(&self.case, place, 1));
            }
        }
    }

    fn fewer_frames(&mut self) {
        let blocks = 1 + self.case.calls.len();
        for number in 0..blocks {
            let mut cut = samples(&mut self.case, number).map_or(0, |block| block.len() / 2);
            while cut > 0 {
                let shorter = self.offer_changed(|case| {
                    let block = samples(case, number).expect("as before");
                    block.truncate(block.len().saturating_sub(2 * cut));
                    let frames = case.held.samples.len() / 2;
                    for done in &mut case.held.progress {
                        *done = (*done).min(frames);
                    }
                });
                let left = samples(&mut self.case, number).map_or(0, |block| block.len() / 2);
                cut = if shorter { cut.min(left) } else { cut / 2 };
            }
        }
    }

    fn fewer_entries(&mut self) {
        for number in 0..self.case.calls.len() {
            let entries = |case: &Case| match &case.calls[number].what {
                What::Run(order) => order.len(),
                _ => 0,
            };
            let mut cut = entries(&self.case);
            while cut > 0 {
                let mut at = 0;
                while at < entries(&self.case) {
                    let is_shorter = self.offer_changed(|case| {
                        if let What::Run(order) = &mut case.calls[number].what {
                            let end = order.len().min(at + cut);
                            order.drain(at..end);
                        }
                    });
                    if !is_shorter {
                        at += cut;
                    }
                }
                cut /= 2;
            }
        }
    }

    fn plainer_stages(&mut self) {
        for place in 0..self.case.stages.len() {
            for plainer in plainer(self.case.stages[place]) {
                self.offer_changed(|case| replace(case, place, plainer));
            }
        }
        if self.case.rate != 8_000 {
            self.offer_changed(|case| case.rate = 8_000);
        }
    }

    fn zeros(&mut self) {
        self.zero(|case| &mut case.held.store);
        self.zero(|case| &mut case.held.floats);
        self.zero(|case| &mut case.held.samples);
        self.zero(|case| &mut case.held.positions);
        self.zero(|case| &mut case.held.progress);
        for number in 1..=self.case.calls.len() {
            if samples(&mut self.case, number).is_some() {
                self.zero(|case| samples(case, number).expect("as before"));
            }
        }
    }

    // Zeros for stretches, the whole first.
    fn zero<T: Copy + Default + PartialEq>(&mut self, of: impl Fn(&mut Case) -> &mut Vec<T>) {
        let mut cut = of(&mut self.case).len();
        while cut > 0 {
            for at in (0..of(&mut self.case).len()).step_by(cut) {
                let numbers = of(&mut self.case);
                let end = numbers.len().min(at + cut);
                if numbers[at..end].iter().any(|x| *x != T::default()) {
                    self.offer_changed(|case| of(case)[at..end].fill(T::default()));
                }
            }
            cut /= 2;
        }
    }
}

// To see whether anything became smaller.
fn size(case: &Case) -> usize {
    let orders = case.calls.iter().map(|call| match &call.what {
        What::Run(order) => 1 + order.len(),
        _ => 1,
    });
    let blocks = case.calls.iter().flat_map(|call| &call.block);
    let samples = case.held.samples.len() + blocks.map(Vec::len).sum::<usize>();
    case.stages.len() + orders.sum::<usize>() + samples + case.held.store.len()
}

// The first block, and then each call's own.
fn samples(case: &mut Case, number: usize) -> Option<&mut Vec<f32>> {
    match number {
        0 => Some(&mut case.held.samples),
        _ => case.calls[number - 1].block.as_mut(),
    }
}
