// Results with one number changed, for records that a comparison must find to differ: one that left out a
// part, or compared what is expected with itself, would not.
use crate::face::Held;
use crate::table::Refusal;

const SIGN: u32 = 1 << 31;

// The first float with the other sign, and the last with another lowest bit. Neither is a NaN.
fn spoilt_floats(floats: &[f32]) -> [Vec<f32>; 2] {
    [(0, SIGN), (floats.len() - 1, 1)].map(|(at, bit)| {
        assert!(!floats[at].is_nan(), "all NaNs are one");
        let mut floats = floats.to_vec();
        floats[at] = f32::from_bits(floats[at].to_bits() ^ bit);
        floats
    })
}

// The first number, and the last, one more.
fn spoilt_numbers(numbers: &[usize]) -> [Vec<usize>; 2] {
    [0, numbers.len() - 1].map(|at| {
        let mut numbers = numbers.to_vec();
        numbers[at] += 1;
        numbers
    })
}

fn spoilt_held(held: &Held) -> Vec<Held> {
    let with = |change: &dyn Fn(&mut Held)| {
        let mut held = held.clone();
        change(&mut held);
        held
    };
    let mut all = vec![];
    for samples in spoilt_floats(&held.samples) {
        all.push(with(&|held| held.samples.clone_from(&samples)));
    }
    for store in spoilt_floats(&held.store) {
        all.push(with(&|held| held.store.clone_from(&store)));
    }
    for positions in spoilt_numbers(&held.positions) {
        all.push(with(&|held| held.positions.clone_from(&positions)));
    }
    for floats in spoilt_floats(&held.floats) {
        all.push(with(&|held| held.floats.clone_from(&floats)));
    }
    for progress in spoilt_numbers(&held.progress) {
        all.push(with(&|held| held.progress.clone_from(&progress)));
    }
    all
}

// The answer with another number, with another place, and all that is left with one number changed.
pub fn spoilt(answer: Refusal, after: &Held) -> Vec<(Refusal, Held)> {
    let Refusal { number, place } = answer;
    let answers = [(number + 1, place), (number, place + 1)];
    let answers = answers.map(|(number, place)| (Refusal { number, place }, after.clone()));
    let held = spoilt_held(after).into_iter().map(|held| (answer, held));
    answers.into_iter().chain(held).collect()
}
