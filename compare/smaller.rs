// A case made smaller or plainer in one place.
use crate::case::{Case, Listed, What};
use crate::stage::Stage;
use crate::table::{ALL_FLOATS, ALL_POSITIONS, Delay, FLOATS, PLACES, POSITIONS, Reverb};

// Without so many stages from a place on: without their lines and memories, and where one was a top
// stage, without its progress and its entries.
pub fn without(case: &Case, place: usize, count: usize) -> Case {
    let mut case = case.clone();
    let top = case.tops().iter().position(|&top| top == place);
    let floats = |stages: &[Listed], rate| stages.iter().map(|s| s.floats(rate)).sum::<usize>();
    let start = floats(&case.stages[..place], case.rate);
    let end = start + floats(&case.stages[place..place + count], case.rate);
    let held = &mut case.held;
    if end <= held.store.len() {
        held.store.drain(start..end);
    }
    let is_whole = held.positions.len() == ALL_POSITIONS && held.floats.len() == ALL_FLOATS;
    if place + count <= PLACES && is_whole {
        held.positions
            .drain(POSITIONS * place..POSITIONS * (place + count));
        held.positions.resize(ALL_POSITIONS, 0);
        held.floats.drain(FLOATS * place..FLOATS * (place + count));
        held.floats.resize(ALL_FLOATS, 0.0);
    }
    let is_alone = count == 1 && case.stages[place].owned() > 0;
    case.stages.drain(place..place + count);
    for (j, stage) in case.stages[..place].iter_mut().enumerate() {
        if let Listed::Delay(delay) = stage
            && delay.owned >= place - j
        {
            delay.owned = delay.owned.saturating_sub(count);
        }
    }
    if let Some(top) = top.filter(|_| !is_alone) {
        if top < case.held.progress.len() {
            case.held.progress.remove(top);
            case.held.progress.push(0);
        }
        for call in &mut case.calls {
            if let What::Run(order) = &mut call.what {
                order.retain(|&k| k != top);
                order.iter_mut().filter(|k| **k > top).for_each(|k| *k -= 1);
            }
        }
    }
    case
}

// Without the entries that cannot be taken.
pub fn tidied(case: &Case) -> Case {
    let mut case = case.clone();
    let tops = case.tops().len().min(case.held.progress.len());
    let mut frames = case.held.samples.len() / 2;
    for k in 1..tops {
        let most = case.held.progress[k - 1];
        case.held.progress[k] = case.held.progress[k].min(most);
    }
    let mut done = case.held.progress[..tops].to_vec();
    for call in &mut case.calls {
        if let Some(block) = &call.block {
            (frames, done) = (block.len() / 2, vec![0; tops]);
        }
        match &mut call.what {
            What::Run(order) => order.retain(|&k| {
                let may = k < tops && done[k] < frames && (k == 0 || done[k] < done[k - 1]);
                if may {
                    done[k] += 1;
                }
                may
            }),
            What::Render => done.fill(frames),
            _ => {}
        }
    }
    case
}

// Another stage at a place, with the front of the old one's line.
pub fn replace(case: &mut Case, place: usize, stage: Listed) {
    let start: usize = case.stages[..place]
        .iter()
        .map(|s| s.floats(case.rate))
        .sum();
    let (old, new) = (
        case.stages[place].floats(case.rate),
        stage.floats(case.rate),
    );
    if new < old && start + old <= case.held.store.len() {
        case.held.store.drain(start + new..start + old);
        if let Some(position) = case.held.positions.get_mut(POSITIONS * place) {
            *position = 0;
        }
    }
    case.stages[place] = stage;
}

// The same kind with plainer numbers, one at a time and all at once; or a volume control.
pub fn plainer(stage: Listed) -> Vec<Listed> {
    let still = Listed::Alone(Stage::Volume { volume: 0 });
    match stage {
        Listed::Alone(Stage::Volume { volume: 0 }) => vec![],
        Listed::Alone(Stage::Volume { .. }) => vec![still],
        Listed::Alone(Stage::Panning { .. }) => vec![still],
        Listed::Alone(Stage::Distortion { kind, drive, mix }) => {
            let of = |drive, mix| Listed::Alone(Stage::Distortion { kind, drive, mix });
            vec![still, of(0, mix), of(drive, 1.0), of(0, 1.0)]
        }
        Listed::Alone(Stage::Filter {
            mode,
            key,
            resonance,
            mix,
        }) => {
            let of = |key, resonance, mix| {
                Listed::Alone(Stage::Filter {
                    mode,
                    key,
                    resonance,
                    mix,
                })
            };
            // key 7 is g = 1
            vec![
                still,
                of(7, resonance, mix),
                of(key, 0.0, mix),
                of(key, resonance, 1.0),
                of(7, 0.0, 1.0),
            ]
        }
        Listed::Alone(Stage::Eq { kind, key, q, gain }) => {
            let of = |key, q, gain| Listed::Alone(Stage::Eq { kind, key, q, gain });
            vec![
                still,
                of(7, q, gain),
                of(key, 1.0, gain),
                of(key, q, 0),
                of(7, 1.0, 0),
            ]
        }
        Listed::Reverb(r) => {
            let plainer = [
                Reverb { feedback: 0.0, ..r },
                Reverb { damping: 0.0, ..r },
                Reverb { width: 1.0, ..r },
                Reverb { mix: 1.0, ..r },
                Reverb {
                    feedback: 0.0,
                    damping: 0.0,
                    width: 1.0,
                    mix: 1.0,
                },
            ];
            plainer.map(Listed::Reverb).to_vec()
        }
        Listed::Delay(d) => {
            let plainer = [
                Delay { frames: 1, ..d },
                Delay { feedback: 0, ..d },
                Delay { mix: 1.0, ..d },
                Delay {
                    frames: 1,
                    feedback: 0,
                    mix: 1.0,
                    ..d
                },
            ];
            plainer.map(Listed::Delay).to_vec()
        }
        Listed::Words(_) => vec![still],
    }
}
