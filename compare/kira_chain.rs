// A list of stages as kira's own effects: those that a delay owns are its feedback effects. What each
// holds can be set before and read after, whether it stands on top or in a delay.
use crate::case::Listed;
use crate::face::Held;
use crate::stage::{Remembering, effect_of};
use crate::table::{COMB_FLOATS, FLOATS, POSITIONS};
use kira::effect::Effect;
use kira::effect::delay::{DelayBuilder, OpenDelay};
use kira::effect::reverb::{OpenReverb, ReverbBuilder};
use kira::info::Info;
use kira::{Decibels, Frame, Mix, Value};
use std::sync::{Arc, Mutex};
use std::time::Duration;

pub enum Kept {
    Alone(Box<dyn Remembering>),
    Reverb(OpenReverb),
    Delay(OpenDelay),
}

impl Effect for Kept {
    fn init(&mut self, sample_rate: u32, internal_buffer_size: usize) {
        match self {
            Kept::Alone(effect) => effect.init(sample_rate, internal_buffer_size),
            Kept::Reverb(effect) => effect.init(sample_rate, internal_buffer_size),
            Kept::Delay(effect) => effect.init(sample_rate, internal_buffer_size),
        }
    }

    fn process(&mut self, input: &mut [Frame], dt: f64, info: &Info) {
        match self {
            Kept::Alone(effect) => effect.process(input, dt, info),
            Kept::Reverb(effect) => effect.process(input, dt, info),
            Kept::Delay(effect) => effect.process(input, dt, info),
        }
    }
}

// A delay has its feedback effects for itself, so it is given this, and the chain keeps the other end.
struct Shared(Arc<Mutex<Kept>>);

impl Effect for Shared {
    fn init(&mut self, sample_rate: u32, internal_buffer_size: usize) {
        let mut effect = self.0.lock().expect("no panic before");
        effect.init(sample_rate, internal_buffer_size)
    }

    fn process(&mut self, input: &mut [Frame], dt: f64, info: &Info) {
        let mut effect = self.0.lock().expect("no panic before");
        effect.process(input, dt, info)
    }
}

struct Place {
    effect: Arc<Mutex<Kept>>,
    // the first list place after the stages it owns
    end: usize,
    // where its lines start in the store, and how many floats they are
    start: usize,
    floats: usize,
    // The oldest frame of a delay's line, which kira has at the line's front and we have anywhere.
    oldest: usize,
}

pub struct KiraChain {
    places: Vec<Place>,
    tops: Vec<usize>,
}

// A delay time of exactly so many frames.
pub fn delay_time(frames: u32, rate: u32) -> Duration {
    Duration::from_secs_f64((frames as f64 + 0.5) / rate as f64)
}

pub fn kept(stage: Listed, rate: u32, feedback_effects: Vec<Box<dyn Effect>>) -> Kept {
    match stage {
        Listed::Alone(stage) => Kept::Alone(effect_of(stage)),
        Listed::Reverb(reverb) => {
            let builder = ReverbBuilder {
                feedback: Value::Fixed(reverb.feedback as f64),
                damping: Value::Fixed(reverb.damping as f64),
                stereo_width: Value::Fixed(reverb.width as f64),
                mix: Value::Fixed(Mix(reverb.mix)),
            };
            Kept::Reverb(builder.open())
        }
        Listed::Delay(delay) => {
            let builder = DelayBuilder {
                delay_time: delay_time(delay.frames, rate),
                feedback: Value::Fixed(Decibels(delay.feedback as f32)),
                mix: Value::Fixed(Mix(delay.mix)),
                feedback_effects,
            };
            Kept::Delay(builder.open())
        }
        Listed::Words(_) => panic!("a stage that is given by words alone"),
    }
}

// The stages from a place up to an end, each after those that it owns; their places, last first.
fn build(
    stages: &[Listed],
    rate: u32,
    from: usize,
    end: usize,
    built: &mut [Option<Arc<Mutex<Kept>>>],
) -> Vec<usize> {
    let (mut level, mut place) = (vec![], from);
    while place < end {
        let after = place + 1 + stages[place].owned();
        let owned = build(stages, rate, place + 1, after, built);
        let effects = owned.iter().map(|&i| {
            let effect = built[i].clone().expect("built by now");
            Box::new(Shared(effect)) as Box<dyn Effect>
        });
        let effects = effects.collect();
        built[place] = Some(Arc::new(Mutex::new(kept(stages[place], rate, effects))));
        level.push(place);
        place = after;
    }
    level
}

impl KiraChain {
    // Of a list with no fault. `block` is the longest that will be processed at once.
    pub fn new(rate: u32, stages: &[Listed], block: usize, held: &Held) -> Self {
        let mut built = vec![None; stages.len()];
        let tops = build(stages, rate, 0, stages.len(), &mut built);
        for &top in &tops {
            let effect = built[top].as_ref().expect("built by now");
            effect
                .lock()
                .expect("no panic before")
                .init(rate, block.max(1));
        }
        let mut start = 0;
        let places = stages.iter().zip(built).enumerate();
        let places = places.map(|(at, (stage, effect))| {
            let floats = stage.floats(rate);
            let place = Place {
                effect: effect.expect("built by now"),
                end: at + 1 + stage.owned(),
                start,
                floats,
                oldest: held.positions[POSITIONS * at],
            };
            start += floats;
            place
        });
        let mut chain = Self {
            places: places.collect(),
            tops,
        };
        chain.exchange(&mut held.clone(), Way::In);
        chain
    }

    // A top stage on its next frames.
    pub fn process(&mut self, top: usize, frames: &mut [Frame]) {
        let first = self.tops[top];
        let end = self.places[first].end;
        for place in &mut self.places[first..end] {
            if let Kept::Delay(_) = *place.effect.lock().expect("no panic before") {
                place.oldest = (place.oldest + frames.len()) % (place.floats / 2);
            }
        }
        let mut effect = self.places[first].effect.lock().expect("no panic before");
        // dt is 1, so that a frequency goes to `tan` as it is
        effect.process(frames, 1.0, &Info);
    }

    // What kira's effects hold now, at its places; the rest stays.
    pub fn read_into(&mut self, held: &mut Held) {
        self.exchange(held, Way::Out);
    }

    fn exchange(&mut self, held: &mut Held, way: Way) {
        for (at, place) in self.places.iter_mut().enumerate() {
            let positions = &mut held.positions[POSITIONS * at..POSITIONS * (at + 1)];
            let floats = &mut held.floats[FLOATS * at..FLOATS * (at + 1)];
            let store = &mut held.store[place.start..place.start + place.floats];
            match &mut *place.effect.lock().expect("no panic before") {
                Kept::Alone(effect) => {
                    for (i, frame) in effect.remembered().into_iter().flatten().enumerate() {
                        way.copy_frame(&mut floats[COMB_FLOATS + 2 * i..], frame);
                    }
                }
                Kept::Reverb(effect) => exchange_reverb(effect, positions, floats, store, way),
                Kept::Delay(effect) => {
                    let line = effect.memory();
                    assert!(2 * line.len() == store.len(), "a delay's length");
                    for (i, frame) in line.iter_mut().enumerate() {
                        let i = (place.oldest + i) % (place.floats / 2);
                        way.copy_frame(&mut store[2 * i..], frame);
                    }
                    positions[0] = place.oldest;
                }
            }
        }
    }
}

// Into kira, or out of it.
#[derive(Clone, Copy)]
enum Way {
    In,
    Out,
}

impl Way {
    fn copy<T: Copy>(self, ours: &mut T, kira: &mut T) {
        match self {
            Way::In => *kira = *ours,
            Way::Out => *ours = *kira,
        }
    }

    fn copy_all<T: Copy>(self, ours: &mut [T], kira: &mut [T]) {
        match self {
            Way::In => kira.copy_from_slice(ours),
            Way::Out => ours.copy_from_slice(kira),
        }
    }

    fn copy_frame(self, ours: &mut [f32], kira: &mut Frame) {
        self.copy(&mut ours[0], &mut kira.left);
        self.copy(&mut ours[1], &mut kira.right);
    }
}

// The left twelve lines, then the right twelve: combs before all-passes.
fn exchange_reverb(
    effect: &mut OpenReverb,
    positions: &mut [usize],
    floats: &mut [f32],
    store: &mut [f32],
    way: Way,
) {
    let (combs, all_passes) = effect.filters().expect("after init");
    let mut rest = store;
    for side in 0..2 {
        for (i, (left, right)) in combs.iter_mut().enumerate() {
            let comb = if side == 0 { left } else { right };
            let (filter_store, buffer, index) = comb.memory();
            let (line, after) = rest.split_at_mut(buffer.len());
            way.copy_all(line, buffer);
            way.copy(&mut positions[12 * side + i], index);
            way.copy(&mut floats[8 * side + i], filter_store);
            rest = after;
        }
        for (i, (left, right)) in all_passes.iter_mut().enumerate() {
            let all_pass = if side == 0 { left } else { right };
            let (buffer, index) = all_pass.memory();
            let (line, after) = rest.split_at_mut(buffer.len());
            way.copy_all(line, buffer);
            way.copy(&mut positions[12 * side + 8 + i], index);
            rest = after;
        }
    }
    assert!(rest.is_empty(), "a reverb's lines");
}
