// One stage alone on both sides: the library of `compare_effects`, and kira's own effect.
use crate::common::bits32;
use crate::fed;
use crate::linked::{
    Memory, Pair, Processed, sedhavil_distortion, sedhavil_eq_filter, sedhavil_filter,
    sedhavil_panning_control, sedhavil_volume_control,
};
use crate::stage::{KINDS, Remembering, Stage, effect_of};
use kira::info::Info;
use kira::{Decibels, Frame};

impl Processed {
    pub fn bits(&self) -> [u64; 6] {
        let memory = self.after;
        let pairs = [self.output, memory.ic1eq, memory.ic2eq];
        let [a, b, c] = pairs.map(|pair| [bits32(pair.left), bits32(pair.right)]);
        [a[0], a[1], b[0], b[1], c[0], c[1]]
    }
}

pub fn ours(stage: Stage, memory: Memory, input: Pair) -> Processed {
    let forgetful = |output| Processed {
        output,
        after: memory,
    };
    match stage {
        Stage::Volume { volume } => forgetful(sedhavil_volume_control(input, volume)),
        Stage::Panning { panning } => forgetful(sedhavil_panning_control(input, panning)),
        Stage::Distortion { kind, drive, mix } => {
            forgetful(sedhavil_distortion(input, kind, drive, mix))
        }
        Stage::Filter {
            mode,
            key,
            resonance,
            mix,
        } => sedhavil_filter(input, memory, mode, fed::tangent(key), resonance, mix),
        Stage::Eq { kind, key, q, gain } => {
            sedhavil_eq_filter(input, memory, kind, fed::tangent(key), q, gain)
        }
    }
}

// ---- kira

pub struct Kira {
    effect: Box<dyn Remembering>,
    // what the answer has where the effect remembers nothing
    memory: Memory,
}

fn frame(pair: Pair) -> Frame {
    Frame::new(pair.left, pair.right)
}

fn pair(frame: Frame) -> Pair {
    Pair {
        left: frame.left,
        right: frame.right,
    }
}

impl Kira {
    pub fn new(stage: Stage, memory: Memory) -> Self {
        let mut effect = effect_of(stage);
        if let Some([ic1eq, ic2eq]) = effect.remembered() {
            (*ic1eq, *ic2eq) = (frame(memory.ic1eq), frame(memory.ic2eq));
        }
        Self { effect, memory }
    }

    // A whole block by one call; dt is 1, so that a frequency goes to `tan` as it is.
    pub fn block(&mut self, input: &[Pair]) -> (Vec<Pair>, Memory) {
        let mut frames: Vec<Frame> = input.iter().copied().map(frame).collect();
        self.effect.process(&mut frames, 1.0, &Info);
        (frames.into_iter().map(pair).collect(), self.memory())
    }

    pub fn step(&mut self, input: Pair) -> Processed {
        let mut frames = [frame(input)];
        self.effect.process(&mut frames, 1.0, &Info);
        Processed {
            output: pair(frames[0]),
            after: self.memory(),
        }
    }

    fn memory(&mut self) -> Memory {
        match self.effect.remembered() {
            None => self.memory,
            Some([ic1eq, ic2eq]) => Memory {
                ic1eq: pair(*ic1eq),
                ic2eq: pair(*ic2eq),
            },
        }
    }
}

pub fn kira_coefficients(kind: u32, key: u64, q: f64, gain: i32) -> [f64; 6] {
    kira::effect::eq_filter::coefficients(
        KINDS[kind as usize],
        fed::frequency(key),
        q,
        Decibels(gain as f32),
        1.0,
    )
}
