// A case: a list of stages, all that a call may change, and calls on it, one after another. It is all
// that a comparison needs, so that a case that fails can be made smaller and printed.
use crate::face::Held;
use crate::fed;
use crate::stage::Stage;
use crate::table::{self, Delay, Reverb};
use crate::words::{self, WORDS};
use std::fmt::{self, Display, Formatter};

// A stage in a list.
#[derive(Clone, Copy, Debug)]
pub enum Listed {
    Alone(Stage),
    Reverb(Reverb),
    Delay(Delay),
    // Words as they are, with or without a meaning; kira is not built from them.
    Words([u64; WORDS]),
}

fn decibels(level: i32) -> u64 {
    level as i64 as u64
}

fn single(x: f32) -> u64 {
    x.to_bits() as u64
}

// Words that are used, and 0 after them.
fn padded<const USED: usize>(used: [u64; USED]) -> [u64; WORDS] {
    let mut words = [0; WORDS];
    words[..USED].copy_from_slice(&used);
    words
}

impl Listed {
    pub fn words(&self) -> [u64; WORDS] {
        match *self {
            Listed::Alone(Stage::Volume { volume }) => padded([0, decibels(volume)]),
            Listed::Alone(Stage::Panning { panning }) => padded([1, single(panning)]),
            Listed::Alone(Stage::Distortion { kind, drive, mix }) => {
                padded([2, kind as u64, decibels(drive), single(mix)])
            }
            Listed::Alone(Stage::Filter {
                mode,
                key,
                resonance,
                mix,
            }) => {
                let g = fed::tangent(key);
                padded([
                    3,
                    mode as u64,
                    g.to_bits(),
                    resonance.to_bits(),
                    single(mix),
                ])
            }
            Listed::Alone(Stage::Eq { kind, key, q, gain }) => {
                let g = fed::tangent(key);
                padded([4, kind as u64, g.to_bits(), decibels(gain), q.to_bits()])
            }
            Listed::Reverb(r) => padded([
                5,
                single(r.feedback),
                single(r.damping),
                single(r.width),
                single(r.mix),
            ]),
            Listed::Delay(d) => padded([
                6,
                d.frames as u64,
                decibels(d.feedback),
                single(d.mix),
                d.owned as u64,
            ]),
            Listed::Words(words) => words,
        }
    }

    pub fn read(&self) -> Option<table::Stage> {
        words::stage(self.words())
    }

    pub fn owned(&self) -> usize {
        self.read().map_or(0, |stage| stage.owned())
    }

    pub fn floats(&self, rate: u32) -> usize {
        self.read().map_or(0, |stage| stage.floats(rate))
    }
}

#[derive(Clone, Debug)]
pub enum What {
    Run(Vec<usize>),
    Render,
    Start,
    FloatsNeeded,
}

#[derive(Clone, Debug)]
pub struct Call {
    // of a new block, with progress at zero; else the last block is gone on with
    pub block: Option<Vec<f32>>,
    pub what: What,
    // How many frames kira's effects are given at a time, each top stage as far as it goes before the
    // next; 0: entry by entry, in the order's own order.
    pub at_once: usize,
}

#[derive(Clone, Debug)]
pub struct Case {
    pub rate: u32,
    pub stages: Vec<Listed>,
    // words after the last whole stage
    pub loose: usize,
    pub held: Held,
    pub calls: Vec<Call>,
}

impl Case {
    pub fn words(&self) -> Vec<u64> {
        let whole = self.stages.iter().flat_map(|stage| stage.words());
        whole.chain(vec![0; self.loose]).collect()
    }

    pub fn depth(&self, place: usize) -> usize {
        let owns = |&j: &usize| self.stages[j].owned() >= place - j;
        (0..place).filter(owns).count()
    }

    // The list places of the top stages; a stage without meaning owns none.
    pub fn tops(&self) -> Vec<usize> {
        let (mut tops, mut place) = (vec![], 0);
        while place < self.stages.len() {
            tops.push(place);
            place = (place + 1).saturating_add(self.stages[place].owned());
        }
        tops
    }
}

// ---- in print

// The numbers that are not 0, each with its place.
fn write_numbers(
    f: &mut Formatter,
    name: &str,
    length: usize,
    numbers: impl Iterator<Item = (usize, String)>,
) -> fmt::Result {
    write!(f, "  {name}, {length}:")?;
    for (at, number) in numbers {
        write!(f, " [{at}]={number}")?;
    }
    writeln!(f)
}

fn write_floats(f: &mut Formatter, name: &str, floats: &[f32]) -> fmt::Result {
    let other = floats.iter().enumerate().filter(|(_, x)| x.to_bits() != 0);
    let other = other.map(|(at, x)| (at, format!("{x:?}({:08x})", x.to_bits())));
    write_numbers(f, name, floats.len(), other)
}

fn write_wholes(f: &mut Formatter, name: &str, wholes: &[usize]) -> fmt::Result {
    let other = wholes.iter().enumerate().filter(|(_, n)| **n != 0);
    write_numbers(
        f,
        name,
        wholes.len(),
        other.map(|(at, n)| (at, n.to_string())),
    )
}

impl Display for Case {
    fn fmt(&self, f: &mut Formatter) -> fmt::Result {
        writeln!(f, "  rate {}, loose {}", self.rate, self.loose)?;
        for (place, stage) in self.stages.iter().enumerate() {
            writeln!(f, "  stage {place}: {stage:?} {:x?}", stage.words())?;
        }
        write_floats(f, "samples", &self.held.samples)?;
        write_floats(f, "store", &self.held.store)?;
        write_wholes(f, "positions", &self.held.positions)?;
        write_floats(f, "floats", &self.held.floats)?;
        write_wholes(f, "progress", &self.held.progress)?;
        for (number, call) in self.calls.iter().enumerate() {
            writeln!(
                f,
                "  call {number}: {:?}, kira {} at once",
                call.what, call.at_once
            )?;
            if let Some(block) = &call.block {
                write_floats(f, "  on new samples", block)?;
            }
        }
        Ok(())
    }
}
