// Holds the effects that keep no line, by way of the library of `compare_effects`, to kira's own source:
// bit for bit, with every NaN counted as one. `compare/run` builds and runs it; README.md says more.
//
//   effects                  a line for each kind: how many frames, and how many of them differ
//   effects --search         prints directed.rs
//   effects --coefficients   prints crates/test_float_answers/src/coefficients.rt
mod alone;
mod coefficients;
mod common;
mod directed;
mod fed;
mod inputs;
#[allow(dead_code)]
mod linked;
mod oddities;
mod regrouped;
mod stage;
mod tally;
mod written;

use alone::{Kira, kira_coefficients, ours};
use common::{Random, bits32, bits64};
use directed::DIRECTED;
use inputs::{audible, drive, gain, key, mix, panning, q, resonance, sample, volume};
use linked::{
    Memory, Pair, Processed, sedhavil_amplitude, sedhavil_as_f32, sedhavil_coefficients,
    sedhavil_eq_amplitude, sedhavil_weigh,
};
use oddities::ODDITIES;
use regrouped::{CHANGES, Change};
use stage::Stage;
use std::hint::black_box;
use std::process::ExitCode;
use tally::Tally;

// Frames that stand alone, for each kind; runs, and the frames of each; settings of coefficients;
// and inputs found against each change, beside those of directed.rs.
const ALONE: u64 = 1_000_000;
const RUNS: u64 = 1_000;
const LENGTH: usize = 1_000;
const SETTINGS: u64 = 1_000_000;
const FOUND: u64 = 1_000;

// ---- inputs

fn pair(of: fn(&mut Random) -> f32, random: &mut Random) -> Pair {
    Pair {
        left: of(random),
        right: of(random),
    }
}

fn memory(of: fn(&mut Random) -> f32, random: &mut Random) -> Memory {
    Memory {
        ic1eq: pair(of, random),
        ic2eq: pair(of, random),
    }
}

// ---- the kinds

struct Kind {
    name: &'static str,
    stage: fn(&mut Random) -> Stage,
}

fn distortion(kind: u32, random: &mut Random) -> Stage {
    Stage::Distortion {
        kind,
        drive: drive(random),
        mix: mix(random),
    }
}

fn filter(mode: u32, random: &mut Random) -> Stage {
    Stage::Filter {
        mode,
        key: key(random),
        resonance: resonance(random),
        mix: mix(random),
    }
}

fn eq_filter(kind: u32, random: &mut Random) -> Stage {
    Stage::Eq {
        kind,
        key: key(random),
        q: q(random),
        gain: gain(random),
    }
}

const KINDS: [Kind; 11] = [
    Kind {
        name: "volume",
        stage: |random| Stage::Volume {
            volume: volume(random),
        },
    },
    Kind {
        name: "panning",
        stage: |random| Stage::Panning {
            panning: panning(random),
        },
    },
    Kind {
        name: "distortion, hard",
        stage: |random| distortion(0, random),
    },
    Kind {
        name: "distortion, soft",
        stage: |random| distortion(1, random),
    },
    Kind {
        name: "filter, low-pass",
        stage: |random| filter(0, random),
    },
    Kind {
        name: "filter, band-pass",
        stage: |random| filter(1, random),
    },
    Kind {
        name: "filter, high-pass",
        stage: |random| filter(2, random),
    },
    Kind {
        name: "filter, notch",
        stage: |random| filter(3, random),
    },
    Kind {
        name: "EQ, bell",
        stage: |random| eq_filter(0, random),
    },
    Kind {
        name: "EQ, low shelf",
        stage: |random| eq_filter(1, random),
    },
    Kind {
        name: "EQ, high shelf",
        stage: |random| eq_filter(2, random),
    },
];

// ---- the comparison

fn check_frame(
    tally: &mut Tally,
    stage: Stage,
    memory: Memory,
    input: Pair,
    ours: Processed,
    kira: Processed,
) {
    tally.check(ours.bits() == kira.bits(), || {
        format!("{stage:?} on {memory:?}, {input:?}: ours {ours:?}, kira's {kira:?}")
    });
}

// Each frame with settings and a memory of its own.
fn compare_alone(tally: &mut Tally, kind: &Kind, random: &mut Random) {
    for _ in 0..ALONE {
        let stage = (kind.stage)(random);
        let (memory, input) = (memory(sample, random), pair(sample, random));
        let kira = Kira::new(stage, memory).step(input);
        check_frame(
            tally,
            stage,
            memory,
            input,
            ours(stage, memory, input),
            kira,
        );
    }
}

// Noise at some loudness, or one loud frame and silence; in some runs any sample at some place.
fn signal(random: &mut Random) -> Vec<Pair> {
    let scale = match random.below(4) {
        0 => 2.0f32.powi(random.between(-140, 127)),
        _ => 1.0,
    };
    let heard = match random.below(4) {
        0 => 1,
        _ => LENGTH,
    };
    let mut frames = vec![Pair::default(); LENGTH];
    for frame in &mut frames[..heard] {
        let Pair { left, right } = pair(audible, random);
        (frame.left, frame.right) = (left * scale, right * scale);
    }
    if random.below(8) == 0 {
        frames[random.below(LENGTH as u64) as usize] = pair(sample, random);
    }
    frames
}

// A run is compared with kira twice: frame after frame with what is remembered in between, and as one
// block, with what is remembered at its end.
fn compare_runs(tally: &mut Tally, kind: &Kind, random: &mut Random) {
    for _ in 0..RUNS {
        let stage = (kind.stage)(random);
        let start = match random.below(2) {
            0 => Memory::default(),
            _ => memory(audible, random),
        };
        let input = signal(random);
        let mut kira = Kira::new(stage, start);
        let (mut memory, mut outputs) = (start, Vec::new());
        for &frame in &input {
            let answer = ours(stage, memory, frame);
            check_frame(tally, stage, memory, frame, answer, kira.step(frame));
            memory = answer.after;
            outputs.push(answer.output);
        }
        let (block, end) = Kira::new(stage, start).block(&input);
        for (&output, &kira) in outputs.iter().zip(&block) {
            let [ours, kira] = [output, kira].map(|output| Processed {
                output,
                after: memory,
            });
            tally.check(ours.bits() == kira.bits(), || {
                format!("{stage:?} on {start:?} and a block: ours {ours:?}, kira's {kira:?}")
            });
        }
        let [ours, kira] = [memory, end].map(|after| Processed {
            output: Pair::default(),
            after,
        });
        if ours.bits() != kira.bits() {
            tally.differ(|| {
                format!("{stage:?} on {start:?} at the end: ours {ours:?}, kira's {kira:?}")
            });
        }
    }
}

fn compare_kinds() -> bool {
    let mut same = true;
    for (number, kind) in KINDS.iter().enumerate() {
        let mut random = Random(0x5ed1_0010 + number as u64);
        let mut tally = Tally::new(kind.name, "frames");
        compare_alone(&mut tally, kind, &mut random);
        compare_runs(&mut tally, kind, &mut random);
        same &= tally.close();
    }
    same
}

// The EQ's six in f64, and narrowed by each side's own narrowing.
fn compare_coefficients() -> bool {
    let mut same = true;
    let mut random = Random(0x5ed1_001b);
    for (kind, name) in ["bell", "low shelf", "high shelf"].into_iter().enumerate() {
        let kind = kind as u32;
        let mut tally = Tally::new(format!("coefficients, {name}"), "settings");
        for _ in 0..SETTINGS {
            let (key, q, gain) = (key(&mut random), q(&mut random), gain(&mut random));
            let kira = kira_coefficients(kind, key, q, gain);
            let c = sedhavil_coefficients(kind, fed::tangent(key), q, gain);
            let ours = [c.a1, c.a2, c.a3, c.m0, c.m1, c.m2];
            let is_same = ours.map(bits64) == kira.map(bits64)
                && ours.map(|c| sedhavil_as_f32(c)).map(bits32)
                    == kira.map(|c| c as f32).map(bits32);
            tally.check(is_same, || {
                format!("key {key:#x}, q {q:?}, gain {gain}: ours {ours:?}, kira's {kira:?}")
            });
        }
        same &= tally.close();
    }
    // kira's filter has its weights among other things; a bell at 0 dB has the same of k = 1 / q
    let mut tally = Tally::new("weights", "settings");
    for _ in 0..SETTINGS {
        let (key, q) = (key(&mut random), q(&mut random));
        let kira = kira_coefficients(0, key, q, 0);
        let w = sedhavil_weigh(fed::tangent(key), 1.0 / q.max(0.01));
        let ours = [w.a1, w.a2, w.a3];
        tally.check(ours.map(bits64)[..] == kira.map(bits64)[..3], || {
            format!("key {key:#x}, q {q:?}: ours {ours:?}, kira's {kira:?}")
        });
    }
    same & tally.close()
}

// kira gives what is written in regrouped.rs without a change, and so do we; with its change, each
// directed input gives something else.
fn compare_directed() -> bool {
    let mut same = true;
    let mut random = Random(0x5ed1_001c);
    for change in CHANGES {
        let mut tally = Tally::new(format!("against {change:?}"), "inputs");
        let kept = DIRECTED.iter().copied().filter(|d| d.change == change);
        let found = (0..FOUND).map(|_| regrouped::find(change, &mut random));
        for input in kept.chain(found) {
            let both = |x| Pair { left: x, right: x };
            let answer = |[x, ic1eq, ic2eq]: [f32; 3]| Processed {
                output: both(x),
                after: Memory {
                    ic1eq: both(ic1eq),
                    ic2eq: both(ic2eq),
                },
            };
            let Processed { output, after } = answer([input.x, input.ic1eq, input.ic2eq]);
            let kira = Kira::new(input.stage, after).step(output);
            let ours = ours(input.stage, after, output);
            let written = answer(regrouped::step(Change::None, &input));
            let is_same = ours.bits() == kira.bits() && written.bits() == kira.bits();
            tally.check(is_same && regrouped::shows(&input), || {
                format!("{input:?}: ours {ours:?}, kira's {kira:?}, as written {written:?}")
            });
        }
        same &= tally.close();
    }
    same
}

fn compare_oddities() -> bool {
    let mut tally = Tally::new("oddities", "frames");
    for odd in &ODDITIES {
        let (stage, memory, input) = (odd.stage, odd.memory, odd.input);
        let ours = ours(stage, memory, input);
        let kira = Kira::new(stage, memory).step(input);
        let is_told = kira.bits()[..2] == [odd.output.left, odd.output.right].map(bits32);
        tally.check(is_told && ours.bits() == kira.bits(), || {
            format!(
                "{}: told {:?}, ours {ours:?}, kira's {kira:?}",
                odd.what, odd.output
            )
        });
    }
    tally.close()
}

// That kira is fed: were it not, libm would answer 0x3ab9_24e8 for -57 dB, and 1 for the tangents of
// the first keys.
fn compare_fed() -> bool {
    let mut tally = Tally::new("fed to kira", "numbers");
    for k in -59..=24 {
        let kira = kira::Decibels(black_box(k as f32)).as_amplitude();
        let ours = sedhavil_amplitude(k);
        tally.check(bits32(kira) == bits32(ours), || {
            format!("{k} dB: ours {ours:?}, kira's {kira:?}")
        });
    }
    let kira = kira::Decibels(black_box(-57.0)).as_amplitude();
    tally.check(kira.to_bits() == 0x3ab9_24e5, || {
        format!("-57 dB: kira has {:#x}", kira.to_bits())
    });
    for k in -24..=24 {
        let [.., m0, _, _] = kira_coefficients(2, 0, 1.0, black_box(k));
        let a = sedhavil_eq_amplitude(k);
        tally.check(bits64(m0) == bits64(a * a), || {
            format!("EQ at {k} dB: ours squared {:?}, kira's {m0:?}", a * a)
        });
    }
    // at 2^-13 and 10^17 the weight a1 is almost 1 and almost 0
    for (key, a1) in [(0, 0.99987792), (2, 1e-34)] {
        let [kira, ..] = kira_coefficients(0, black_box(key), 1.0, 0);
        tally.check((kira / a1 - 1.0).abs() < 1e-6, || {
            format!("key {key}: kira's a1 is {kira:?}")
        });
    }
    tally.close()
}

fn main() -> ExitCode {
    let arguments: Vec<String> = std::env::args().skip(1).collect();
    let same = match arguments.iter().map(String::as_str).collect::<Vec<_>>()[..] {
        [] => {
            compare_fed()
                & compare_kinds()
                & compare_coefficients()
                & compare_directed()
                & compare_oddities()
        }
        ["--search"] => {
            regrouped::search(4);
            true
        }
        ["--coefficients"] => {
            coefficients::print();
            true
        }
        _ => {
            eprintln!("effects [--search | --coefficients]");
            return ExitCode::from(2);
        }
    };
    ExitCode::from(u8::from(!same))
}
