// What kira does at inputs that a reader would not expect, as docs/DIFFERENCES.md tells it: each with
// the frame that comes out.
use crate::linked::{Memory, Pair};
use crate::stage::Stage;

pub struct Oddity {
    pub what: &'static str,
    pub stage: Stage,
    pub memory: Memory,
    pub input: Pair,
    pub output: Pair,
}

const INFINITY: f32 = f32::INFINITY;
const NAN: f32 = f32::NAN;

const fn pair(left: f32, right: f32) -> Pair {
    Pair { left, right }
}

const fn memory(ic1eq: Pair, ic2eq: Pair) -> Memory {
    Memory { ic1eq, ic2eq }
}

const NOTHING: Memory = memory(pair(0.0, 0.0), pair(0.0, 0.0));

const fn volume(volume: i32) -> Stage {
    Stage::Volume { volume }
}

const fn panning(panning: f32) -> Stage {
    Stage::Panning { panning }
}

const fn hard(drive: i32, mix: f32) -> Stage {
    Stage::Distortion {
        kind: 0,
        drive,
        mix,
    }
}

const fn soft(drive: i32, mix: f32) -> Stage {
    Stage::Distortion {
        kind: 1,
        drive,
        mix,
    }
}

// key 0 is g = 2^-13
const fn filter(mode: u32, resonance: f64, mix: f32) -> Stage {
    Stage::Filter {
        mode,
        key: 0,
        resonance,
        mix,
    }
}

// key 7 is g = 1
const fn bell(q: f64, gain: i32) -> Stage {
    Stage::Eq {
        kind: 0,
        key: 7,
        q,
        gain,
    }
}

const fn odd(
    what: &'static str,
    stage: Stage,
    memory: Memory,
    input: Pair,
    output: Pair,
) -> Oddity {
    Oddity {
        what,
        stage,
        memory,
        input,
        output,
    }
}

// the low-pass of this memory and a frame of -0 is 1
const WET_ONE: Memory = memory(pair(0.0, 0.0), pair(1.0, 1.0));
// the band-pass of this memory is infinite
const WET_INFINITE: Memory = memory(pair(INFINITY, -INFINITY), pair(0.0, 0.0));
// on the frame (-0, 3e38) at g = 1 and q = 1, v1 is below 0 and v2 above, and v1 is finite and v2 not
const V1_AND_V2: Memory = memory(pair(-0.5, 3.4e38), pair(0.5, 3e38));

const ZEROS: Pair = pair(0.0, -0.0);

#[rustfmt::skip]
pub const ODDITIES: [Oddity; 26] = [
    odd("silence keeps the sign", volume(-60), NOTHING, pair(1.0, -1.0), ZEROS),
    odd("silence of an infinity", volume(-60), NOTHING, pair(INFINITY, -INFINITY), pair(NAN, NAN)),
    odd("silence at the least level", volume(i32::MIN), NOTHING, pair(INFINITY, 1.0), pair(NAN, 0.0)),
    odd("centre is as it is", panning(0.0), NOTHING, pair(INFINITY, -0.0), pair(INFINITY, -0.0)),
    odd("centre at -0", panning(-0.0), NOTHING, pair(INFINITY, -0.0), pair(INFINITY, -0.0)),
    odd("near the centre is not the centre", panning(9.313226e-10), NOTHING, pair(1.0, 1.0), pair(0.99999994, 0.99999994)),
    odd("hard left of an infinity", panning(-1.0), NOTHING, pair(INFINITY, INFINITY), pair(INFINITY, NAN)),
    odd("panning NaN", panning(NAN), NOTHING, pair(1.0, 0.0), pair(NAN, NAN)),
    odd("drive -60", hard(-60, 1.0), NOTHING, pair(0.5, 0.0), pair(NAN, NAN)),
    odd("drive -60, dry", soft(-60, 0.0), NOTHING, pair(0.5, 0.0), pair(NAN, NAN)),
    odd("hard clip of NaN", hard(0, 1.0), NOTHING, pair(NAN, 3.0), pair(NAN, 1.0)),
    odd("hard clip of an infinity, dry", hard(0, 0.0), NOTHING, pair(INFINITY, -INFINITY), pair(INFINITY, -INFINITY)),
    odd("hard clip of an infinity, wet", hard(0, 1.0), NOTHING, pair(INFINITY, -INFINITY), pair(NAN, NAN)),
    odd("soft clip of an infinity, dry", soft(0, 0.0), NOTHING, pair(INFINITY, 1.0), pair(NAN, 1.0)),
    odd("distortion at mix -0", hard(0, -0.0), NOTHING, ZEROS, pair(0.0, 0.0)),
    odd("distortion at mix 0", hard(0, 0.0), NOTHING, ZEROS, ZEROS),
    odd("mix -0", filter(0, 0.0, -0.0), WET_ONE, pair(-0.0, -0.0), pair(-0.0, -0.0)),
    odd("mix 0", filter(0, 0.0, 0.0), WET_ONE, pair(-0.0, -0.0), pair(0.0, 0.0)),
    odd("mix 0 of an infinite wet frame", filter(1, 0.0, 0.0), WET_INFINITE, pair(1.0, 1.0), pair(NAN, NAN)),
    odd("mix 1 of an infinite dry frame", filter(1, 0.0, 1.0), NOTHING, pair(INFINITY, 0.0), pair(NAN, 0.0)),
    odd("mix NaN", filter(0, 0.0, NAN), NOTHING, pair(1.0, 0.0), pair(NAN, NAN)),
    odd("resonance NaN", filter(0, f64::NAN, 1.0), NOTHING, pair(1.0, 0.0), pair(NAN, NAN)),
    odd("a bell adds v2 * 0", bell(1.0, 0), V1_AND_V2, pair(-0.0, 3e38), pair(0.0, NAN)),
    odd("q -0 is 0.01", bell(-0.0, 24), NOTHING, pair(1.0, 0.0), pair(14.753832, 0.0)),
    odd("q NaN is 0.01", bell(f64::NAN, 24), NOTHING, pair(1.0, 0.0), pair(14.753832, 0.0)),
    odd("q 0.01", bell(0.01, 24), NOTHING, pair(1.0, 0.0), pair(14.753832, 0.0)),
];
