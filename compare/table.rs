// Document 01's table of eleven refusals, read once more and plainly: each row with its place, and the
// first that applies. Written from the document, and for its open places from docs/DECISIONS.md, with
// no look at the crates that do the same.

#[derive(Clone, Copy, Debug)]
pub enum Stage {
    Volume { volume: i32 },
    Panning { panning: f32 },
    Distortion { drive: i32, mix: f32 },
    Filter { g: f64, resonance: f64, mix: f32 },
    Eq { g: f64, gain: i32, q: f64 },
    Reverb(Reverb),
    Delay(Delay),
}

#[derive(Clone, Copy, Debug)]
pub struct Reverb {
    pub feedback: f32,
    pub damping: f32,
    pub width: f32,
    pub mix: f32,
}

#[derive(Clone, Copy, Debug)]
pub struct Delay {
    pub frames: u32,
    pub feedback: i32,
    pub mix: f32,
    pub owned: usize,
}

// A call of `run`.
pub struct Call<'a> {
    pub rate: u32,
    pub stages: &'a [Stage],
    // 24 a list place
    pub positions: &'a [usize],
    pub samples: &'a [f32],
    // of the line store
    pub floats: usize,
    pub progress: &'a [usize],
    pub order: &'a [usize],
}

#[derive(Clone, Copy, Debug, PartialEq)]
pub struct Refusal {
    pub number: u32,
    pub place: usize,
}

// a list's places, and what each remembers: positions, and floats, those of combs first
pub const PLACES: usize = 16;
pub const POSITIONS: usize = 24;
pub const COMB_FLOATS: usize = 16;
pub const FLOATS: usize = COMB_FLOATS + 4;

// of all places
pub const ALL_POSITIONS: usize = PLACES * POSITIONS;
pub const ALL_FLOATS: usize = PLACES * FLOATS;

// ---- settings and lines

const TUNINGS: [u64; 12] = [
    1116, 1188, 1277, 1356, 1422, 1491, 1557, 1617, 556, 441, 341, 225,
];

// The floats of a reverb's 24 lines, the left twelve first.
pub fn reverb_lines(rate: u32) -> [usize; 24] {
    std::array::from_fn(|line| {
        let spread = if line < 12 { 0 } else { 23 };
        ((TUNINGS[line % 12] + spread) * rate as u64 / 44100) as usize
    })
}

impl Stage {
    pub fn owned(&self) -> usize {
        match *self {
            Stage::Delay(delay) => delay.owned,
            _ => 0,
        }
    }

    fn in_range(&self) -> bool {
        let tangent = |g| (1.0 / 8192.0..=1e17).contains(&g);
        let unit = |x| (0.0..=1.0).contains(&x);
        match *self {
            Stage::Volume { volume } => volume <= 24,
            Stage::Panning { panning } => panning.is_finite(),
            Stage::Distortion { drive, mix } => (-59..=24).contains(&drive) && mix.is_finite(),
            Stage::Filter { g, resonance, mix } => {
                tangent(g) && resonance.is_finite() && mix.is_finite()
            }
            Stage::Eq { g, gain, q } => {
                tangent(g) && (-24..=24).contains(&gain) && (0.0..=1000.0).contains(&q)
            }
            Stage::Reverb(r) => {
                unit(r.feedback) && unit(r.damping) && unit(r.width) && r.mix.is_finite()
            }
            Stage::Delay(d) => {
                (1..=480_000).contains(&d.frames) && d.feedback <= 24 && d.mix.is_finite()
            }
        }
    }

    // How many positions each of its lines has: a reverb's are floats, a delay's frames.
    pub fn lines(&self, rate: u32) -> Vec<usize> {
        match *self {
            Stage::Reverb(_) => reverb_lines(rate).to_vec(),
            Stage::Delay(delay) => vec![delay.frames as usize],
            _ => vec![],
        }
    }

    pub fn floats(&self, rate: u32) -> usize {
        match *self {
            Stage::Delay(delay) => 2 * delay.frames as usize,
            _ => self.lines(rate).iter().sum(),
        }
    }
}

pub fn needed(rate: u32, stages: &[Stage]) -> usize {
    stages.iter().map(|stage| stage.floats(rate)).sum()
}

// ---- shape

// Whether the delay at `owner` owns the stage at `place`, by its own word.
fn owns(stages: &[Stage], owner: usize, place: usize) -> bool {
    owner < place && place - owner <= stages[owner].owned()
}

pub fn depth(stages: &[Stage], place: usize) -> usize {
    (0..place).filter(|&j| owns(stages, j, place)).count()
}

// It owns stages beyond the list's end, or beyond the end of one that owns it.
fn is_misshapen(stages: &[Stage], place: usize) -> bool {
    let last = |at: usize| at as u128 + stages[at].owned() as u128;
    last(place) >= stages.len() as u128
        || (0..place).any(|j| owns(stages, j, place) && last(place) > last(j))
}

// The list places of the top stages.
pub fn tops(stages: &[Stage]) -> Vec<usize> {
    (0..stages.len())
        .filter(|&place| depth(stages, place) == 0)
        .collect()
}

// ---- the rows

fn refuse(number: u32, place: Option<usize>) -> Option<Refusal> {
    place.map(|place| Refusal { number, place })
}

fn when(condition: bool) -> Option<usize> {
    condition.then_some(0)
}

// Rows 1 to 4, which look at the rate and the stages alone.
fn refusal_of_stages(rate: u32, stages: &[Stage]) -> Option<Refusal> {
    let first = |at_fault: &dyn Fn(usize) -> bool| (0..stages.len()).find(|&i| at_fault(i));
    refuse(1, when(!(8_000..=192_000).contains(&rate)))
        .or_else(|| refuse(2, when(stages.len() > PLACES)))
        .or_else(|| {
            let wrong = |i| is_misshapen(stages, i) || depth(stages, i) > 3;
            refuse(3, first(&wrong))
        })
        .or_else(|| refuse(4, first(&|i| !stages[i].in_range())))
}

// Rows 1 to 5: what a fresh start is refused for.
pub fn refusal_of_start(rate: u32, stages: &[Stage], floats: usize) -> Option<Refusal> {
    refusal_of_stages(rate, stages).or_else(|| {
        let needed = needed(rate, stages);
        refuse(5, (floats < needed).then_some(needed))
    })
}

fn has_position_past_a_line(call: &Call, place: usize) -> bool {
    let lines = call.stages[place].lines(call.rate);
    let positions = &call.positions[POSITIONS * place..];
    lines.iter().zip(positions).any(|(line, at)| at >= line)
}

// The first top stage whose progress is above the frame count or above the one's before it.
fn out_of_line(call: &Call, tops: usize) -> Option<usize> {
    let frames = call.samples.len() / 2;
    (0..tops).find(|&k| {
        let done = call.progress[k];
        done > frames || k > 0 && done > call.progress[k - 1]
    })
}

fn not_finite(call: &Call, tops: usize) -> Option<usize> {
    let from = if tops == 0 { 0 } else { 2 * call.progress[0] };
    (from..call.samples.len()).find(|&i| !call.samples[i].is_finite())
}

fn not_to_be_run(call: &Call, tops: usize) -> Option<usize> {
    let frames = call.samples.len() / 2;
    let mut done = call.progress[..tops].to_vec();
    for (at, &k) in call.order.iter().enumerate() {
        if k >= tops || done[k] == frames || k > 0 && done[k] == done[k - 1] {
            return Some(at);
        }
        done[k] += 1;
    }
    None
}

pub fn refusal_of_run(call: &Call) -> Option<Refusal> {
    let tops = || tops(call.stages).len();
    refusal_of_start(call.rate, call.stages, call.floats)
        .or_else(|| {
            let first = (0..call.stages.len()).find(|&i| has_position_past_a_line(call, i));
            refuse(6, first)
        })
        .or_else(|| refuse(7, when(call.samples.len() % 2 == 1)))
        .or_else(|| refuse(8, when(call.samples.len() / 2 > 4096)))
        .or_else(|| refuse(9, out_of_line(call, tops())))
        .or_else(|| refuse(10, not_finite(call, tops())))
        .or_else(|| refuse(11, not_to_be_run(call, tops())))
}

// What the floats needed are asked for with: a refusal 1 to 4, or their number.
pub fn floats_needed(rate: u32, stages: &[Stage]) -> Refusal {
    refusal_of_stages(rate, stages).unwrap_or(Refusal {
        number: 0,
        place: needed(rate, stages),
    })
}
