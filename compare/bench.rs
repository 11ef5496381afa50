// How many nanoseconds a frame takes: ours by way of the library `sedhavil`, and kira's by its own source,
// from one driver in one run. `compare/run --bench` builds and runs it; docs/PERFORMANCE.md has what it
// printed. It is no test: whatever it measures, its exit status is 0.
//
// kira has libm's own `tan` and `powf` here, and not those of fed.rs: they are a part of its work.
#[allow(dead_code)]
mod alone;
#[allow(dead_code)]
mod case;
#[allow(dead_code)]
mod common;
#[allow(dead_code)]
mod face;
#[allow(dead_code)]
mod kira_chain;
#[allow(dead_code)]
mod linked;
#[allow(dead_code)]
mod stage;
#[allow(dead_code)]
mod table;
#[allow(dead_code)]
mod words;

use alone::kira_coefficients;
use case::Listed;
use common::{Random, bits32};
use face::Held;
use kira::effect::Effect;
use kira::info::Info;
use kira::{Decibels, Frame};
use kira_chain::kept;
use linked::{
    sedhavil_amplitude, sedhavil_as_f32, sedhavil_coefficients, sedhavil_sqrt_f32,
    sedhavil_sqrt_f64,
};
use stage::Stage;
use std::hint::black_box;
use std::time::{Duration, Instant};
use table::{ALL_FLOATS, ALL_POSITIONS, Delay, PLACES, Reverb};

// A key is a frequency in hertz, with the tangent that kira works out for it.
mod fed {
    pub fn frequency(key: u64) -> f64 {
        key as f64 / crate::RATE as f64
    }

    pub fn tangent(key: u64) -> f64 {
        (std::f64::consts::PI * frequency(key).clamp(0.0001, 0.5)).tan()
    }
}

const RATE: u32 = 48_000;
const BLOCK: usize = 512;

// ---- time

// Each work is timed in so many rounds of so many stretches, and the least of its stretches counts: what
// else the machine does can only make one longer, and seldom does so in all rounds.
const ROUNDS: usize = 20;
const STRETCHES: usize = 6;
const STRETCH: Duration = Duration::from_millis(1);

// Nanoseconds of the work, done so many times.
fn stretch(times: usize, work: &mut dyn FnMut()) -> f64 {
    let start = Instant::now();
    for _ in 0..times {
        work();
    }
    start.elapsed().as_nanos() as f64
}

fn times_of(work: &mut dyn FnMut()) -> usize {
    let mut times = 1;
    while stretch(times, work) < STRETCH.as_nanos() as f64 {
        times *= 2;
    }
    times
}

struct Timed {
    work: Box<dyn FnMut()>,
    times: usize,
    least: f64,
}

impl Timed {
    fn new(mut work: impl FnMut() + 'static) -> Self {
        Self {
            times: times_of(&mut work),
            work: Box::new(work),
            least: f64::INFINITY,
        }
    }

    fn stretch(&mut self) {
        let span = stretch(self.times, &mut self.work) / self.times as f64;
        self.least = self.least.min(span);
    }
}

// A row of a table: ours, and what it is compared with.
struct Row {
    name: String,
    sides: [Timed; 2],
    // what a time is divided by
    units: usize,
    // whether both did the same
    agrees: bool,
}

impl Row {
    fn new(name: &str, units: usize, sides: [Timed; 2]) -> Self {
        Self {
            name: name.to_string(),
            sides,
            units,
            agrees: true,
        }
    }

    // By turns.
    fn round(&mut self) {
        for _ in 0..STRETCHES {
            self.sides.iter_mut().for_each(Timed::stretch);
        }
    }

    // Nanoseconds a unit.
    fn side(&self, side: usize) -> f64 {
        self.sides[side].least / self.units as f64
    }
}

// ---- a chain on both sides

fn noise(frames: usize) -> Vec<f32> {
    let mut random = Random(0x5ed1_0100);
    let sample = |_| (random.next() >> 40) as f32 / (1 << 24) as f32 - 0.5;
    (0..2 * frames).map(sample).collect()
}

struct Ours {
    words: Vec<u64>,
    input: Vec<f32>,
    held: Held,
}

impl Ours {
    fn new(stages: &[Listed], block: usize) -> Self {
        let floats = stages.iter().map(|stage| stage.floats(RATE)).sum();
        Self {
            words: stages.iter().flat_map(|stage| stage.words()).collect(),
            input: noise(block),
            held: Held {
                samples: vec![0.0; 2 * block],
                positions: vec![0; ALL_POSITIONS],
                floats: vec![0.0; ALL_FLOATS],
                store: vec![0.0; floats],
                progress: vec![0; PLACES],
            },
        }
    }

    // A new block, of the same input every time.
    fn begin(&mut self) {
        self.held.samples.copy_from_slice(&self.input);
        self.held.progress.fill(0);
    }

    fn render(&mut self) {
        self.begin();
        let answer = face::render(RATE, &self.words, &mut self.held);
        assert!(answer.number == 0, "a chain that is refused");
    }

    fn run(&mut self, order: &[usize]) {
        self.begin();
        let answer = face::run(RATE, &self.words, &mut self.held, order);
        assert!(answer.number == 0, "an order that is refused");
    }
}

// kira's effects for a list of stages: those that a delay owns are its feedback effects.
fn effects_of(stages: &[Listed]) -> Vec<Box<dyn Effect>> {
    let (mut effects, mut place) = (vec![], 0);
    while place < stages.len() {
        let after = place + 1 + stages[place].owned();
        let owned = effects_of(&stages[place + 1..after]);
        effects.push(Box::new(kept(stages[place], RATE, owned)) as Box<dyn Effect>);
        place = after;
    }
    effects
}

struct Kira {
    effects: Vec<Box<dyn Effect>>,
    input: Vec<Frame>,
    frames: Vec<Frame>,
}

impl Kira {
    fn new(stages: &[Listed], block: usize) -> Self {
        let mut effects = effects_of(stages);
        for effect in &mut effects {
            effect.init(RATE, block);
        }
        let samples = noise(block);
        let pairs = samples.chunks_exact(2);
        Self {
            effects,
            input: pairs.map(|pair| Frame::new(pair[0], pair[1])).collect(),
            frames: vec![Frame::ZERO; block],
        }
    }

    fn process(&mut self) {
        self.frames.copy_from_slice(&self.input);
        for effect in &mut self.effects {
            effect.process(&mut self.frames, 1.0, &Info);
        }
    }
}

// Do both sides give the same bits?
fn agree(ours: &mut Ours, kira: &mut Kira) -> bool {
    (0..RATE as usize / (kira.frames.len() + 1)).all(|_| {
        ours.render();
        kira.process();
        let mut pairs = ours.held.samples.chunks_exact(2).zip(&kira.frames);
        pairs.all(|(pair, frame)| {
            [pair[0], pair[1]].map(bits32) == [frame.left, frame.right].map(bits32)
        })
    })
}

// A chain on blocks of so many frames; of none, a call is the unit.
fn row(name: &str, stages: &[Listed], block: usize) -> Row {
    let (mut ours, mut kira) = (Ours::new(stages, block), Kira::new(stages, block));
    let agrees = agree(&mut ours, &mut kira);
    let sides = [
        Timed::new(move || ours.render()),
        Timed::new(move || kira.process()),
    ];
    Row {
        agrees,
        ..Row::new(name, block.max(1), sides)
    }
}

// ---- in print

struct Table {
    title: String,
    heads: [&'static str; 3],
    rows: Vec<Row>,
    // whether the rows are of 0, 1, 2 .. stages
    counts: bool,
}

impl Table {
    fn new(title: &str, first: &'static str, rows: Vec<Row>) -> Self {
        Self {
            title: title.to_string(),
            heads: [first, "ours", "kira"],
            rows,
            counts: false,
        }
    }

    fn print(&self) {
        let [first, a, b] = self.heads;
        println!("\n## {}\n", self.title);
        println!("| {first} | {a} | {b} | {a} / {b} |\n|---|---:|---:|---:|");
        for row in &self.rows {
            let (a, b) = (row.side(0), row.side(1));
            let numbers = [a, b, a / b].map(short).join(" | ");
            println!("| {} | {numbers} |", row.name);
        }
        if self.counts {
            println!();
            for side in 0..2 {
                let points: Vec<f64> = self.rows.iter().map(|row| row.side(side)).collect();
                print_line(self.heads[1 + side], &points);
            }
        }
    }
}

fn short(x: f64) -> String {
    let digits = if x < 10.0 {
        2
    } else if x < 100.0 {
        1
    } else {
        0
    };
    format!("{x:.digits$}")
}

// The straight line nearest to the points (0, y), (1, y) .., and the point that is farthest off it.
fn print_line(name: &str, points: &[f64]) {
    let middle = (points.len() - 1) as f64 / 2.0;
    let mean = points.iter().sum::<f64>() / points.len() as f64;
    let off = |n: usize| n as f64 - middle;
    let across: f64 = (0..points.len()).map(|n| off(n) * off(n)).sum();
    let along: f64 = (0..points.len()).map(|n| off(n) * points[n]).sum();
    let slope = along / across;
    let far = |n: usize| (points[n] - mean - slope * off(n)).abs();
    let farthest = (0..points.len()).map(far).fold(0.0, f64::max);
    let first = mean - slope * middle;
    println!("{name}: {first:.1} + {slope:.2} n; the farthest point is {farthest:.1} off");
}

// ---- the stages

fn volume() -> Listed {
    Listed::Alone(Stage::Volume { volume: -1 })
}

fn panning() -> Listed {
    Listed::Alone(Stage::Panning { panning: 0.25 })
}

fn distortion(kind: u32) -> Listed {
    Listed::Alone(Stage::Distortion {
        kind,
        drive: 10,
        mix: 0.5,
    })
}

fn filter(mode: u32, mix: f32) -> Listed {
    Listed::Alone(Stage::Filter {
        mode,
        key: 2_000,
        resonance: 0.3,
        mix,
    })
}

fn eq(kind: u32) -> Listed {
    Listed::Alone(Stage::Eq {
        kind,
        key: 1_000,
        q: 0.7,
        gain: 4,
    })
}

fn reverb() -> Listed {
    Listed::Reverb(Reverb {
        feedback: 0.9,
        damping: 0.1,
        width: 1.0,
        mix: 0.5,
    })
}

fn delay(frames: u32, owned: usize) -> Listed {
    Listed::Delay(Delay {
        frames,
        feedback: -12,
        mix: 0.5,
        owned,
    })
}

fn kinds() -> [(&'static str, Listed); 14] {
    [
        ("volume", volume()),
        ("panning", panning()),
        ("distortion, hard clip", distortion(0)),
        ("distortion, soft clip", distortion(1)),
        ("filter, low-pass", filter(0, 0.5)),
        ("filter, band-pass", filter(1, 0.5)),
        ("filter, high-pass", filter(2, 0.5)),
        ("filter, notch", filter(3, 0.5)),
        ("EQ, bell", eq(0)),
        ("EQ, low shelf", eq(1)),
        ("EQ, high shelf", eq(2)),
        ("reverb", reverb()),
        ("delay of 1,000 frames", delay(1_000, 0)),
        ("delay of 24,000 frames", delay(24_000, 0)),
    ]
}

fn chime() -> Vec<Listed> {
    vec![eq(1), eq(0), reverb(), volume()]
}

fn echo() -> Vec<Listed> {
    vec![delay(24_000, 1), filter(0, 1.0)]
}

fn nested() -> Vec<Listed> {
    vec![
        eq(2),
        delay(9_000, 8),
        filter(2, 1.0),
        delay(3_000, 4),
        panning(),
        delay(1_000, 2),
        filter(0, 1.0),
        volume(),
        distortion(1),
        volume(),
        eq(0),
        delay(12_000, 2),
        filter(1, 0.5),
        panning(),
        reverb(),
        volume(),
    ]
}

fn typical() -> [(&'static str, Vec<Listed>); 3] {
    [
        ("chime", chime()),
        ("echo", echo()),
        ("sixteen, nested", nested()),
    ]
}

// ---- what is measured

fn kinds_alone() -> Table {
    let none = row("none", &[], BLOCK);
    let rows = kinds().map(|(name, stage)| row(name, &[stage], BLOCK));
    let rows = [none].into_iter().chain(rows).collect();
    Table::new("Each kind alone, nanoseconds a frame", "stage", rows)
}

fn typical_chains() -> Table {
    let rows = typical().map(|(name, stages)| row(name, &stages, BLOCK));
    Table::new("Typical chains, nanoseconds a frame", "chain", rows.into())
}

// Each frame through all top stages before the next, by an order.
fn by_an_order() -> Table {
    let rows = typical().map(|(name, stages)| {
        let tops = effects_of(&stages).len();
        let order: Vec<usize> = (0..BLOCK).flat_map(|_| 0..tops).collect();
        let (mut rendered, mut ran) = (Ours::new(&stages, BLOCK), Ours::new(&stages, BLOCK));
        let sides = [
            Timed::new(move || rendered.render()),
            Timed::new(move || ran.run(&order)),
        ];
        Row::new(name, BLOCK, sides)
    });
    Table {
        heads: ["chain", "`render`", "`run`"],
        ..Table::new("By an order, nanoseconds a frame", "chain", rows.into())
    }
}

fn so_many(name: &'static str, most: usize, list: impl Fn(usize) -> Vec<Listed>) -> Table {
    let rows = (0..=most).map(|count| row(&count.to_string(), &list(count), BLOCK));
    let title = format!("So many {name}, nanoseconds a frame");
    Table {
        counts: true,
        ..Table::new(&title, name, rows.collect())
    }
}

fn in_a_delay(count: usize) -> Vec<Listed> {
    let mut stages = vec![delay(1_000, count)];
    stages.extend(vec![volume(); count]);
    stages
}

// The same four stages, more and more of them in each other.
fn nesting() -> Table {
    let rows = (0..=3).map(|depth| {
        let owned = |k: usize| if k + depth < 3 { 0 } else { 3 - k };
        let line = |k| delay(1_000, owned(k));
        let stages = [line(0), line(1), line(2), filter(0, 0.5)];
        row(&depth.to_string(), &stages, BLOCK)
    });
    let title = "Three delays and a filter in each other, nanoseconds a frame";
    Table::new(title, "depth", rows.collect())
}

fn blocks(name: &str, stages: &[Listed]) -> Table {
    let rows = [1, 64, 512, 4096].map(|block| row(&block.to_string(), stages, block));
    let title = format!("Blocks: {name}, nanoseconds a frame");
    Table::new(&title, "frames a block", rows.into())
}

// What a call costs whatever its block.
fn calls() -> Table {
    let volumes = [0, 1, 2, 4, 8, 16];
    let volumes = volumes.map(|count| row(&format!("volumes: {count}"), &vec![volume(); count], 0));
    let typical = typical().map(|(name, stages)| row(name, &stages, 0));
    let rows = volumes.into_iter().chain(typical).collect();
    Table::new("A call with no frame, nanoseconds a call", "chain", rows)
}

// The same filter with a root fewer, since the root of 0 is told without working it out.
fn mixes() -> Table {
    let rows = [0.5, 1.0].map(|mix| row(&mix.to_string(), &[filter(0, mix)], BLOCK));
    Table::new(
        "A filter by its mix, nanoseconds a frame",
        "mix",
        rows.into(),
    )
}

// An operation on each of these, beside the Rust's.
fn operation<T: Copy + 'static, U, V>(
    name: &str,
    given: &[T],
    ours: impl Fn(T) -> U + 'static,
    rust: impl Fn(T) -> V + 'static,
) -> Row {
    let (all, all_again) = (given.to_vec(), given.to_vec());
    let each = move || all.iter().for_each(|&x| keep(ours(black_box(x))));
    let each_again = move || all_again.iter().for_each(|&x| keep(rust(black_box(x))));
    Row::new(
        name,
        given.len(),
        [Timed::new(each), Timed::new(each_again)],
    )
}

fn keep<T>(result: T) {
    black_box(result);
}

fn coefficients(name: &str, kind: u32) -> Row {
    let g = fed::tangent(1_000);
    operation(
        name,
        &[kind; BLOCK],
        move |kind| sedhavil_coefficients(kind, g, 0.7, 4),
        |kind| kira_coefficients(kind, 1_000, 0.7, 4),
    )
}

// In a chain a root is taken of the same number at every frame; numbers at random show what it costs
// where the processor cannot foresee its digits.
fn operations() -> Table {
    let parts: Vec<f32> = noise(BLOCK).iter().map(|x| x + 0.5).collect();
    let (half, tenth) = ([0.5; BLOCK], [1.2589254117941673; BLOCK]);
    let root = |x: f32| sedhavil_sqrt_f32(x);
    let root_f64 = |x: f64| sedhavil_sqrt_f64(x);
    let narrow = |x: f64| sedhavil_as_f32(x);
    let amplitude = |x: i32| sedhavil_amplitude(x);
    let rows = vec![
        operation("root of 0.5 in f32", &half, root, f32::sqrt),
        operation("root of f32s at random", &parts, root, f32::sqrt),
        operation("root of 10^0.1 in f64", &tenth, root_f64, f64::sqrt),
        operation("f64 to f32", &tenth, narrow, |x| x as f32),
        operation("amplitude of -1 dB", &[-1; BLOCK], amplitude, |x| {
            Decibels(x as f32).as_amplitude()
        }),
        coefficients("coefficients of a bell", 0),
        coefficients("coefficients of a low shelf", 1),
        coefficients("coefficients of a high shelf", 2),
    ];
    Table {
        heads: ["operation", "ours", "Rust"],
        ..Table::new("Single operations, nanoseconds each", "operation", rows)
    }
}

fn main() {
    let mut tables = vec![
        kinds_alone(),
        typical_chains(),
        by_an_order(),
        so_many("volumes", 16, |count| vec![volume(); count]),
        so_many("bells", 16, |count| vec![eq(0); count]),
        so_many("volumes in a delay", 15, in_a_delay),
        nesting(),
        blocks("volume", &[volume()]),
    ];
    tables.extend(typical().map(|(name, stages)| blocks(name, &stages)));
    tables.extend([calls(), mixes(), operations()]);
    for _ in 0..ROUNDS {
        let rows = tables.iter_mut().flat_map(|table| &mut table.rows);
        rows.for_each(Row::round);
    }
    tables.iter().for_each(Table::print);
    let rows = tables.iter().flat_map(|table| &table.rows);
    let differing: Vec<&str> = rows
        .filter(|row| !row.agrees)
        .map(|row| &*row.name)
        .collect();
    println!("\nrows that did not give kira's bits: {differing:?}");
}
