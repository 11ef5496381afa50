// The echo of crates/test_block_sizes by kira's own delay and panning, on one block of 4,096 frames: prints
// the two samples with which crates/test_block_sizes/stdout begins.
#[allow(dead_code)]
mod fed;
#[allow(dead_code)]
mod linked;

use kira::effect::Effect;
use kira::effect::delay::DelayBuilder;
use kira::effect::panning_control::PanningControlBuilder;
use kira::info::Info;
use kira::{Decibels, Frame, Mix, Panning, Value};
use std::time::Duration;

const RATE: u32 = 44_100;
const FRAMES: usize = 4_096;

fn noise(i: usize) -> f32 {
    (i % 8192 * 40503 % 65536) as f32 / 65536.0 - 0.5
}

fn main() {
    let mut frames: Vec<Frame> = (0..FRAMES)
        .map(|i| Frame::new(noise(2 * i), noise(2 * i + 1)))
        .collect();
    let mut delay = DelayBuilder {
        // exactly 100 frames
        delay_time: Duration::from_secs_f64(100.5 / RATE as f64),
        feedback: Value::Fixed(Decibels(-6.0)),
        mix: Value::Fixed(Mix(0.5)),
        feedback_effects: Vec::new(),
    }
    .open();
    let mut panning = PanningControlBuilder(Value::Fixed(Panning(0.25))).open();
    let effects: [&mut dyn Effect; 2] = [&mut delay, &mut panning];
    for effect in effects {
        effect.init(RATE, FRAMES);
        effect.process(&mut frames, 1.0, &Info);
    }
    println!("frame 150, left: {:08x}", frames[150].left.to_bits());
    println!("frame 4095, right: {:08x}", frames[4095].right.to_bits());
}
