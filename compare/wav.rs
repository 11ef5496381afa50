// A WAV file through kira's own reverb, with the settings of crates/program_wav_reverb: from standard input to
// standard output, kira's `process` called on so many frames at a time.
//
//   wav BLOCK                 renders
//   wav --noise RATE FRAMES   makes a file of noise at full scale to render
#[allow(dead_code)]
mod fed;
#[allow(dead_code)]
mod linked;

use kira::effect::Effect;
use kira::effect::reverb::ReverbBuilder;
use kira::info::Info;
use kira::{Frame, Mix, Value};
use std::io::{Read, Write};

const HEADER: usize = 44;

fn number(bytes: &[u8]) -> u32 {
    u32::from_le_bytes(bytes.try_into().expect("four bytes"))
}

fn header(rate: u32, size: u32) -> Vec<u8> {
    let mut bytes = Vec::new();
    bytes.extend(b"RIFF");
    bytes.extend((size + 36).to_le_bytes());
    bytes.extend(b"WAVEfmt \x10\0\0\0\x01\0\x02\0");
    bytes.extend(rate.to_le_bytes());
    bytes.extend((4 * rate).to_le_bytes());
    bytes.extend(b"\x04\0\x10\0data");
    bytes.extend(size.to_le_bytes());
    bytes
}

fn noise(rate: u32, frames: u32) -> Vec<u8> {
    let mut bytes = header(rate, 4 * frames);
    let mut seed = rate;
    for _ in 0..2 * frames {
        seed = seed.wrapping_mul(1664525).wrapping_add(1013904223);
        bytes.extend(((seed >> 16) as u16).to_le_bytes());
    }
    bytes
}

fn sample_in(bytes: &[u8]) -> f32 {
    i16::from_le_bytes([bytes[0], bytes[1]]) as f32 / 32768.0
}

// `as` holds to the range, and gives 0 for NaN
fn sample_out(x: f32) -> [u8; 2] {
    ((x * 32768.0).round_ties_even() as i16).to_le_bytes()
}

fn rendered(input: &[u8], block: usize) -> Vec<u8> {
    let (head, data) = input.split_at(HEADER);
    let mut reverb = ReverbBuilder {
        feedback: Value::Fixed(0.9f32 as f64),
        damping: Value::Fixed(0.1f32 as f64),
        stereo_width: Value::Fixed(1.0),
        mix: Value::Fixed(Mix(0.5)),
    }
    .open();
    reverb.init(number(&head[24..28]), block);
    let mut frames: Vec<Frame> = data
        .chunks_exact(4)
        .map(|bytes| Frame::new(sample_in(&bytes[..2]), sample_in(&bytes[2..])))
        .collect();
    for part in frames.chunks_mut(block) {
        reverb.process(part, 1.0, &Info);
    }
    let mut bytes = head.to_vec();
    for frame in frames {
        bytes.extend(sample_out(frame.left));
        bytes.extend(sample_out(frame.right));
    }
    bytes
}

fn main() {
    let words: Vec<String> = std::env::args().skip(1).collect();
    let word = |i: usize| words[i].parse::<u32>().expect("a number");
    let output = if words[0] == "--noise" {
        noise(word(1), word(2))
    } else {
        let mut input = Vec::new();
        std::io::stdin().read_to_end(&mut input).expect("input");
        rendered(&input, word(0) as usize)
    };
    std::io::stdout().write_all(&output).expect("output");
}
