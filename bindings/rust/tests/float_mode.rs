//! The promises hold in the default float mode. Shown once: the smallest positive f32 through a volume of
//! 0 dB, which is a product with 1, comes out as it went in; where the host has set flush-to-zero it comes
//! out as 0.
#![cfg(target_arch = "x86_64")]

use sedhavil::{Chain, Stage};
use std::arch::asm;

const FLUSH_TO_ZERO: u32 = 1 << 15;

fn control() -> u32 {
    let mut word = 0u32;
    // SAFETY: stores MXCSR into `word`.
    unsafe { asm!("stmxcsr [{}]", in(reg) &mut word, options(nostack)) };
    word
}

fn set_control(word: u32) {
    // SAFETY: `word` is MXCSR as read, with one defined bit changed at most.
    unsafe { asm!("ldmxcsr [{}]", in(reg) &word, options(nostack)) };
}

/// The smallest f32 on both sides, through a volume of 0 dB, with these bits of MXCSR set during the call.
fn through_0_db(set: u32) -> [u32; 2] {
    let mut chain = Chain::new(48_000, &[Stage::VolumeControl { volume: 0 }]).unwrap();
    let mut samples = [f32::from_bits(1); 2];
    let before = control();
    set_control(before | set);
    let answer = chain.render(&mut samples);
    set_control(before);
    assert_eq!(answer, Ok(()));
    samples.map(f32::to_bits)
}

#[test]
fn default_mode() {
    assert_eq!(control() & 0xe040, 0, "a new thread has the default mode");
    assert_eq!(through_0_db(0), [1, 1]);
}

#[test]
fn flush_to_zero() {
    assert_eq!(through_0_db(FLUSH_TO_ZERO), [0, 0]);
}
