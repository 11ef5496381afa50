// What the programs of this folder share: random numbers, and bits to compare.

// Marsaglia's xorshift64 with the multiplier of xorshift64*: the same numbers at every run.
pub struct Random(pub u64);

impl Random {
    pub fn next(&mut self) -> u64 {
        self.0 ^= self.0 >> 12;
        self.0 ^= self.0 << 25;
        self.0 ^= self.0 >> 27;
        self.0.wrapping_mul(0x2545_f491_4f6c_dd1d)
    }

    // at most 2^32
    pub fn below(&mut self, n: u64) -> u64 {
        (self.next() >> 32) * n >> 32
    }
}

// Every NaN counts as one.

pub fn bits32(x: f32) -> u64 {
    if x.is_nan() {
        0x7fc0_0000
    } else {
        x.to_bits() as u64
    }
}

// chains.rs has no f64 to compare
#[allow(dead_code)]
pub fn bits64(x: f64) -> u64 {
    if x.is_nan() {
        0x7ff8_0000_0000_0000
    } else {
        x.to_bits()
    }
}
