// Random numbers for a comparison: samples, and each setting of a stage, with the edges of its range
// and what lies beyond them.
use crate::common::Random;
use crate::fed;

impl Random {
    pub fn one_of<T: Copy>(&mut self, values: &[T]) -> T {
        values[self.below(values.len() as u64) as usize]
    }

    pub fn between(&mut self, low: i32, high: i32) -> i32 {
        low + self.below((high - low + 1) as u64) as i32
    }

    // from 0 to below 1
    pub fn unit(&mut self) -> f64 {
        (self.next() >> 11) as f64 / (1u64 << 53) as f64
    }

    pub fn any_f32(&mut self) -> f32 {
        f32::from_bits(self.next() as u32)
    }

    pub fn any_f64(&mut self) -> f64 {
        f64::from_bits(self.next())
    }
}

const LEAST: f32 = f32::from_bits(1);
const HALF_UNIT: f32 = f32::EPSILON / 2.0;

// For samples, mixes and pannings alike.
pub const SINGLES: [f32; 32] = [
    0.0,
    -0.0,
    1.0,
    -1.0,
    0.5,
    -0.5,
    2.0,
    -2.0,
    1.0 + f32::EPSILON,
    -1.0 - f32::EPSILON,
    1.0 - HALF_UNIT,
    -1.0 + HALF_UNIT,
    f32::EPSILON,
    HALF_UNIT,
    -HALF_UNIT,
    // 2^-30
    9.313226e-10,
    -9.313226e-10,
    LEAST,
    -LEAST,
    // the largest subnormal
    1.1754942e-38,
    -1.1754942e-38,
    f32::MIN_POSITIVE,
    -f32::MIN_POSITIVE,
    f32::MAX,
    f32::MIN,
    f32::MAX.next_down(),
    f32::MIN.next_up(),
    1e30,
    -1e30,
    f32::INFINITY,
    f32::NEG_INFINITY,
    f32::NAN,
];

// For resonances.
pub const DOUBLES: [f64; 20] = [
    0.0,
    -0.0,
    1.0,
    -1.0,
    0.5,
    2.0,
    1.0 - f64::EPSILON / 2.0,
    1.0 + f64::EPSILON,
    f64::EPSILON,
    5e-324,
    -5e-324,
    f64::MIN_POSITIVE,
    0.1,
    f64::MAX,
    f64::MIN,
    f64::MAX.next_down(),
    f64::MIN.next_up(),
    f64::INFINITY,
    f64::NEG_INFINITY,
    f64::NAN,
];

pub const QS: [f64; 25] = [
    0.0,
    -0.0,
    0.01,
    0.01f64.next_down(),
    0.01f64.next_up(),
    0.009,
    0.02,
    1000.0,
    1000.0f64.next_down(),
    1000.0f64.next_up(),
    1001.0,
    1.0,
    0.5,
    std::f64::consts::FRAC_1_SQRT_2,
    2.0,
    10.0,
    5e-324,
    -5e-324,
    f64::MIN_POSITIVE,
    -1.0,
    1e300,
    f64::MIN,
    f64::INFINITY,
    f64::NEG_INFINITY,
    f64::NAN,
];

pub fn audible(random: &mut Random) -> f32 {
    random.below(1 << 25) as f32 / (1 << 24) as f32 - 1.0
}

pub fn sample(random: &mut Random) -> f32 {
    match random.below(8) {
        0 => random.one_of(&SINGLES),
        1 | 2 => random.any_f32(),
        _ => audible(random),
    }
}

pub fn mix(random: &mut Random) -> f32 {
    match random.below(8) {
        0 | 1 => random.one_of(&SINGLES),
        2 => random.any_f32(),
        _ => random.unit() as f32,
    }
}

pub fn panning(random: &mut Random) -> f32 {
    match random.below(8) {
        0 | 1 => random.one_of(&SINGLES),
        2 => random.any_f32(),
        _ => audible(random),
    }
}

pub fn resonance(random: &mut Random) -> f64 {
    match random.below(8) {
        0 | 1 => random.one_of(&DOUBLES),
        2 => random.any_f64(),
        _ => random.unit(),
    }
}

pub fn q(random: &mut Random) -> f64 {
    match random.below(8) {
        0 | 1 => random.one_of(&QS),
        2 => random.any_f64(),
        3 => 1000.0 * random.unit(),
        // each power of two from 2^-8 on as often
        _ => (1.0 + random.unit()) * 2.0f64.powi(random.between(-8, 9)),
    }
}

pub fn volume(random: &mut Random) -> i32 {
    match random.below(8) {
        0 => random.one_of(&[24, 0, -59, -60, -61, -1000, i32::MIN]),
        _ => random.between(-61, 24),
    }
}

// Down to -60 dB, where both sides divide 0 by 0; a stage may not have that.
pub fn drive(random: &mut Random) -> i32 {
    match random.below(32) {
        0 => random.one_of(&[-60, -61, i32::MIN]),
        1 => random.one_of(&[0, -59, 24]),
        _ => random.between(-59, 24),
    }
}

pub fn gain(random: &mut Random) -> i32 {
    random.between(-24, 24)
}

pub fn key(random: &mut Random) -> u64 {
    match random.below(16) {
        0 => random.below(fed::EDGES.len() as u64),
        1 => random.below(fed::PROPER),
        _ => random.next() >> 16,
    }
}
