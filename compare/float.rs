// Holds the crates `float` and `rounding`, by way of the library of `compare_effects`, to the machine's
// own operations as Rust gives them: bit for bit, with every NaN counted as one. `compare/run` builds
// and runs it.
//
//   float            a line for each function: how many inputs, and how many of them differ
//   float --all      also every f32, and every tie between two neighbouring f32 (minutes)
//   float --sample   prints crates/test_float_answers/src/sample.rt: answers of Rust's, and nothing of ours
mod common;
#[allow(dead_code)]
mod linked;
mod written;

use common::{Random, bits32, bits64};
use linked::{
    sedhavil_abs_f32, sedhavil_as_f32, sedhavil_at_least_hundredth_f64,
    sedhavil_clamp_signed_unit_f32, sedhavil_clamp_unit_f32, sedhavil_clamp_unit_f64,
    sedhavil_sqrt_f32, sedhavil_sqrt_f64,
};
use std::collections::HashSet;
use std::hint::black_box;
use std::process::ExitCode;
use written::print_array;

// Random inputs of each kind, and differences that are printed.
const RANDOM: u64 = 1_000_000;
const SHOWN: u64 = 5;

// ---- values by their bits; u64 holds those of either width

fn single(bits: u64) -> f32 {
    f32::from_bits(bits as u32)
}

// From the bits of an input to the bits of the answer.
type Operation = fn(u64) -> u64;

struct Pair {
    name: &'static str,
    ours: Operation,
    rust: Operation,
}

const SQRT_F32: Pair = Pair {
    name: "sqrt_f32",
    ours: |b| bits32(sedhavil_sqrt_f32(single(b))),
    rust: |b| bits32(black_box(single(b)).sqrt()),
};
const SQRT_F64: Pair = Pair {
    name: "sqrt_f64",
    ours: |b| bits64(sedhavil_sqrt_f64(f64::from_bits(b))),
    rust: |b| bits64(black_box(f64::from_bits(b)).sqrt()),
};
const AS_F32: Pair = Pair {
    name: "as_f32",
    ours: |b| bits32(sedhavil_as_f32(f64::from_bits(b))),
    rust: |b| bits32(black_box(f64::from_bits(b)) as f32),
};
const ABS_F32: Pair = Pair {
    name: "abs_f32",
    ours: |b| bits32(sedhavil_abs_f32(single(b))),
    rust: |b| bits32(black_box(single(b)).abs()),
};
const CLAMP_UNIT_F32: Pair = Pair {
    name: "clamp_unit_f32",
    ours: |b| bits32(sedhavil_clamp_unit_f32(single(b))),
    rust: |b| bits32(black_box(single(b)).clamp(0.0, 1.0)),
};
const CLAMP_BOTH_F32: Pair = Pair {
    name: "clamp_signed_unit_f32",
    ours: |b| bits32(sedhavil_clamp_signed_unit_f32(single(b))),
    rust: |b| bits32(black_box(single(b)).clamp(-1.0, 1.0)),
};
const CLAMP_UNIT_F64: Pair = Pair {
    name: "clamp_unit_f64",
    ours: |b| bits64(sedhavil_clamp_unit_f64(f64::from_bits(b))),
    rust: |b| bits64(black_box(f64::from_bits(b)).clamp(0.0, 1.0)),
};
const AT_LEAST_HUNDREDTH_F64: Pair = Pair {
    name: "at_least_hundredth_f64",
    ours: |b| bits64(sedhavil_at_least_hundredth_f64(f64::from_bits(b))),
    rust: |b| bits64(black_box(f64::from_bits(b)).max(0.01)),
};

// ---- inputs

// A format: the digits after the first, and the width of its patterns.
#[derive(Clone, Copy)]
struct Format {
    digits: u32,
    width: u32,
}

const F32: Format = Format {
    digits: 23,
    width: 32,
};
const F64: Format = Format {
    digits: 52,
    width: 64,
};

impl Format {
    fn mask(self) -> u64 {
        u64::MAX >> (64 - self.width)
    }

    // the exponent field of the infinities
    fn ones(self) -> u64 {
        (1 << (self.width - 1 - self.digits)) - 1
    }

    // the exponent field of 1
    fn bias(self) -> u64 {
        self.ones() / 2
    }

    fn pattern(self, field: u64, digits: u64) -> u64 {
        field << self.digits | digits & ((1 << self.digits) - 1)
    }

    // the pattern of whole * 2^e, which must fit exactly
    fn of_whole(self, whole: u64, e: i64) -> u64 {
        let length = 64 - whole.leading_zeros() as i64;
        let field = length - 1 + e + self.bias() as i64;
        let digits = whole << (self.digits as i64 + 1 - length);
        assert!(length <= self.digits as i64 + 1 && 0 < field && field < self.ones() as i64);
        self.pattern(field as u64, digits)
    }
}

// b and the three patterns on either side.
fn around(f: Format, b: u64, visit: &mut impl FnMut(u64)) {
    for d in 0..7u64 {
        visit(b.wrapping_add(d).wrapping_sub(3) & f.mask());
    }
}

// Each sign and exponent field, with each power of two as its digits, and none and all of them, and
// the neighbours of each: so every class, every power of two, the subnormals, the largest values,
// and NaN of many patterns.
fn edges(f: Format, visit: &mut impl FnMut(u64)) {
    for head in 0..=f.mask() >> f.digits {
        let start = head << f.digits;
        around(f, start, visit);
        for place in 2..f.digits {
            around(f, start | 1 << place, visit);
        }
    }
}

fn random_bits(f: Format, random: &mut Random, visit: &mut impl FnMut(u64)) {
    for _ in 0..RANDOM {
        visit(random.next() & f.mask());
    }
}

// Fields from..to at the same rate, with random digits, of which a random number are zeros at the end.
fn random_digits(f: Format, from: u64, to: u64, random: &mut Random, visit: &mut impl FnMut(u64)) {
    for _ in 0..RANDOM {
        let field = from + random.below(to - from);
        let zeros = random.below(f.digits as u64 + 1);
        visit(f.pattern(field, random.next() >> zeros << zeros));
    }
}

// An even exponent at which a whole number of the format's length is finite and normal.
fn even_exponent(f: Format, random: &mut Random) -> i64 {
    let half = f.bias() / 2 - f.digits as u64;
    2 * (random.below(2 * half) as i64 - half as i64)
}

// Perfect squares, products of two neighbouring whole numbers (whose roots lie just below the middle
// between them), and the neighbours of both, at every size.
fn squares(f: Format, random: &mut Random, visit: &mut impl FnMut(u64)) {
    let longest = (f.digits as u64 + 1) / 2;
    for _ in 0..RANDOM / 10 {
        let length = 1 + random.below(longest);
        let n = 1 + random.below((1 << length) - 1);
        let e = even_exponent(f, random);
        around(f, f.of_whole(n * n, e), visit);
        if n + 1 < 1 << longest {
            around(f, f.of_whole(n * (n + 1), e), visit);
        }
    }
}

// The roots that lie nearest to a middle of two neighbours, which is an odd whole number y of one
// digit more than the format has: y * y = x * 2^k + d for a small d. Such y are the roots of d
// modulo 2^k, one digit at a time.
fn near_ties(f: Format, count: i128, random: &mut Random, visit: &mut impl FnMut(u64)) {
    let p = f.digits + 1;
    for j in -count..count {
        let d = 8 * j + 1;
        for k in [p + 1, p + 2] {
            let mut y: i128 = 1;
            for place in 3..k {
                if (y * y - d) >> place & 1 == 1 {
                    y += 1 << (place - 1);
                }
            }
            let (half, whole) = (1i128 << (k - 1), 1i128 << k);
            for root in [y, whole - y, (y + half) % whole, (half - y + whole) % whole] {
                let x = (root * root - d) >> k;
                if root >> p == 1 && x >> (p - 1) == 1 {
                    assert!(root * root == (x << k) + d);
                    let e = even_exponent(f, random) + (k % 2) as i64;
                    visit(f.of_whole(x as u64, e));
                }
            }
        }
    }
}

fn roots(f: Format, visit: &mut impl FnMut(u64)) {
    let mut random = Random(0x5ed1_0001);
    edges(f, visit);
    random_bits(f, &mut random, visit);
    random_digits(f, 0, f.ones(), &mut random, visit);
    squares(f, &mut random, visit);
    near_ties(f, 50_000, &mut random, visit);
}

// The f32 with these bits, as an f64's bits; past the largest comes 2^128, where infinity begins.
fn widened(b: u64) -> u64 {
    let sign = b >> 31 << 63;
    match b & 0x7fff_ffff {
        0x7f80_0000 => sign | 0x47f0_0000_0000_0000,
        _ => (single(b) as f64).to_bits(),
    }
}

// The middle between a finite f32 and the next one away from 0, as an f64's bits: a tie.
fn middle(b: u64) -> u64 {
    let sum = f64::from_bits(widened(b)) + f64::from_bits(widened(b + 1));
    (sum / 2.0).to_bits()
}

// A finite f32 and the tie past it, and the f64 next to both.
fn ties(b: u64, visit: &mut impl FnMut(u64)) {
    if b & 0x7fff_ffff < 0x7f80_0000 {
        around(F64, widened(b), visit);
        around(F64, middle(b), visit);
    }
}

fn narrowings(visit: &mut impl FnMut(u64)) {
    let mut random = Random(0x5ed1_0002);
    edges(F64, visit);
    random_bits(F64, &mut random, visit);
    // from below the smallest f32's half to above the largest f32
    random_digits(F64, 870, 1154, &mut random, visit);
    edges(F32, &mut |b| ties(b, visit));
    random_bits(F32, &mut random, &mut |b| ties(b, visit));
    random_digits(F32, 0, 2, &mut random, &mut |b| ties(b, visit));
}

// For clamps: the edges have the bounds 0 and 1 and their neighbours; here come those of 0.01, and
// random values around the bounds.
fn bounded(f: Format, visit: &mut impl FnMut(u64)) {
    let mut random = Random(0x5ed1_0003);
    edges(f, visit);
    random_bits(f, &mut random, visit);
    let hundredth = if f.width == 32 {
        bits32(0.01)
    } else {
        bits64(0.01)
    };
    for sign in [0, 1 << (f.width - 1)] {
        around(f, hundredth | sign, visit);
        random_digits(f, f.bias() - 8, f.bias() + 3, &mut random, &mut |b| {
            visit(b | sign)
        });
    }
}

// ---- the comparison

fn compare(pair: &Pair, inputs: impl FnOnce(&mut dyn FnMut(u64))) -> bool {
    let (mut count, mut differences) = (0u64, 0u64);
    inputs(&mut |b| {
        let (ours, rust) = ((pair.ours)(b), (pair.rust)(b));
        count += 1;
        if ours != rust {
            differences += 1;
            if differences <= SHOWN {
                println!(
                    "  {} of {b:#x}: ours {ours:#x}, Rust's {rust:#x}",
                    pair.name
                );
            }
        }
    });
    println!(
        "{:<24}{count:>12} inputs {differences:>6} differences",
        pair.name
    );
    differences == 0
}

fn compare_some() -> bool {
    let mut same = true;
    same &= compare(&SQRT_F32, |mut visit| roots(F32, &mut visit));
    same &= compare(&SQRT_F64, |mut visit| roots(F64, &mut visit));
    same &= compare(&AS_F32, |mut visit| narrowings(&mut visit));
    for pair in [&ABS_F32, &CLAMP_UNIT_F32, &CLAMP_BOTH_F32] {
        same &= compare(pair, |mut visit| bounded(F32, &mut visit));
    }
    for pair in [&CLAMP_UNIT_F64, &AT_LEAST_HUNDREDTH_F64] {
        same &= compare(pair, |mut visit| bounded(F64, &mut visit));
    }
    same
}

fn compare_all() -> bool {
    let mut same = true;
    for pair in [&SQRT_F32, &ABS_F32, &CLAMP_UNIT_F32, &CLAMP_BOTH_F32] {
        same &= compare(pair, |visit| (0..1 << 32).for_each(visit));
    }
    same &= compare(&AS_F32, |visit| {
        for b in 0..1u64 << 32 {
            if b & 0x7fff_ffff < 0x7f80_0000 {
                let tie = middle(b);
                [widened(b), tie - 1, tie, tie + 1]
                    .into_iter()
                    .for_each(&mut *visit);
            }
        }
    });
    same
}

// ---- the sample

// Of what a generator visits, `count` that are spread evenly.
fn spread(count: usize, inputs: impl Fn(&mut dyn FnMut(u64))) -> Vec<u64> {
    let mut all = Vec::new();
    inputs(&mut |b| all.push(b));
    (0..count).map(|i| all[i * all.len() / count]).collect()
}

// Each of these once, and as many of what a generator visits as a hundred leaves room for.
fn filled(mut chosen: Vec<u64>, inputs: impl Fn(&mut dyn FnMut(u64))) -> Vec<u64> {
    let mut seen = HashSet::new();
    chosen.retain(|&b| seen.insert(b));
    chosen.extend(spread(100 - chosen.len(), inputs));
    assert!(chosen.len() == chosen.iter().collect::<HashSet<_>>().len());
    chosen
}

fn sample_roots(f: Format) -> Vec<u64> {
    let (sign, top) = (1 << (f.width - 1), f.ones() << f.digits);
    let mut chosen = vec![0, sign, 1, 2, 3, sign | 1, top, sign | top, top | 1];
    chosen.extend([
        f.mask(),
        top - 1,
        sign | (top - 1),
        1 << f.digits,
        (1 << f.digits) - 1,
    ]);
    for whole in [1, 2, 3, 4, 5, 9, 16] {
        chosen.push(f.of_whole(whole, 0));
    }
    chosen.push(sign | f.of_whole(1, 0));
    let one = f.of_whole(1, 0);
    chosen.extend([one - 2, one - 1, one + 1, one + 2]);
    // subnormals
    chosen.extend(spread(10, |mut visit| {
        random_digits(f, 0, 1, &mut Random(0x5ed1_0004), &mut visit)
    }));
    chosen.extend(spread(14, |mut visit| {
        squares(f, &mut Random(0x5ed1_0005), &mut visit)
    }));
    chosen.extend(spread(20, |mut visit| {
        near_ties(f, 100, &mut Random(0x5ed1_0006), &mut visit)
    }));
    filled(chosen, |mut visit| {
        random_digits(f, 0, f.ones(), &mut Random(0x5ed1_0007), &mut visit)
    })
}

fn sample_narrowings() -> Vec<u64> {
    let (sign, top) = (1u64 << 63, 0x7ff0_0000_0000_0000u64);
    let mut chosen = vec![
        0,
        sign,
        1,
        sign | 1,
        top,
        sign | top,
        top | 1,
        u64::MAX,
        top - 1,
    ];
    chosen.extend([
        bits64(1.0),
        bits64(-1.0),
        bits64(0.1),
        bits64(1e39),
        bits64(-1e-46),
    ]);
    // the ties at nothing, among subnormals, at the first normal number, at 1, and at overflow
    for b in [
        0,
        1,
        2,
        3,
        0x7f_fffe,
        0x7f_ffff,
        0x80_0000,
        0x3f80_0000,
        0x3f80_0001,
        0x7f7f_ffff,
    ] {
        let tie = middle(b);
        chosen.extend([tie - 1, tie, tie + 1]);
        chosen.push(if b % 2 == 0 { sign | tie } else { widened(b) });
    }
    // six more ties among subnormals, and fourteen anywhere
    let mut random = Random(0x5ed1_0008);
    for i in 0..20 {
        let finite = if i < 6 { 0x807f_ffff } else { 0xff7f_ffff };
        chosen.push(middle(random.next() >> 32 & finite) - 1 + i % 3);
    }
    filled(chosen, |mut visit| {
        random_digits(F64, 870, 1154, &mut Random(0x5ed1_0009), &mut visit)
    })
}

// What clamps and the like tell apart: both zeros and what lies next to them, 1 and -1 with theirs, the
// largest, the infinities, NaN, and some further values.
fn sample_bounds(f: Format, further: &[u64]) -> Vec<u64> {
    let (sign, top) = (1 << (f.width - 1), f.ones() << f.digits);
    let (one, two) = (f.of_whole(1, 0), f.of_whole(2, 0));
    let positive = [0, 1, one - 1, one, one + 1, two, top - 1, top, top | 1];
    let mut chosen: Vec<u64> = positive.iter().flat_map(|&b| [b, sign | b]).collect();
    chosen.extend(further);
    chosen
}

// Two arrays of numbers: one array of pairs takes the prover ten times as long. After the inputs come the
// last two once more, with spoilt answers: of another sign, and with another lowest bit.
fn print_table(rust: &str, name: &str, from: u32, to: u32, pair: &Pair, inputs: &[u64]) {
    let mut inputs = inputs.to_vec();
    inputs.extend_from_within(inputs.len() - 2..);
    let mut answers: Vec<u64> = inputs.iter().map(|&b| (pair.rust)(b)).collect();
    let [.., sign, lowest] = &mut answers[..] else {
        panic!("no inputs");
    };
    *sign ^= 1 << (to - 1);
    *lowest ^= 1;
    let given = format!("What `{rust}` is given.");
    print_array(&given, &format!("{name}_INPUTS"), from, &inputs);
    let answered = format!("What Rust's `{rust}` answers.");
    print_array(&answered, &format!("{name}_ANSWERS"), to, &answers);
}

fn print_sample() {
    println!(
        "// Inputs, and the answers of Rust's own operations at the same places, as bits; a NaN is"
    );
    println!(
        "// answered by 0x7fc0_0000 or 0x7ff8_0000_0000_0000. The last two answers of each are spoilt and must be"
    );
    println!("// found to differ. Printed by `compare/run --sample`.");
    print_table(
        "f32::sqrt",
        "SQRT_F32",
        32,
        32,
        &SQRT_F32,
        &sample_roots(F32),
    );
    print_table(
        "f64::sqrt",
        "SQRT_F64",
        64,
        64,
        &SQRT_F64,
        &sample_roots(F64),
    );
    print_table("as f32", "AS_F32", 64, 32, &AS_F32, &sample_narrowings());
    let half = bits32(0.5);
    let singles = sample_bounds(F32, &[half, half | 1 << 31]);
    print_table("f32::abs", "ABS_F32", 32, 32, &ABS_F32, &singles);
    let unit = "f32::clamp(0.0, 1.0)";
    print_table(unit, "UNIT_F32", 32, 32, &CLAMP_UNIT_F32, &singles);
    let both = "f32::clamp(-1.0, 1.0)";
    print_table(both, "SIGNED_UNIT_F32", 32, 32, &CLAMP_BOTH_F32, &singles);
    let hundredth = bits64(0.01);
    let doubles = sample_bounds(F64, &[hundredth - 1, hundredth, hundredth + 1, bits64(0.5)]);
    let unit = "f64::clamp(0.0, 1.0)";
    print_table(unit, "UNIT_F64", 64, 64, &CLAMP_UNIT_F64, &doubles);
    let least = &AT_LEAST_HUNDREDTH_F64;
    print_table("f64::max(0.01)", "HUNDREDTH_F64", 64, 64, least, &doubles);
}

fn main() -> ExitCode {
    let arguments: Vec<String> = std::env::args().skip(1).collect();
    let same = match arguments.iter().map(String::as_str).collect::<Vec<_>>()[..] {
        [] => compare_some(),
        ["--all"] => compare_some() & compare_all(),
        ["--sample"] => {
            print_sample();
            true
        }
        _ => {
            eprintln!("float [--all | --sample]");
            return ExitCode::from(2);
        }
    };
    ExitCode::from(u8::from(!same))
}
