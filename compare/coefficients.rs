// Prints crates/test_float_answers/src/coefficients.rt: settings of EQs and the six coefficients that kira
// works out of them in f64, where the order of operations shows without a search.
use crate::alone::kira_coefficients;
use crate::common::{Random, bits64};
use crate::fed;
use crate::written::{print_array, print_listed};

const HONEST: usize = 42;
const SPOILT: usize = 6;

// from 2^-13 to 2^8, where sums have digits to lose
fn key(random: &mut Random) -> u64 {
    loop {
        let key = random.next() >> 16;
        if fed::tangent(key) < 256.0 {
            return key;
        }
    }
}

pub fn print() {
    let random = &mut Random(0x5ed1_0022);
    let (mut gs, mut qs, mut gains, mut answers) = (vec![], vec![], vec![], vec![]);
    for i in 0..HONEST + SPOILT {
        let (kind, gain) = (i as u32 % 3, random.between(-24, 24));
        let (key, q) = (key(random), 0.1 + 10.0 * random.unit());
        let mut six = kira_coefficients(kind, key, q, gain).map(bits64);
        if i >= HONEST {
            six[i - HONEST] ^= 1;
        }
        gs.push(bits64(fed::tangent(key)));
        qs.push(bits64(q));
        gains.push(gain.to_string());
        answers.extend(six);
    }
    println!(
        "// Settings of EQs, their kinds in turn, and what kira's `Coefficients::calculate` answers to them, as bits."
    );
    println!(
        "// The last six answers are spoilt, each in one of the six coefficients, and must be found to differ."
    );
    println!("// Printed by `effects --coefficients`.");
    print_array("The tangent g.", "G", 64, &gs);
    print_array("The setting q.", "Q", 64, &qs);
    print_listed("The gain, in dB.", "GAIN", "i32", gains.into_iter());
    print_array(
        "a1, a2, a3, m0, m1 and m2, each time.",
        "ANSWERS",
        64,
        &answers,
    );
}
