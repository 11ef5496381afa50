// kira's own `Frame` on listed inputs: prints crates/test_float_answers/src/frames.rt, which has the inputs
// and what each operation answers.
#[allow(dead_code)]
mod common;
mod written;

use common::bits32;
use kira::{Frame, Panning};
use written::print_array;

const LEAST: f32 = f32::from_bits(1);

// A frame, another frame, and a number.
const INPUTS: [[f32; 5]; 12] = [
    [0.3, -0.7, 0.1, 0.2, 3.0],
    [1.0, -1.0, f32::EPSILON / 2.0, f32::EPSILON, -1.0],
    [-0.0, 0.0, 0.0, -0.0, -0.0],
    [0.0, 0.0, -0.0, -0.0, 0.0],
    // too large for their sum, or for its half's being taken after it
    [f32::MAX, f32::MAX, f32::MAX, f32::MIN, 2.0],
    [f32::INFINITY, f32::NEG_INFINITY, f32::INFINITY, 1.0, 0.0],
    [f32::NAN, 1.0, 1.0, f32::NAN, 0.5],
    // the smallest, whose halves are rounded
    [LEAST, 2.0 * LEAST, LEAST, -LEAST, 0.5],
    [f32::MIN_POSITIVE, LEAST, -LEAST, f32::MIN_POSITIVE, 0.1],
    [1e30, -1e-30, 1e22, 1e-38, -0.3333],
    [16_777_216.0, 1.0, 1.0, 16_777_215.0, 7.0],
    [0.1, 0.7, -0.1, -0.7, f32::NAN],
];

const OPERATIONS: [(&str, fn(Frame, Frame, f32) -> Frame); 10] = [
    ("ZERO", |_, _, _| Frame::ZERO),
    ("NEW", |a, _, _| Frame::new(a.left, a.right)),
    ("FROM_MONO", |_, _, n| Frame::from_mono(n)),
    ("AS_MONO", |a, _, _| a.as_mono()),
    ("ADD", |a, b, _| a + b),
    ("SUB", |a, b, _| a - b),
    ("MUL", |a, _, n| a * n),
    ("DIV", |a, _, n| a / n),
    ("NEG", |a, _, _| -a),
    ("PANNED", |a, _, n| a.panned(Panning(n))),
];

// What an operation answers; then to the first two inputs once more, wrong on the left and on the right.
fn answers(operation: fn(Frame, Frame, f32) -> Frame) -> Vec<u64> {
    let answer = |[a, b, c, d, n]: [f32; 5]| {
        let frame = operation(Frame::new(a, b), Frame::new(c, d), n);
        [bits32(frame.left), bits32(frame.right)]
    };
    let mut answers: Vec<u64> = INPUTS.into_iter().flat_map(answer).collect();
    let [[left, right], [other_left, other_right]] = [answer(INPUTS[0]), answer(INPUTS[1])];
    answers.extend([left ^ 1, right, other_left, other_right ^ 1]);
    answers
}

fn main() {
    println!(
        "// Frames with a number, and the answers of kira's own operations, left and right, as bits; a NaN is"
    );
    println!(
        "// answered by 0x7fc0_0000. The last two answers of each are spoilt and must be found to differ."
    );
    println!("// Printed by compare/frames.rs.");
    let inputs = INPUTS.iter().chain(&INPUTS[..2]).flatten();
    let inputs: Vec<u64> = inputs.map(|&x| bits32(x)).collect();
    let said = "A frame, left and right, another frame and a number, each time.";
    print_array(said, "INPUTS", 32, &inputs);
    for (name, operation) in OPERATIONS {
        let said = format!("What kira's `{}` answers.", name.to_lowercase());
        print_array(&said, name, 32, &answers(operation));
    }
}
