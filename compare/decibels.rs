// Where Rust's `powf` differs from the nearest float, for the amplitudes that the crate `decibels`
// has as tables. Its source is the argument: the nearest floats are read out of it.
//
//   decibels PATH            a line for each table: how many entries, and how many of them differ
//   decibels --table PATH    those that differ, as Markdown
//
// The arguments of `powf` go through `black_box`, so that libm's answer is taken at run time and not
// the compiler's.
use std::hint::black_box;
use std::process::ExitCode;

struct Table {
    title: &'static str,
    // its name in the source, and the k of its first entry
    name: &'static str,
    first: i32,
    // of its bits
    width: usize,
    rust: fn(i32) -> u64,
}

const TABLES: [Table; 2] = [
    Table {
        title: "`10.0f32.powf(k as f32 / 20.0)`",
        name: "AMPLITUDES",
        first: -59,
        width: 32,
        rust: |k| {
            black_box(10.0f32)
                .powf(black_box(k as f32 / 20.0))
                .to_bits() as u64
        },
    },
    Table {
        title: "`10.0f64.powf(k as f64 / 40.0)`",
        name: "EQ_AMPLITUDES",
        first: -24,
        width: 64,
        rust: |k| {
            black_box(10.0f64)
                .powf(black_box(k as f64 / 40.0))
                .to_bits()
        },
    },
];

// The numbers of `const NAME: [..] = [ .. ];`
fn entries(source: &str, name: &str) -> Vec<u64> {
    let start = format!("const {name}: [");
    let (_, after) = source.split_once(&start).expect(name);
    let (_, body) = after.split_once("= [").expect(name);
    let (body, _) = body.split_once("];").expect(name);
    let number = |word: &str| {
        let digits = word.trim().strip_prefix("0x").expect(word);
        u64::from_str_radix(&digits.replace('_', ""), 16).expect(word)
    };
    let words = body.split(',').filter(|word| !word.trim().is_empty());
    words.map(number).collect()
}

fn show(table: &Table, source: &str, as_markdown: bool) {
    let nearest = entries(source, table.name);
    let rows = (table.first..)
        .zip(&nearest)
        .map(|(k, &nearest)| (k, nearest, (table.rust)(k)));
    let different: Vec<_> = rows.filter(|row| row.1 != row.2).collect();
    let last = table.first + nearest.len() as i32 - 1;
    println!(
        "{}, k from {} to {last}: {} of {} differ from the nearest float",
        table.title,
        table.first,
        different.len(),
        nearest.len()
    );
    if as_markdown {
        println!("\n| k | nearest | Rust's | units in the last place |\n|---:|---|---|---:|");
        let digits = table.width / 4;
        for (k, nearest, rust) in different {
            // both are positive, so that bits one apart are neighbours
            let units = rust as i64 - nearest as i64;
            println!("| {k} | `0x{nearest:0digits$x}` | `0x{rust:0digits$x}` | {units:+} |");
        }
    }
}

fn main() -> ExitCode {
    let arguments: Vec<String> = std::env::args().skip(1).collect();
    let (as_markdown, path) = match &arguments[..] {
        [path] => (false, path),
        [mode, path] if mode == "--table" => (true, path),
        _ => {
            eprintln!("decibels [--table] crates/decibels/src/lib.rt");
            return ExitCode::from(2);
        }
    };
    let source = std::fs::read_to_string(path).expect(path);
    let [single, double] = &TABLES;
    show(single, &source, as_markdown);
    if as_markdown {
        println!();
    }
    show(double, &source, as_markdown);
    ExitCode::SUCCESS
}
