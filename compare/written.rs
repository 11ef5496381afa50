// Numbers as `rt fmt` keeps them, for files of Rattle that a comparison writes.

// A hexadecimal number, with _ between groups of four digits.
fn hex(bits: u64, width: u32) -> String {
    let groups = (0..width / 16)
        .rev()
        .map(|g| format!("{:04x}", bits >> (16 * g) & 0xffff));
    format!("0x{}", groups.collect::<Vec<_>>().join("_"))
}

pub fn print_array(what: &str, name: &str, width: u32, numbers: &[u64]) {
    let numbers = numbers.iter().map(|&bits| hex(bits, width));
    print_listed(what, name, &format!("u{width}"), numbers);
}

// The most characters of a line, and of a number of which several stand in one.
const LINE: usize = 100;
const SHORT: usize = 10;

// Numbers that are written out, of a type that is named.
pub fn print_listed(
    what: &str,
    name: &str,
    of: &str,
    numbers: impl ExactSizeIterator<Item = String>,
) {
    println!("\n// {what}");
    println!("pub const {name}: [{of}; {}] = [", numbers.len());
    let numbers: Vec<String> = numbers.collect();
    let are_short = numbers.iter().all(|number| number.len() <= SHORT);
    let mut line = String::new();
    for number in numbers {
        let has_room = are_short && line.len() + number.len() + 2 <= LINE;
        if has_room && !line.is_empty() {
            line = format!("{line} {number},");
        } else {
            print_line(&line);
            line = format!("    {number},");
        }
    }
    print_line(&line);
    println!("];");
}

fn print_line(line: &str) {
    if !line.is_empty() {
        println!("{line}");
    }
}
