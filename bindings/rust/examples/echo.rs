//! An echo in three blocks of two frames: 1, 0 and then silence, through a delay of two frames. Its feedback
//! falls silent before the third block. `bindings/rust/run` builds and runs this.
use sedhavil::{Chain, Stage};

fn echo(feedback: i32) -> Stage {
    Stage::Delay { frames: 2, feedback, mix: 1.0, owned: 0 }
}

fn render() -> Result<(), Box<dyn std::error::Error>> {
    let mut chain = Chain::new(48_000, &[echo(0)])?;
    println!("floats needed: {}", chain.store().len());
    let blocks = [[1.0, 1.0, 0.0, 0.0], [0.0; 4], [0.0; 4]]; // left and right in turn
    for (number, mut samples) in (1..).zip(blocks) {
        if number == 3 {
            chain.set(0, echo(-60))?;
        }
        chain.render(&mut samples)?;
        println!("block {number}: {} {}", samples[0], samples[2]);
    }
    Ok(())
}

fn main() {
    if let Err(refused) = render() {
        eprintln!("{refused}");
        std::process::exit(1);
    }
}
