//! Traces the first steps of an image file from reset, without inputs.
//!
//! usage: cargo run --manifest-path examples/rust/Cargo.toml -- IMAGE STEPS

use std::error::Error;

const USAGE: &str = "usage: trace IMAGE STEPS";

fn main() -> Result<(), Box<dyn Error>> {
    let arguments: Vec<String> = std::env::args().skip(1).collect();
    let [image, steps] = arguments.as_slice() else {
        return Err(USAGE.into());
    };
    let image = yam::Image::load(&std::fs::read(image)?)?;
    let mut machine = yam::Machine::new(&image)?;
    for step in machine.trace(steps.parse()?) {
        println!("{}", step?);
    }
    println!("PC {:06x}", machine.record().pc);
    Ok(())
}
