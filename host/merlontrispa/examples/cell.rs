//! The program that README.md shows, word by word below this line.

use merlontrispa::{Refusal, Surface};

fn main() -> Result<(), Refusal> {
    // One cell, its last corner lifted, and a curve across it.
    let grid = [0.0, 0.0, 0.0, 0.0, 1.0, 0.0, 1.0, 0.0, 0.0, 1.0, 1.0, 5.0];
    let surface = Surface::new(&grid, 1, 1)?;
    let trace = surface.trace(&[Some([0.0, 0.25]), Some([1.0, 0.75])])?;
    for line in &trace.lines {
        println!("{line:?}");
    }
    Ok(())
}
