//! From a formula to pen lines: a swirl on a vase, as SVG on standard output.
//!
//! ```text
//! cargo run --release --example vase >vase.svg
//! ```

use merlontrispa::{Refusal, Surface, Texture};
use std::f64::consts::TAU;

/// Steps around the vase.
const M: usize = 96;
/// Steps from foot to lip.
const N: usize = 60;

/// The surface: u goes once around and v from foot to lip, both from 0 to 1.
fn vase(u: f64, v: f64) -> [f64; 3] {
    let radius = 1.0 + 0.35 * (TAU * v).sin() - 0.3 * v;
    let (sine, cosine) = (TAU * u).sin_cos();
    [radius * cosine, radius * sine, 3.0 * v]
}

/// x, y and z of each point, point (u, v) at number u * (N + 1) + v.
fn grid() -> Vec<f64> {
    let step = |i: usize, steps: usize| i as f64 / steps as f64;
    let column = |u| (0..=N).flat_map(move |v| vase(step(u, M), step(v, N)));
    (0..=M).flat_map(column).collect()
}

/// A point on paper: from the side, a little from above.
fn projected([x, y, z]: [f64; 3]) -> String {
    format!("{:.2},{:.2}", 60.0 * x, 20.0 * y - 60.0 * z)
}

fn main() -> Result<(), Refusal> {
    let grid = grid();
    let surface = Surface::new(&grid, M, N)?;
    let (spacing, twist) = (3.0, 0.5);
    let lines = surface.texture_lines(Texture::Swirl { spacing, twist })?;
    eprintln!("seam in u: {:?}", surface.seams().u.mapping);
    eprintln!("{} lines", lines.iter().len());

    println!(r#"<svg xmlns="http://www.w3.org/2000/svg" viewBox="-100 -220 200 260">"#);
    println!(r#"<g fill="none" stroke="black" stroke-width="0.3">"#);
    for line in &lines {
        let points: Vec<_> = line.iter().map(|point| projected(*point)).collect();
        println!(r#"<polyline points="{}"/>"#, points.join(" "));
    }
    println!("</g>\n</svg>");
    Ok(())
}
