//! Draws a surface as a card: an SVG file. `draw --help` explains the options.
//!
//! The seams, the triangles, the grid lines, the textures and the traces are the proved library's; the
//! surface's formula, cosine and sine, and the camera are this program's.

mod camera;
mod drawing;
mod pieces;
mod seams;
mod svg;

use camera::Camera;
use drawing::Drawing;
use merlontrispa::{Mapping, Plan, Refusal, Surface, Texture, Tolerances};
use options::{HELP, Options, Request, Seam, Style};
use std::io::Write;
use std::process::ExitCode;

/// The output that is no file.
const STDOUT: &str = "-";

/// The most samples of a texture: they are drawn in seconds, and a card shows no more.
const SAMPLES: usize = 1_000_000;

fn main() -> ExitCode {
    match Request::from_args() {
        Err(sentence) => failed(&sentence, 2),
        Ok(Request::Help) => ended(write(STDOUT, HELP)),
        Ok(Request::Card(options)) => ended(draw(&options)),
    }
}

fn ended(result: Result<(), String>) -> ExitCode {
    match result {
        Ok(()) => ExitCode::SUCCESS,
        Err(sentence) => failed(&sentence, 1),
    }
}

fn failed(sentence: &str, status: u8) -> ExitCode {
    eprintln!("draw: {sentence}");
    ExitCode::from(status)
}

fn refused(refusal: Refusal) -> String {
    format!("the library refuses this with {refusal}")
}

/// Draws the card, writes it, and says what is on it.
fn draw(options: &Options) -> Result<(), String> {
    let [m, n] = options.steps;
    let texture = texture(options);
    // The plan refuses bad steps before a grid of so many points is made.
    let plan = texture.plan(m, n).map_err(refused)?;
    check_plan(plan, options.style)?;
    let grid = options.surface.grid(options.steps);
    let surface = Surface::new(&grid, m, n).map_err(|refusal| {
        let first = options.surface.first_refused(options.steps);
        let first = first.map(|first| format!("; the first is {first}"));
        refused(refusal) + &first.unwrap_or_default()
    })?;
    let surface = surface
        .with_tolerances(tolerances(options))
        .map_err(refused)?;
    let seams = seams::wanted(surface, options.seams);
    let drawing = Drawing::new(surface, seams, texture)
        .map_err(|refusal| seams::misfit(surface, seams).unwrap_or_else(|| refused(refusal)))?;
    let camera = Camera::fitting(surface.points())
        .ok_or("all points of this surface are seen at one place, and there is nothing to draw")?;
    let title = title(options);
    let text = svg::card(&drawing, &camera, options.style, &title);
    write(&options.output, &text)?;
    eprintln!("{title}\n{}", summary(options, &drawing));
    if let Some(sample) = options.style.highlight {
        let pieces = drawing.parts(Some(sample)).highlighted_pieces();
        eprintln!("sample {sample} of each ray: {pieces} pieces of lines");
    }
    if options.output != STDOUT {
        eprintln!("written to {}", options.output);
    }
    Ok(())
}

/// What a card asks of a texture's plan beyond the library.
fn check_plan(plan: Plan, style: Style) -> Result<(), String> {
    let samples = plan.rays * plan.samples;
    if samples > SAMPLES {
        return Err(format!(
            "this texture has {samples} samples, and a card takes {SAMPLES}: widen --spacing"
        ));
    }
    let last = plan.samples;
    match style.highlight {
        Some(sample) if sample > last => Err(format!(
            "the last sample of a ray of this texture is {last}: --highlight wants a number from 1 \
             to {last}, not {sample}"
        )),
        _ => Ok(()),
    }
}

/// The texture, as the library has it.
fn texture(options: &Options) -> Texture {
    match options.texture {
        options::Texture::Grid => Texture::Grid,
        options::Texture::Swirl { spacing, twist } => Texture::Swirl { spacing, twist },
        options::Texture::Spiral { spacing, arms } => Texture::Spiral { spacing, arms },
    }
}

/// The tolerances, as the library has them.
fn tolerances(options: &Options) -> Tolerances {
    let options::Tolerances { u, v, line } = options.tolerances;
    Tolerances { u, v, line }
}

fn write(output: &str, text: &str) -> Result<(), String> {
    let written = match output {
        STDOUT => std::io::stdout().lock().write_all(text.as_bytes()),
        _ => std::fs::write(output, text),
    };
    written.map_err(|error| format!("cannot write '{output}': {error}"))
}

fn title(options: &Options) -> String {
    let texture = match texture(options) {
        Texture::Grid => "grid".to_string(),
        Texture::Swirl { spacing, twist } => format!("swirl, spacing {spacing}, twist {twist}"),
        Texture::Spiral { spacing, arms } => format!("spiral, spacing {spacing}, arms {arms}"),
    };
    let [m, n] = options.steps;
    let tolerances = match tolerances(options) {
        given if given == Tolerances::default() => String::new(),
        Tolerances { u, v, line } => format!(", tolerances {u:?}, {v:?}, {line:?}"),
    };
    format!(
        "{}, {m} × {n} steps, {texture}{tolerances}",
        options.surface.name
    )
}

/// What the library found and drew, and which seams were given to it.
fn summary(options: &Options, drawing: &Drawing) -> String {
    let seam = |wanted: Seam, mapping: Option<Mapping>| {
        let seam = match mapping {
            None => "none".to_string(),
            Some(Mapping::Forward { offset, .. }) => format!("forward, offset {offset}"),
            Some(Mapping::Reverse { offset, .. }) => format!("reversed, offset {offset}"),
        };
        match wanted {
            Seam::Found => seam,
            _ => seam + ", given",
        }
    };
    let ([u, v], [u_wanted, v_wanted]) = (drawing.seams, options.seams);
    format!(
        "seams: u {}; v {}\n{} lines, {} points; {} triangles, {} flipped pairs",
        seam(u_wanted, u),
        seam(v_wanted, v),
        drawing.lines.iter().len(),
        drawing.lines.points.len(),
        drawing.triangles,
        drawing.flipped.len() / 2,
    )
}
