//! Whole swirls and spirals: plan, angles, points and trace beside what the original draws of the
//! texture.

use crate::clock::{Table, call};
use crate::inputs::{Lists, TOLERANCES, grid};
use merlontrispa::{Refusal, Texture, trace_flat};
use original::{ParametricSurfaceTexture, Surface, vectors};

/// Cells along u and along v.
const STEPS: usize = 64;

pub fn run(table: &Table) {
    let grid = grid(STEPS, |u, v| {
        let [u, v] = [u, v].map(|step| step as f64);
        [u, v, (u * v * 1e-2).sin()]
    });
    let (spacing, twist, arms) = (2.0, 1.0, 3);
    let rows = [
        (
            "swirl, 64 by 64, spacing 2, twist 1",
            Texture::Swirl { spacing, twist },
            ParametricSurfaceTexture::Swirl { spacing, twist },
        ),
        (
            "spiral, 64 by 64, spacing 2, 3 arms",
            Texture::Spiral { spacing, arms },
            ParametricSurfaceTexture::Spiral { spacing, arms },
        ),
    ];
    for (name, texture, theirs) in rows {
        let mut surface = Surface::from_grid(vectors(&grid), STEPS, STEPS);
        let mut drawing = Drawing::new(1 << 14);
        let drawn = drawing.draw(texture, &grid).expect("the texture is drawn");
        let paths = surface.paths(theirs).expect("the original draws it");
        assert_eq!(
            drawn,
            (paths.total_len(), paths.len()),
            "both draw the same"
        );
        table.row(
            name,
            call(|| drawing.draw(texture, &grid)),
            call(|| surface.paths(theirs)),
        );
    }
}

/// The samples of one ray, what they draw, and the points and line starts of all rays before.
struct Drawing {
    pairs: Vec<f64>,
    marks: Vec<u8>,
    lists: Lists,
    all: (Vec<f64>, Vec<usize>),
}

impl Drawing {
    /// A ray has so many points at most.
    fn new(most: usize) -> Self {
        Self {
            pairs: Vec::new(),
            marks: Vec::new(),
            lists: Lists::new(most),
            all: (Vec::new(), Vec::new()),
        }
    }

    /// Draws every ray, and hands back how many points and lines there are.
    fn draw(&mut self, texture: Texture, grid: &[f64]) -> Result<(usize, usize), Refusal> {
        let plan = texture.plan(STEPS, STEPS)?;
        self.all = (Vec::new(), Vec::new());
        for ray in 0..plan.rays {
            self.pairs.clear();
            for i in 0..=plan.samples {
                let angle = texture.angle(STEPS, STEPS, ray, i)?;
                let direction = [angle.cos(), angle.sin()];
                let point = texture.sample_point(STEPS, STEPS, ray, i, direction)?;
                self.pairs.extend(point);
            }
            self.marks.resize(plan.samples + 1, 1);
            self.trace(grid)?;
        }
        let (points, starts) = &self.all;
        Ok((points.len() / 3, starts.len()))
    }

    /// Appends the lines of the samples.
    fn trace(&mut self, grid: &[f64]) -> Result<(), Refusal> {
        let (pairs, marks, lists) = (&self.pairs, &self.marks, self.lists.lend());
        let drawn = trace_flat(grid, STEPS, STEPS, TOLERANCES, pairs, marks, lists)?;
        let (points, starts) = &mut self.all;
        let before = points.len() / 3;
        let new = &self.lists.starts[..drawn.lines];
        starts.extend(new.iter().map(|start| before + start));
        points.extend(&self.lists.points[..3 * drawn.points]);
        Ok(())
    }
}
