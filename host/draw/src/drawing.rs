//! What the library makes of a grid: its seams, its lines, its rim and its flipped triangles.

use crate::pieces::Parts;
use crate::seams::Seams;
use merlontrispa::{EPS, Mapping, OwnedLines, Refusal, Surface, Texture, Vector};

pub type Point = [f64; 3];

/// A drawing in space.
#[derive(Debug, Clone)]
pub struct Drawing {
    /// The seams, found or given.
    pub seams: Seams,
    /// The count of triangles.
    pub triangles: usize,
    /// The lines of the texture.
    pub lines: OwnedLines,
    /// For each of their points the number, on its ray, of the sample that made it; 0 on a grid,
    /// which has no samples.
    pub samples: Vec<usize>,
    /// The edges of the grid that no seam joins, but for those that are one point, as at a pole.
    pub rim: OwnedLines,
    /// The edges that a seam joins, and how.
    pub joined: Vec<(Mapping, Vec<Point>)>,
    /// The triangles of the flipped pairs, the two of a pair after each other.
    pub flipped: Vec<[Point; 3]>,
}

impl Drawing {
    /// # Errors
    /// What the library refuses of the seams or of the texture.
    pub fn new(surface: Surface<'_>, seams: Seams, texture: Texture) -> Result<Self, Refusal> {
        let [u, v] = seams;
        let mesh = surface.triangulate_with(u, v)?;
        let (lines, samples) = texture_lines(surface, texture)?;
        let grid_lines = surface.grid_lines();
        let grid_lines: Vec<_> = grid_lines.iter().collect();
        let (mut rim, mut joined) = (OwnedLines::default(), Vec::new());
        for (seam, edges) in seams.into_iter().zip(edges(surface)) {
            let edges = edges.map(|index| grid_lines[index]);
            match seam {
                None => rim.extend(edges.into_iter().filter(|line| !is_dot(line))),
                Some(mapping) => joined.push((mapping, edges[0].to_vec())),
            }
        }
        let corner = |number: usize| surface.points()[number];
        let flipped = mesh.flipped.iter().flatten();
        let flipped = flipped.map(|triangle| mesh.triangles[*triangle].map(corner));
        Ok(Self {
            seams,
            triangles: mesh.triangles.len(),
            lines,
            samples,
            rim,
            joined,
            flipped: flipped.collect(),
        })
    }

    /// The lines of the texture in parts, of which some belong to the highlighted sample.
    pub fn parts(&self, highlight: Option<usize>) -> Parts {
        Parts::new(&self.lines.starts, &self.samples, highlight)
    }
}

/// The lines of a texture, as [`Surface::texture_lines`] draws them, and the sample of each point.
///
/// Each ray is traced by itself: the rays together may have more samples than a trace takes, and the
/// number of a sample is then its number on its ray.
fn texture_lines(
    surface: Surface<'_>,
    texture: Texture,
) -> Result<(OwnedLines, Vec<usize>), Refusal> {
    if texture == Texture::Grid {
        let lines = surface.grid_lines();
        let samples = vec![0; lines.points.len()];
        return Ok((lines, samples));
    }
    let plan = texture.plan(surface.u_steps(), surface.v_steps())?;
    let (mut lines, mut samples) = (OwnedLines::default(), Vec::new());
    for ray in 0..plan.rays {
        let trace = surface.trace_ray(texture, ray)?;
        lines.extend(&trace.lines);
        samples.extend(trace.samples);
    }
    Ok((lines, samples))
}

/// Whether all points of a line are close to its first, by EPS: an edge that a surface's tolerances
/// would take for a point is still drawn.
fn is_dot(line: &[Point]) -> bool {
    let first = Vector::from(line[0]);
    line.iter().all(|p| first.all_close(Vector::from(*p), EPS))
}

/// For each seam the indices of the two grid lines that it joins, or would join.
fn edges(surface: Surface<'_>) -> [[usize; 2]; 2] {
    let (m, n) = (surface.u_steps(), surface.v_steps());
    // The lines along u come first, one for each v.
    let along_v = n + 1;
    [[along_v, along_v + m], [0, n]]
}

#[cfg(test)]
mod tests {
    use super::*;
    use crate::seams::wanted;
    use options::{ParametricSurface, Seam, names};

    const SWIRL: Texture = Texture::Swirl {
        spacing: 4.0,
        twist: 0.5,
    };

    const SPIRAL: Texture = Texture::Spiral {
        spacing: 6.0,
        arms: 2,
    };

    fn grid(name: &str, steps: [usize; 2]) -> Vec<f64> {
        ParametricSurface::named(name).expect("a name").grid(steps)
    }

    /// The drawing with the seams that are found.
    fn drawn(surface: Surface<'_>, texture: Texture) -> Drawing {
        let seams = wanted(surface, [Seam::Found; 2]);
        Drawing::new(surface, seams, texture).expect("a drawing")
    }

    fn distance(a: Point, b: Point) -> f64 {
        let square = |i: usize| (a[i] - b[i]) * (a[i] - b[i]);
        (square(0) + square(1) + square(2)).sqrt()
    }

    fn longest<'a>(lines: impl Iterator<Item = &'a [Point]>) -> f64 {
        let segments = lines.flat_map(|line| line.windows(2));
        segments
            .map(|ends| distance(ends[0], ends[1]))
            .fold(0.0, f64::max)
    }

    /// The longest side of the two triangles of any cell.
    fn longest_side(surface: Surface<'_>) -> f64 {
        let (m, n) = (surface.u_steps(), surface.v_steps());
        let at = |u: usize, v: usize| surface.points()[u * (n + 1) + v];
        let cells = (0..m).flat_map(|u| (0..n).map(move |v| (u, v)));
        let around = cells.map(|(u, v)| {
            let [p10, p01] = [at(u + 1, v), at(u, v + 1)];
            [p10, at(u, v), p01, p10, at(u + 1, v + 1), p01]
        });
        let around: Vec<_> = around.collect();
        longest(around.iter().map(|points| points.as_slice()))
    }

    #[test]
    fn no_line_makes_a_spike() {
        for name in names() {
            for [m, n] in [[30, 21], [7, 12], [1, 1]] {
                let grid = grid(name, [m, n]);
                let surface = Surface::new(&grid, m, n).expect("a surface");
                let side = longest_side(surface);
                for spacing in [0.7, 3.0, 50.0] {
                    let twist = -1.5;
                    let arms = 3;
                    let swirl = Texture::Swirl { spacing, twist };
                    let spiral = Texture::Spiral { spacing, arms };
                    for texture in [Texture::Grid, swirl, spiral] {
                        let drawing = drawn(surface, texture);
                        let segment = longest(drawing.lines.iter());
                        assert!(segment <= side + 1e-8, "{name}, {m} × {n}, {texture:?}");
                    }
                }
            }
        }
    }

    #[test]
    fn the_lines_are_those_that_the_library_draws() {
        for name in names() {
            let grid = grid(name, [24, 18]);
            let surface = Surface::new(&grid, 24, 18).expect("a surface");
            for texture in [Texture::Grid, SWIRL, SPIRAL] {
                let drawing = drawn(surface, texture);
                let lines = surface.texture_lines(texture);
                assert_eq!(Ok(drawing.lines), lines, "{name}, {texture:?}");
            }
        }
    }

    #[test]
    fn each_point_has_its_sample_on_its_ray() {
        for name in names() {
            let grid = grid(name, [24, 18]);
            let surface = Surface::new(&grid, 24, 18).expect("a surface");
            for texture in [SWIRL, SPIRAL] {
                let drawing = drawn(surface, texture);
                let plan = texture.plan(24, 18).expect("a plan");
                assert_eq!(drawing.samples.len(), drawing.lines.points.len(), "{name}");
                let on_a_ray = |sample: &usize| (1..=plan.samples).contains(sample);
                assert!(drawing.samples.iter().all(on_a_ray), "{name}, {texture:?}");
                // On a ray they rise, so they fall only where another ray begins.
                let falls = drawing.samples.windows(2).filter(|pair| pair[1] < pair[0]);
                assert_eq!(falls.count(), plan.rays - 1, "{name}, {texture:?}");
            }
            let drawing = drawn(surface, Texture::Grid);
            assert_eq!(drawing.samples, vec![0; drawing.lines.points.len()]);
        }
    }

    #[test]
    fn a_swirl_on_a_plane_has_its_points_at_the_distance_of_their_samples() {
        let [m, n] = [24, 18];
        let grid = ParametricSurface {
            u: [0.0, 24.0],
            v: [0.0, 18.0],
            ..ParametricSurface::named("plane").expect("a name")
        };
        let grid = grid.grid([m, n]);
        let surface = Surface::new(&grid, m, n).expect("a surface");
        let drawing = drawn(surface, SWIRL);
        let plan = SWIRL.plan(m, n).expect("a plan");
        let step = 12.0 * std::f64::consts::SQRT_2 / plan.samples as f64;
        for (point, sample) in drawing.lines.points.iter().zip(drawing.samples) {
            // The leg to a sample keeps between the distances of its ends, but that it is straight.
            let steps = distance(*point, [12.0, 9.0, 0.0]) / step;
            let sample = sample as f64;
            assert!(
                steps > sample - 1.1 && steps < sample + 1e-6,
                "{sample}: {steps}"
            );
        }
    }

    #[test]
    fn where_no_seam_is_given_the_triangles_are_those_of_the_grid() {
        for name in names() {
            let grid = grid(name, [15, 12]);
            let surface = Surface::new(&grid, 15, 12).expect("a surface");
            let (drawing, mesh) = (drawn(surface, Texture::Grid), surface.triangulate());
            let found = [mesh.seams.u.mapping, mesh.seams.v.mapping];
            assert_eq!(drawing.seams, found, "{name}");
            assert_eq!(drawing.triangles, mesh.triangles.len(), "{name}");
            let corners = |triangle: &usize| mesh.triangles[*triangle].map(|p| surface.points()[p]);
            let flipped: Vec<_> = mesh.flipped.iter().flatten().map(corners).collect();
            assert_eq!(drawing.flipped, flipped, "{name}");
        }
    }

    #[test]
    fn each_surface_has_its_rim() {
        let rims = [4, 2, 2, 0, 1, 0, 0, 0, 0];
        for (name, rim) in names().into_iter().zip(rims) {
            let grid = grid(name, [15, 12]);
            let surface = Surface::new(&grid, 15, 12).expect("a surface");
            let drawing = drawn(surface, Texture::Grid);
            assert_eq!(drawing.rim.iter().len(), rim, "{name}");
            assert_eq!(drawing.lines.iter().len(), 15 + 12 + 2);
        }
    }
}
