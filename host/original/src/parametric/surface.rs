//! A surface from its grid: triangles, flipped pairs, lines and traces, by the file that this stands
//! in: unchanged or edited.
#![warn(missing_docs)]

use super::super::matrix::Matrix;
use super::{
    ParamEdge, ParamPoint, ParametricSurface, ParametricSurfaceTexture, Paths, RenderArgs, Shape,
    Vector, same_point, trace_parametric_edge_curve,
};
use crate::walk::{Made, Sample, Side, Walk, caught};
use std::cell::{Cell, RefCell};

/// A surface of `u_steps` by `v_steps` cells.
pub struct Surface(ParametricSurface);

impl Surface {
    /// The surface of a grid whose point (u, v) has the number `u * (v_steps + 1) + v`.
    pub fn from_grid(grid: Vec<Vector>, u_steps: usize, v_steps: usize) -> Self {
        let number = |u, v| ParametricSurface::grid_index(u, v, v_steps);
        Self(ParametricSurface::from_grid(grid, u_steps, v_steps, number))
    }

    /// What `triangulate_grid` hands to the mesh builder, and nothing else: for a measurement.
    pub fn triangulate(grid: Vec<Vector>, u_steps: usize, v_steps: usize) -> impl Sized {
        let number = |u, v| ParametricSurface::grid_index(u, v, v_steps);
        ParametricSurface::triangulate_grid(grid, u_steps, v_steps, number)
    }

    /// The triangles, three point numbers each.
    pub fn triangles(&self) -> &[usize] {
        &self.0.mesh.triangles
    }

    /// The flipped pairs of triangles, ascending.
    pub fn flipped(&self) -> Vec<(usize, usize)> {
        let mut pairs: Vec<_> = self.0.mesh.flipped_triangles.iter().copied().collect();
        pairs.sort_unstable();
        pairs
    }

    /// The lines of a texture, or nothing where the original panics.
    pub fn paths(&mut self, texture: ParametricSurfaceTexture) -> Option<Paths<Vector>> {
        self.0.texture = texture;
        let args = RenderArgs {
            screen_mat: Matrix,
            width: 0.0,
            height: 0.0,
            step: 0.0,
        };
        caught(|| self.0.paths(&args))
    }

    /// Half the steps, and the radius that a texture has on this surface.
    pub fn texture_center_radius(&self) -> ((f64, f64), f64) {
        self.0.texture_center_radius()
    }

    /// The lines of a trace, or nothing where the original panics.
    pub fn trace(&self, samples: &[Sample]) -> Option<Paths<Vector>> {
        caught(|| self.0.trace_edge_curve(points(samples)))
    }

    /// The walk of `trace`, in which a point is its place among those that are made. The original
    /// takes a sample only when it is done with the leg before it, so that the samples it has taken
    /// tell which leg makes a point.
    pub fn walk(&self, samples: &[Sample]) -> Walk {
        let made = RefCell::new(Vec::<Made>::new());
        let taken = Cell::new(0);
        let paths = trace_parametric_edge_curve(
            self.0.u_steps,
            self.0.v_steps,
            points(samples).inspect(|_| taken.set(taken.get() + 1)),
            |edge, at| {
                let side = self.side(edge, at);
                let mut made = made.borrow_mut();
                made.push(Made {
                    point: side.map(|side| (self.0.edge_point(edge, at).into(), side)),
                    sample: taken.get() - 1,
                    close: None,
                });
                made.len() - 1
            },
            |last: &usize, place| {
                let mut made = made.borrow_mut();
                let both = made[*last].point.zip(made[*place].point);
                let close = both.is_some_and(|((a, _), (b, _))| same_point(a.into(), b.into()));
                made[*place].close = Some(close);
                close
            },
        );
        let made = made.into_inner();
        let kept = paths.iter_paths().flatten().map(|&place| made[place]);
        let kept = kept.collect();
        Walk { made, kept }
    }

    /// What `edge_point` reads, by its own `step_index` and `grid_index`, or nothing where it panics.
    fn side(&self, edge: ParamEdge, at: ParamPoint) -> Option<Side> {
        let (u_steps, v_steps) = (self.0.u_steps, self.0.v_steps);
        let number = |u, v| ParametricSurface::grid_index(u, v, v_steps);
        Some(match edge {
            ParamEdge::U(u) => {
                let (v, t) = step_index(at.v, v_steps)?;
                let (p, q) = (number(u, v), number(u, v + 1));
                Side { p, q, t }
            }
            ParamEdge::V(v) => {
                let (u, t) = step_index(at.u, u_steps)?;
                let (p, q) = (number(u, v), number(u + 1, v));
                Side { p, q, t }
            }
            ParamEdge::Diagonal { u, v } => {
                let t = (at.v - v as f64).clamp(0.0, 1.0);
                let (p, q) = (number(u + 1, v), number(u, v + 1));
                Side { p, q, t }
            }
        })
    }
}

/// The cell that a value falls into and how far into it.
pub fn step_index(value: f64, steps: usize) -> Option<(usize, f64)> {
    ParametricSurface::step_index(value, steps)
}

fn points(samples: &[Sample]) -> impl Iterator<Item = Option<ParamPoint>> {
    samples
        .iter()
        .map(|sample| sample.map(|(u, v)| ParamPoint::new(u, v)))
}

impl From<[f64; 3]> for Vector {
    fn from([x, y, z]: [f64; 3]) -> Self {
        Self { x, y, z }
    }
}

impl From<Vector> for [f64; 3] {
    fn from(Vector { x, y, z }: Vector) -> Self {
        [x, y, z]
    }
}
