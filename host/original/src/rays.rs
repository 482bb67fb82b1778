//! The samples of a texture's rays, one by one, from the closures that make them.
//!
//! They stand inside the loops of `paths_swirl` and `paths_spiral`, so these are compiled once more
//! from a copy of parametric.rs in which `build.rs` replaces three things: `angle.cos()` and
//! `angle.sin()` are numbers that the caller lends, and the trace of a ray is that of `lent`, which
//! keeps the samples that are asked for and draws nothing.

/// The copy, and beside it what its rays are made by.
#[allow(clippy::all, dead_code, missing_docs)]
mod copy {
    include!(concat!(env!("OUT_DIR"), "/lent/parametric.rs"));

    /// A surface that has no points, since the samples of a ray need none.
    pub fn surface(u_steps: usize, v_steps: usize) -> ParametricSurface {
        ParametricSurface {
            mesh: Mesh::builder(Vec::new(), Vec::new()).build(),
            grid: Vec::new(),
            u_steps,
            v_steps,
            texture: ParametricSurfaceTexture::Grid,
        }
    }

    /// Goes through all rays of a texture.
    pub fn go_through(surface: &ParametricSurface, texture: crate::ParametricSurfaceTexture) {
        match texture {
            crate::ParametricSurfaceTexture::Grid => {}
            crate::ParametricSurfaceTexture::Swirl { spacing, twist } => {
                surface.paths_swirl(spacing, twist);
            }
            crate::ParametricSurfaceTexture::Spiral { spacing, arms } => {
                surface.paths_spiral(spacing, arms);
            }
        }
    }
}

/// What the copy has in the places of cosine, sine and trace.
mod lent {
    pub(super) use crate::util::{ParamEdge, ParamPoint};

    use super::RaySample;
    use crate::path::Paths;
    use std::cell::{Cell, RefCell};

    /// The cosine and the sine that are lent to a sample of a number and an angle, where it is
    /// asked for.
    pub(super) type Lend = Box<dyn Fn(usize, f64) -> Option<[f64; 2]>>;

    /// The sample that is being made.
    #[derive(Clone, Copy)]
    pub(super) struct Made {
        pub(super) number: usize,
        angle: f64,
        direction: Option<[f64; 2]>,
    }

    thread_local! {
        /// How many rays come before the one that is asked for.
        pub(super) static BEFORE: Cell<usize> = const { Cell::new(0) };
        pub(super) static LEND: RefCell<Option<Lend>> = const { RefCell::new(None) };
        pub(super) static MADE: Cell<Made> = const { Cell::new(NONE) };
        pub(super) static SAMPLES: RefCell<Vec<RaySample>> = const { RefCell::new(Vec::new()) };
    }

    pub(super) const NONE: Made = Made {
        number: 0,
        angle: 0.0,
        direction: None,
    };

    /// The cosine of a sample, which its sine follows.
    pub(super) fn cosine(angle: f64) -> f64 {
        let number = MADE.get().number;
        let direction = LEND.with_borrow(|lend| lend.as_ref()?(number, angle));
        MADE.set(Made {
            number,
            angle,
            direction,
        });
        direction.unwrap_or_default()[0]
    }

    pub(super) fn sine(angle: f64) -> f64 {
        let made = MADE.get();
        assert_eq!(angle.to_bits(), made.angle.to_bits());
        made.direction.unwrap_or_default()[1]
    }

    pub(super) fn trace_parametric_edge_curve<T>(
        _u_steps: usize,
        _v_steps: usize,
        samples: impl IntoIterator<Item = Option<ParamPoint>>,
        _edge_point: impl FnMut(ParamEdge, ParamPoint) -> T,
        _same_point: impl FnMut(&T, &T) -> bool,
    ) -> Paths<T> {
        if BEFORE.replace(BEFORE.get().wrapping_sub(1)) == 0 {
            let samples = samples.into_iter().flatten();
            SAMPLES.set(samples.filter_map(kept).collect());
        }
        Paths::new()
    }

    /// The sample that was just made, where it is asked for.
    fn kept(ParamPoint { u, v }: ParamPoint) -> Option<RaySample> {
        let Made {
            number,
            angle,
            direction,
        } = MADE.get();
        MADE.set(Made {
            number: number + 1,
            ..NONE
        });
        direction.map(|_| RaySample {
            angle,
            point: [u, v],
        })
    }
}

/// A sample of a ray.
#[derive(Debug, Clone, Copy, PartialEq)]
pub struct RaySample {
    /// Its angle.
    pub angle: f64,
    /// Its u and v, from the cosine and the sine that are lent for the angle.
    pub point: [f64; 2],
}

/// What a texture's rays are.
#[derive(Debug, Clone, PartialEq)]
pub struct Rays {
    /// How many there are.
    pub count: usize,
    /// How many samples were made of the one that was asked for, 0 where it is not there.
    pub made: usize,
    /// Those of them that were asked for.
    pub samples: Vec<RaySample>,
}

/// Goes through the rays of a texture on `u_steps` by `v_steps` cells, and makes the samples of
/// one. `lend` takes the number and the angle of each, and hands back its cosine and sine, or
/// nothing where it is not asked for.
pub fn rays(
    texture: crate::ParametricSurfaceTexture,
    u_steps: usize,
    v_steps: usize,
    ray: usize,
    lend: impl Fn(usize, f64) -> Option<[f64; 2]> + 'static,
) -> Rays {
    lent::BEFORE.set(ray);
    lent::LEND.set(Some(Box::new(lend)));
    lent::MADE.set(lent::NONE);
    copy::go_through(&copy::surface(u_steps, v_steps), texture);
    Rays {
        count: ray.wrapping_sub(lent::BEFORE.get()),
        made: lent::MADE.get().number,
        samples: lent::SAMPLES.take(),
    }
}
