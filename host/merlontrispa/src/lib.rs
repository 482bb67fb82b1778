//! Verified surfaces, seams and pen lines: a safe wrapper over the proved static library.
//!
//! A host samples a curved surface into a grid of points. A [`Surface`] is such a grid, checked. The
//! library finds which edges of it join, turns its cells into triangles, and traces pen lines across
//! the cells. How near points must be to count as one is said by the surface's [`Tolerances`].
//!
//! ```
//! use merlontrispa::{Mapping, Surface};
//!
//! // A band of 3 by 3 cells whose last column is its first, turned over.
//! let columns = [(0.0, 1.0), (1.0, 1.0), (2.0, 1.0), (0.0, -1.0)];
//! let grid: Vec<f64> = columns
//!     .iter()
//!     .flat_map(|(x, side)| [-1.5, -0.5, 0.5, 1.5].map(|y| [*x, side * y, 0.0]))
//!     .flatten()
//!     .collect();
//! let band = Surface::new(&grid, 3, 3)?;
//! let mesh = band.triangulate();
//! assert_eq!(mesh.seams.u.mapping, Some(Mapping::Reverse { offset: 0, steps: 3 }));
//! assert_eq!(mesh.flipped, [[0, 17], [2, 15], [4, 13]]);
//!
//! // A curve along the middle of the band ends where it began.
//! let trace = band.trace(&[Some([0.0, 1.5]), Some([3.0, 1.5])])?;
//! assert_eq!(trace.lines.iter().len(), 1);
//! for line in &trace.lines {
//!     assert_eq!(line.first(), line.last());
//! }
//! // Each of its points says which sample ends the leg that made it.
//! assert!(trace.samples.iter().all(|&number| number == 1));
//! # Ok::<(), merlontrispa::Refusal>(())
//! ```
//!
//! Below [`Surface`] lie the library's own calls, each one function here: [`find_seams`],
//! [`triangulate_seams`], [`triangulate_grid`], [`grid_paths`], [`trace_flat`], [`trace_samples`],
//! [`Lines::get`] and [`Lines::line_span`], the methods of [`Mapping`], [`Texture`] and [`Vector`],
//! and the functions of [`float`]. Their meaning is fixed by their contracts: the numbers that they
//! answer are those of the definitions in `crates/*/specs`, to the last bit, but for the sign and
//! the payload of a NaN. They allocate nothing, and write only to lists that the caller lends. The
//! Rules that are cited here, as Rules 8.2, are sections of `docs/RULES.md` of the repository, which
//! says in words what is right.
//!
//! A call that cannot be answered is refused: [`Refusal`] has the reasons and their numbers.

#[allow(unsafe_code)]
mod boundary;
pub mod float;
mod lines;
mod mapping;
mod mesh;
mod refusal;
mod surface;
mod texture;
mod tolerance;
mod trace;
mod vector;

pub use lines::{Drawn, Lines, LinesIter, OwnedLines, grid_paths};
pub use mapping::{Mapping, Seam};
pub use mesh::{
    Counts, GivenMesh, Mesh, Seams, Triangulation, find_seams, triangulate_grid, triangulate_seams,
};
pub use refusal::Refusal;
pub use surface::Surface;
pub use texture::{Plan, Texture};
pub use tolerance::{EPS, Tolerances};
pub use trace::{OwnedTrace, ParamPoint, Sample, Trace, TraceLists, trace_flat, trace_samples};
pub use vector::Vector;
