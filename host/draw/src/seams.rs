//! The seams of a card: those that are given, and for the others those that the library finds.

use merlontrispa::{Mapping, Surface, Vector};
use options::Seam;

/// How the edges at the ends of u are joined, and those at the ends of v.
pub type Seams = [Option<Mapping>; 2];

/// The seams that the user wants of a surface.
pub fn wanted(surface: Surface<'_>, [u, v]: [Seam; 2]) -> Seams {
    let found = surface.seams();
    let seam = |wanted, found, steps| match wanted {
        Seam::Found => found,
        Seam::None => None,
        Seam::Forward { offset } => Some(Mapping::Forward { offset, steps }),
        Seam::Reverse { offset } => Some(Mapping::Reverse { offset, steps }),
    };
    [
        seam(u, found.u.mapping, surface.v_steps()),
        seam(v, found.v.mapping, surface.u_steps()),
    ]
}

/// What is wrong with the first seam that the library refuses alone, with 14. It is one that was
/// given, as what is found fits. The options have its offset below its steps, so that it must be the
/// edges which do not meet.
pub fn misfit(surface: Surface<'_>, [u, v]: Seams) -> Option<String> {
    let tolerances = surface.tolerances();
    // Each edge by the numbers of its two ends.
    let (n, last) = (surface.v_steps(), surface.points().len() - 1);
    let (name, mapping, tolerance, edges) = if surface.triangulate_with(u, None).is_err() {
        ("u", u?, tolerances.u, [[0, n], [last - n, last]])
    } else if surface.triangulate_with(None, v).is_err() {
        ("v", v?, tolerances.v, [[0, last - n], [n, last]])
    } else {
        return None;
    };
    let (direction, offset) = match mapping {
        Mapping::Forward { offset, .. } => ("forward", offset),
        Mapping::Reverse { offset, .. } => ("reverse", offset),
    };
    let point = |number: usize| Vector::from(surface.points()[number]);
    let is_closed = |[first, last]: [usize; 2]| point(first).all_close(point(last), tolerance);
    let open = |end| {
        format!("an offset other than 0 wants closed edges, and that at the {end} {name} is open")
    };
    let why = match (offset, edges.map(is_closed)) {
        (0, _) | (_, [true, true]) => {
            format!("joined so, the edges at the ends of {name} are not close")
        }
        (_, [false, _]) => open("first"),
        (_, [true, false]) => open("last"),
    };
    Some(format!(
        "the library refuses --seam-{name} {direction}:{offset} with 14: {why} by the tolerance \
         {tolerance:?}"
    ))
}
