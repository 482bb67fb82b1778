//! Edited copies of the original's files: what differs in each, and a fault where a file is not as
//! it should be for that.

/// A file, words of it, what stands in their place in the copy, and how often they are found.
pub type Edit = (&'static str, &'static str, &'static str, usize);

/// A ray is lent its direction: cosine, sine and trace are those of `rays::lent`.
pub const LENT: [Edit; 3] = [
    (
        "parametric.rs",
        "use crate::util::{ParamEdge, ParamPoint, trace_parametric_edge_curve};",
        "use super::lent::{ParamEdge, ParamPoint, cosine, sine, trace_parametric_edge_curve};",
        1,
    ),
    ("parametric.rs", "angle.cos()", "cosine(angle)", 2),
    ("parametric.rs", "angle.sin()", "sine(angle)", 2),
];

/// Closeness takes a tolerance: that of `all_close` and `new_vector` is an argument, and the two
/// seams and the pending point of a trace have those of `edited::tolerances`. What the copies name
/// of other files is that of `edited`, so that no call of theirs is left without a tolerance.
pub const TOLERANT: [Edit; 9] = [
    ("vector.rs", "use crate::", "use super::", 1),
    (
        "vector.rs",
        "pub fn all_close(self, other: Vector) -> bool {",
        "pub fn all_close(self, other: Vector, tolerance: f64) -> bool {",
        1,
    ),
    ("vector.rs", "< EPS", "< tolerance", 1),
    ("parametric.rs", "use crate::", "use super::", 9),
    (
        "parametric.rs",
        "pub fn new_vector(a: &[Vector], b: &[Vector]) -> Option<Self> {",
        "pub fn new_vector(a: &[Vector], b: &[Vector], tolerance: f64) -> Option<Self> {",
        1,
    ),
    (
        "parametric.rs",
        "a.all_close(b)",
        "a.all_close(b, tolerance)",
        1,
    ),
    (
        "parametric.rs",
        "CyclicMapping::new_vector(&u0, &ue)",
        "CyclicMapping::new_vector(&u0, &ue, super::tolerances().u)",
        1,
    ),
    (
        "parametric.rs",
        "CyclicMapping::new_vector(&v0, &ve)",
        "CyclicMapping::new_vector(&v0, &ve, super::tolerances().v)",
        1,
    ),
    (
        "parametric.rs",
        "(*a).all_close(*b)",
        "(*a).all_close(*b, super::tolerances().line)",
        1,
    ),
];

/// The seams are given: those that `triangulate_grid` joins are `given::seams`, and none is searched
/// for.
pub const GIVEN: [Edit; 2] = [
    (
        "parametric.rs",
        "CyclicMapping::new_vector(&u0, &ue)",
        "super::seams().u",
        1,
    ),
    (
        "parametric.rs",
        "CyclicMapping::new_vector(&v0, &ve)",
        "super::seams().v",
        1,
    ),
];

/// The text of a file after those of the edits that are of it, or a sentence that says which words
/// are not found as often as they should be.
pub fn edited(file: &str, text: String, edits: &[Edit]) -> Result<String, String> {
    let mut of_file = edits.iter().filter(|(of, ..)| *of == file);
    of_file.try_fold(text, |text, &(_, words, other, times)| {
        match text.matches(words).count() {
            found if found == times => Ok(text.replace(words, other)),
            found => Err(format!(
                "{file} cannot be edited: expected {times} of `{words}`, found {found}"
            )),
        }
    })
}
