//! Surfaces: a formula, the ranges that u and v run through, and the grid of points that is taken
//! of them.

use crate::formula::Formula;
use std::f64::consts::{PI, TAU};

/// The largest magnitude of a coordinate that the library takes: beyond it is refusal 4.
const LARGEST: f64 = (1_u64 << 40) as f64;

/// A surface and how many steps show it well.
#[derive(Debug, Clone, PartialEq)]
pub struct ParametricSurface {
    /// Its name, "formula" for a surface of the user's own.
    pub name: &'static str,
    /// x, y and z in u and v.
    pub formula: Formula,
    /// Where u starts and ends.
    pub u: [f64; 2],
    /// Where v starts and ends.
    pub v: [f64; 2],
    /// Steps in u and in v.
    pub steps: [usize; 2],
}

/// A range of one whole turn.
const TURN: [f64; 2] = [0.0, TAU];

/// A surface that needs no formula of the user's: name, formula, ranges of u and of v, and steps.
type Named = (&'static str, &'static str, [f64; 2], [f64; 2], [usize; 2]);

const NAMED: [Named; 9] = [
    ("plane", PLANE, [-1.5, 1.5], [-1.0, 1.0], [36, 24]),
    ("cylinder", CYLINDER, TURN, [-0.8, 0.8], [60, 16]),
    ("moebius-band", MOEBIUS_BAND, TURN, [-0.5, 0.5], [96, 12]),
    ("sphere", SPHERE, TURN, [0.0, PI], [48, 24]),
    ("shell", SHELL, [0.0, 3.0 * TAU], TURN, [120, 30]),
    ("torus", TORUS, TURN, TURN, [72, 30]),
    ("twisted-torus", TWISTED_TORUS, TURN, TURN, [96, 36]),
    ("klein-bottle", KLEIN_BOTTLE, [0.0, PI], TURN, [72, 24]),
    ("klein-eight", KLEIN_EIGHT, TURN, TURN, [84, 36]),
];

/// The names of the surfaces that need no formula of the user's, in the order of the help.
pub fn names() -> [&'static str; 9] {
    NAMED.map(|(name, ..)| name)
}

impl ParametricSurface {
    /// A surface of the user's own: u and v run through a whole turn.
    pub fn from_formula(formula: Formula) -> Self {
        Self {
            name: "formula",
            formula,
            u: TURN,
            v: TURN,
            steps: [48, 48],
        }
    }

    /// The surface of one of the names.
    pub fn named(name: &str) -> Option<Self> {
        let (name, formula, u, v, steps) = NAMED.into_iter().find(|named| named.0 == name)?;
        let formula = Formula::parse(formula).expect("the tests parse each");
        Some(Self {
            name,
            formula,
            u,
            v,
            steps,
        })
    }

    /// u and v of each point of a grid with so many steps, in the order of the points' numbers.
    fn parameters(&self, [u_steps, v_steps]: [usize; 2]) -> impl Iterator<Item = [f64; 2]> {
        let step = |[from, to]: [f64; 2], i: usize, steps: usize| {
            from + i as f64 * ((to - from) / steps as f64)
        };
        let column = move |i| {
            let u = step(self.u, i, u_steps);
            (0..=v_steps).map(move |j| [u, step(self.v, j, v_steps)])
        };
        (0..=u_steps).flat_map(column)
    }

    /// The grid with so many steps, as the library takes it: x, y and z of each point.
    pub fn grid(&self, steps: [usize; 2]) -> Vec<f64> {
        let points = self
            .parameters(steps)
            .flat_map(|[u, v]| self.formula.at(u, v));
        points.collect()
    }

    /// Which coordinate of a grid is the first that is not finite or too large for the library, and
    /// where.
    pub fn first_refused(&self, steps: [usize; 2]) -> Option<String> {
        self.parameters(steps).find_map(|[u, v]| {
            let mut coordinates = std::iter::zip(["x", "y", "z"], self.formula.at(u, v));
            let refused = |value: f64| !value.is_finite() || value.abs() > LARGEST;
            let (name, value) = coordinates.find(|(_, value)| refused(*value))?;
            Some(format!("{name} = {value:?} at u = {u:?}, v = {v:?}"))
        })
    }
}

const PLANE: &str = "x = u; y = v; z = 0";

const CYLINDER: &str = "x = cos(u); y = sin(u); z = v";

const MOEBIUS_BAND: &str = "
    x = (1 + v*cos(u/2))*cos(u);
    y = (1 + v*cos(u/2))*sin(u);
    z = v*sin(u/2)";

const SPHERE: &str = "x = sin(v)*cos(u); y = sin(v)*sin(u); z = cos(v)";

/// A tube that winds down round the z axis and widens from a point.
const SHELL: &str = "
    x = (2^(u/(4*pi)) - 1)*cos(u)*(1 + cos(v));
    y = (2^(u/(4*pi)) - 1)*sin(u)*(1 + cos(v));
    z = (2^(u/(4*pi)) - 1)*sin(v) - 4^(u/(4*pi))";

const TORUS: &str = "
    x = (2 + cos(v))*cos(u);
    y = (2 + cos(v))*sin(u);
    z = sin(v)";

/// A tube of three lobes that makes a third of a turn on its way: lobe meets lobe where N is a
/// multiple of 3.
const TWISTED_TORUS: &str = "
    x = (3 + (1 + cos(3*v)/4)*cos(v + u/3))*cos(u);
    y = (3 + (1 + cos(3*v)/4)*cos(v + u/3))*sin(u);
    z = (1 + cos(3*v)/4)*sin(v + u/3)";

/// A tube, as wide as 3 + 5 cos u sin u, that passes through its side and meets its start from the
/// inside.
const KLEIN_BOTTLE: &str = "
    x = 2/15*cos(u)*(3 + 5*cos(u)*sin(u))*sin(v) - 4*cos(u)*sin(u)^5*(1 + 2*cos(u)^2);
    y = 2/15*(3 + 5*cos(u)*sin(u))*cos(v);
    z = 4*sin(u)^2 - 1/15*sin(u)^3*(3 + 5*cos(u)*sin(u))*(1 - 16*cos(u)^4)*sin(v)";

/// A tube whose section is an eight that makes half a turn on its way.
const KLEIN_EIGHT: &str = "
    x = (2 + cos(u/2)*sin(v) - sin(u/2)*sin(2*v))*cos(u);
    y = (2 + cos(u/2)*sin(v) - sin(u/2)*sin(2*v))*sin(u);
    z = sin(u/2)*sin(v) + cos(u/2)*sin(2*v)";
