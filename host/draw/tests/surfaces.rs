//! The surfaces, as the library finds them.

use merlontrispa::{EPS, Mapping, Refusal, Surface, Tolerances};
use options::{Formula, ParametricSurface, Request, names};

/// The seams of a named surface, and the count of its flipped pairs.
fn seams(name: &str, [m, n]: [usize; 2]) -> (Option<Mapping>, Option<Mapping>, usize) {
    let grid = ParametricSurface::named(name).expect("a name").grid([m, n]);
    let mesh = Surface::new(&grid, m, n).expect("a surface").triangulate();
    (
        mesh.seams.u.mapping,
        mesh.seams.v.mapping,
        mesh.flipped.len(),
    )
}

fn forward(offset: usize, steps: usize) -> Option<Mapping> {
    Some(Mapping::Forward { offset, steps })
}

fn reverse(offset: usize, steps: usize) -> Option<Mapping> {
    Some(Mapping::Reverse { offset, steps })
}

#[test]
fn each_surface_has_its_seams() {
    for [m, n] in [[12, 9], [25, 30], [90, 33]] {
        let cases = [
            ("plane", (None, None, 0)),
            ("cylinder", (forward(0, n), None, 0)),
            ("moebius-band", (reverse(0, n), None, n)),
            ("sphere", (forward(0, n), None, 0)),
            ("shell", (None, forward(0, m), 0)),
            ("torus", (forward(0, n), forward(0, m), 0)),
            ("twisted-torus", (forward(2 * n / 3, n), forward(0, m), 0)),
            ("klein-bottle", (reverse(0, n), forward(0, m), n)),
            ("klein-eight", (reverse(0, n), forward(0, m), n)),
        ];
        assert_eq!(cases.map(|(name, _)| name), names());
        for (name, expected) in cases {
            assert_eq!(seams(name, [m, n]), expected, "{name}, {m} × {n}");
        }
    }
}

#[test]
fn a_lobe_that_meets_no_lobe_leaves_the_twisted_torus_open() {
    assert_eq!(seams("twisted-torus", [12, 10]), (None, forward(0, 12), 0));
}

#[test]
fn a_grid_has_its_points_in_the_order_of_the_library() {
    let plane = ParametricSurface {
        u: [0.0, 2.0],
        v: [0.0, 1.0],
        ..ParametricSurface::named("plane").expect("a name")
    };
    let expected = [
        [0.0, 0.0],
        [0.0, 1.0],
        [1.0, 0.0],
        [1.0, 1.0],
        [2.0, 0.0],
        [2.0, 1.0],
    ];
    let expected = expected.map(|[x, y]| [x, y, 0.0]);
    assert_eq!(plane.grid([2, 1]), expected.as_flattened());
}

#[test]
fn the_first_coordinate_that_the_library_refuses_is_found() {
    let steps @ [m, n] = [4, 2];
    let cases = [
        ("x = u; y = v; z = 2^40*u", None),
        (
            "x = u; y = v; z = -2^40*(1 + 2^-52)*u",
            Some("z = -1099511627776.0002 at u = 1.0, v = 0.0"),
        ),
        (
            "x = 1/(v - 1); y = sqrt(-1); z = 0",
            Some("y = NaN at u = 0.0, v = 0.0"),
        ),
        (
            "x = 1/(v - 1); y = sqrt(u); z = 1/u",
            Some("z = inf at u = 0.0, v = 0.0"),
        ),
        (
            "x = 1/(v - 1) + u; y = sqrt(-u); z = 0",
            Some("x = inf at u = 0.0, v = 1.0"),
        ),
    ];
    for (formula, expected) in cases {
        let surface = ParametricSurface {
            u: [0.0, 1.0],
            v: [0.0, 2.0],
            ..ParametricSurface::from_formula(Formula::parse(formula).expect("a formula"))
        };
        let refused = Surface::new(&surface.grid(steps), m, n).err();
        assert_eq!(refused, expected.map(|_| Refusal::Coordinate), "{formula}");
        assert_eq!(surface.first_refused(steps).as_deref(), expected);
    }
}

/// The rule of 13 stands in the options too, which are read before there is a library.
#[test]
fn a_tolerance_is_a_fault_where_the_library_refuses_it() {
    let given = options::Tolerances::default();
    assert_eq!([given.u, given.v, given.line], [EPS; 3]);
    let surface = Surface::new(&[0.0; 12], 1, 1).expect("a surface");
    let (after_one, before_one) = (1.0_f64.next_up(), 1.0_f64.next_down());
    let edges = [
        5e-324,
        EPS,
        0.5,
        before_one,
        1.0,
        after_one,
        f64::MAX,
        f64::INFINITY,
        0.0,
    ];
    let mut taken = 0;
    for edge in edges
        .into_iter()
        .chain(edges.map(|edge| -edge))
        .chain([f64::NAN])
    {
        for place in 0..3 {
            let mut three = [EPS; 3];
            three[place] = edge;
            let [u, v, line] = three;
            let text = format!("--tolerance={u:?},{v:?},{line:?}");
            let other = surface.with_tolerances(Tolerances { u, v, line });
            assert_eq!(
                Request::parse([text.clone()]).is_ok(),
                other.is_ok(),
                "{text}"
            );
            taken += usize::from(other.is_ok());
        }
    }
    assert_eq!(taken, 3 * 5);
}

/// So does the part of 14 on offsets: where all points are one, the library refuses no others.
#[test]
fn an_offset_is_a_fault_where_the_library_refuses_it() {
    let [m, n] = [3, 2];
    let surface = Surface::new(&[0.0; 36], m, n).expect("a surface");
    let mut taken = 0;
    for offset in 0..5 {
        let cases = [
            ("--seam-u=forward", forward(offset, n), None),
            ("--seam-u=reverse", reverse(offset, n), None),
            ("--seam-v=forward", None, forward(offset, m)),
            ("--seam-v=reverse", None, reverse(offset, m)),
        ];
        for (option, u, v) in cases {
            let words = [format!("--steps={m}x{n}"), format!("{option}:{offset}")];
            let told = Request::parse(words).err();
            let refused = surface.triangulate_with(u, v).err();
            assert_eq!(refused, told.as_ref().map(|_| Refusal::Mapping), "{told:?}");
            taken += usize::from(refused.is_none());
        }
    }
    assert_eq!(taken, 2 * (m + n));
}
