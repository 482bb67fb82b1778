//! Tolerances: by which of them each call goes, which it refuses and when, and the known results of
//! Rules 2.

use merlontrispa::{
    Drawn, EPS, Mapping, ParamPoint, Refusal, Sample, Surface, Texture, Tolerances, TraceLists,
    Vector, find_seams, trace_flat, trace_samples, triangulate_grid, triangulate_seams,
};

/// The least f64 above zero.
const LEAST: f64 = 5e-324;

const REFUSED: [f64; 9] = [
    0.0,
    -0.0,
    -LEAST,
    -1.0,
    1.0_f64.next_up(),
    f64::MAX,
    f64::INFINITY,
    f64::NEG_INFINITY,
    f64::NAN,
];

const TAKEN: [f64; 5] = [LEAST, EPS, 0.25, 1.0_f64.next_down(), 1.0];

const EVERY_EPS: Tolerances = Tolerances {
    u: EPS,
    v: EPS,
    line: EPS,
};

/// EPS but in one of the three places, each in turn.
fn in_each_place(tolerance: f64) -> [Tolerances; 3] {
    let [mut u, mut v, mut line] = [EVERY_EPS; 3];
    (u.u, v.v, line.line) = (tolerance, tolerance, tolerance);
    [u, v, line]
}

/// One cell, flat, so that nothing joins.
const CELL: [f64; 12] = [0.0, 0.0, 0.0, 0.0, 1.0, 0.0, 1.0, 0.0, 0.0, 1.0, 1.0, 0.0];

/// What the calls that take three tolerances are given beside them.
#[derive(Clone, Copy)]
struct Input<'a> {
    grid: &'a [f64],
    m: usize,
    samples: &'a [Sample],
    /// The numbers that each lent list has room for.
    room: usize,
}

const INPUT: Input<'static> = Input {
    grid: &CELL,
    m: 1,
    samples: &[
        Sample::at(0.0, 0.25),
        Sample::at(0.75, 0.25),
        Sample::at(1.0, 0.25),
    ],
    room: 12,
};

/// A leg that meets a side where no cell can be told.
const NO_STEP: [Sample; 2] = [Sample::at(1.0, 1_048_576.0), Sample::at(1.0, 1.0 + EPS)];

fn forward(offset: usize, steps: usize) -> Option<Mapping> {
    Some(Mapping::Forward { offset, steps })
}

/// What a call answers, and whether each list that it was lent has a 9 in each place, as it had.
type Left = (Result<usize, Refusal>, bool);

/// A call, which answers how many seams it found, or triangles or points it wrote.
type Call = fn(Input<'_>, Tolerances) -> Left;

fn searched(input: Input<'_>, tolerances: Tolerances) -> Left {
    let seams = find_seams(input.grid, input.m, 1, tolerances);
    let found = seams.map(|seams| [seams.u, seams.v].iter().flat_map(|s| s.mapping).count());
    (found, true)
}

/// A triangulation into two lists of so many places each.
fn in_lists(
    room: usize,
    triangulate: impl Fn(&mut [usize], &mut [usize]) -> Result<usize, Refusal>,
) -> Left {
    let [mut triangles, mut flipped] = [0; 2].map(|_| vec![9; room]);
    let answer = triangulate(&mut triangles, &mut flipped);
    let untouched = [triangles, flipped].concat().iter().all(|&n| n == 9);
    (answer, untouched)
}

/// With its seams left unjoined.
fn triangulated_unjoined(input: Input<'_>, given: Tolerances) -> Left {
    let Input { grid, m, .. } = input;
    in_lists(input.room, |triangles, flipped| {
        let counts = triangulate_seams(grid, m, 1, given, None, None, triangles, flipped);
        Ok(counts?.triangles)
    })
}

fn triangulated(input: Input<'_>, given: Tolerances) -> Left {
    let Input { grid, m, .. } = input;
    in_lists(input.room, |triangles, flipped| {
        Ok(triangulate_grid(grid, m, 1, given, triangles, flipped)?.triangles)
    })
}

/// A trace into five lists of so many places each.
fn traced(room: usize, trace: impl Fn(TraceLists<'_>) -> Result<Drawn, Refusal>) -> Left {
    let [mut points, mut fractions] = [0; 2].map(|_| vec![9.0; room]);
    let [mut starts, mut sides, mut samples] = [0; 3].map(|_| vec![9; room]);
    let answer = trace(TraceLists {
        points: &mut points,
        starts: &mut starts,
        sides: &mut sides,
        fractions: &mut fractions,
        samples: &mut samples,
    });
    let untouched = [points, fractions].concat().iter().all(|&x| x == 9.0)
        && [starts, sides, samples].concat().iter().all(|&n| n == 9);
    (answer.map(|drawn| drawn.points), untouched)
}

fn traced_flat(input: Input<'_>, tolerances: Tolerances) -> Left {
    let pairs: Vec<_> = input
        .samples
        .iter()
        .map(|s| [s.point.u, s.point.v])
        .collect();
    let marks: Vec<_> = input.samples.iter().map(|s| s.mark).collect();
    traced(input.room, |lists| {
        let (grid, pairs) = (input.grid, pairs.as_flattened());
        trace_flat(grid, input.m, 1, tolerances, pairs, &marks, lists)
    })
}

fn traced_records(input: Input<'_>, tolerances: Tolerances) -> Left {
    traced(input.room, |lists| {
        trace_samples(input.grid, input.m, 1, tolerances, input.samples, lists)
    })
}

const TRACES: [Call; 2] = [traced_flat, traced_records];

/// All that take three tolerances.
const CALLS: [Call; 5] = [
    searched,
    triangulated_unjoined,
    triangulated,
    traced_flat,
    traced_records,
];

#[test]
fn the_default_is_eps_three_times() {
    assert_eq!(EPS.to_bits(), 0x3E11_2E0B_E826_D695);
    assert_eq!(Tolerances::default(), EVERY_EPS);
    let surface = Surface::new(&CELL, 1, 1).expect("a grid");
    assert_eq!(surface.tolerances(), EVERY_EPS);
    assert_eq!(surface.with_tolerances(EVERY_EPS), Ok(surface));
}

#[test]
fn a_refused_tolerance_is_refused_in_each_place_of_each_call() {
    let surface = Surface::new(&CELL, 1, 1).expect("a grid");
    for refused in REFUSED {
        for tolerances in in_each_place(refused) {
            for call in CALLS {
                let left = (Err(Refusal::Tolerance), true);
                assert_eq!(call(INPUT, tolerances), left, "{tolerances:?}");
            }
            let other = surface.with_tolerances(tolerances);
            assert_eq!(other, Err(Refusal::Tolerance), "{tolerances:?}");
        }
        // Rows that meet, and rows that cannot.
        let empty: &[f64] = &[];
        for (a, b) in [
            (&CELL[..], &CELL[..]),
            (&CELL, &CELL[..9]),
            (&CELL[..3], &CELL[..3]),
            (empty, empty),
        ] {
            let seam = Mapping::new_vector(a, b, refused);
            assert_eq!(seam, Err(Refusal::Tolerance), "{refused}");
        }
    }
}

#[test]
fn the_least_and_the_largest_pass_in_each_place_of_each_call() {
    let surface = Surface::new(&CELL, 1, 1).expect("a grid");
    for taken in TAKEN {
        for tolerances in in_each_place(taken) {
            for call in CALLS {
                assert!(call(INPUT, tolerances).0.is_ok(), "{tolerances:?}");
            }
            let other = surface.with_tolerances(tolerances).expect("tolerances");
            assert_eq!(other.tolerances(), tolerances);
            assert_eq!(other.points(), surface.points());
        }
        let seam = Mapping::new_vector(&CELL[..6], &CELL[..6], taken).expect("a search");
        // At 1 the ends of the rows, 1 apart, are still not close.
        let found = (seam.mapping, seam.comparisons);
        assert_eq!(found, (forward(0, 1), 3), "{taken}");
    }
}

#[test]
fn thirteen_comes_after_1_and_2_and_before_all_others() {
    let far = [1e13; 12];
    let with = |samples| Input { samples, ..INPUT };
    let on = |grid| Input { grid, ..INPUT };
    let (mark, point) = (2, ParamPoint { u: 0.0, v: 0.0 });
    let (no_mark, no_point) = ([Sample { mark, point }], [Sample::at(f64::NAN, 0.0)]);
    // What each call answers at EPS, 0 where it does not refuse.
    let cases = [
        (INPUT, [0, 0, 0, 0, 0]),
        (Input { m: 256, ..INPUT }, [1, 1, 1, 1, 1]),
        (on(&CELL[..11]), [2, 2, 2, 2, 2]),
        (with(&[Sample::BREAK; 65_538]), [0, 0, 0, 2, 2]),
        (Input { room: 0, ..INPUT }, [0, 3, 3, 12, 12]),
        (on(&far), [4, 4, 4, 4, 4]),
        (with(&no_mark), [0, 0, 0, 9, 9]),
        (with(&no_point), [0, 0, 0, 10, 10]),
        (with(&NO_STEP), [0, 0, 0, 11, 11]),
    ];
    for (input, numbers) in cases {
        for (call, number) in CALLS.into_iter().zip(numbers) {
            let refusal = Refusal::from_number(number);
            assert_eq!(call(input, EVERY_EPS).0.err(), refusal);
            for tolerances in in_each_place(0.0) {
                let first = refusal.filter(|refusal| refusal.number() <= 2);
                let left = (Err(first.unwrap_or(Refusal::Tolerance)), true);
                assert_eq!(call(input, tolerances), left, "{number}");
            }
        }
    }
    let [tolerances, ..] = in_each_place(0.0);
    let odd = traced(12, |lists| {
        trace_flat(&CELL, 1, 1, tolerances, &[0.0; 3], &[1, 1], lists)
    });
    assert_eq!(odd, (Err(Refusal::Length), true));

    let search = |row: &[f64], tolerance| Mapping::new_vector(row, &far, tolerance);
    assert_eq!(search(&CELL[..7], 0.0), Err(Refusal::Length));
    assert_eq!(search(&CELL, 0.0), Err(Refusal::Tolerance));
    assert_eq!(search(&CELL, 1.0), Err(Refusal::Coordinate));
}

/// The seam of two rows on the x axis.
fn search(a: [f64; 4], b: [f64; 4], tolerance: f64) -> (Option<Mapping>, u64) {
    let [a, b] = [a, b].map(|xs| xs.map(|x| [x, 0.0, 0.0]));
    let seam = Mapping::new_vector(a.as_flattened(), b.as_flattened(), tolerance);
    let seam = seam.expect("two rows");
    (seam.mapping, seam.comparisons)
}

#[test]
fn rows_meet_where_they_are_closer_than_the_tolerance() {
    let (a, b) = ([0.0, 1.0, 2.0, 3.0], [3.25, 2.25, 1.25, 0.25]);
    assert_eq!(search(a, b, 0.25), (None, 3));
    let (offset, steps) = (0, 3);
    let reversed = (Some(Mapping::Reverse { offset, steps }), 6);
    assert_eq!(search(a, b, 0.25_f64.next_up()), reversed);
    assert_eq!(search(a, b, 1.0), reversed);
}

#[test]
fn the_ends_of_a_row_are_compared_by_the_tolerance_too() {
    let (a, b) = ([0.0, 1.0, 2.0, 0.4], [1.0, 2.0, 0.0, 1.4]);
    assert_eq!(search(a, b, 0.5), (forward(2, 3), 10));
    assert_eq!(search(a, b, 0.4), (None, 3));
}

#[test]
fn a_point_closer_to_the_last_one_than_the_tolerance_of_lines_is_left_out() {
    for trace in TRACES {
        let points = |tolerance| {
            let [.., line] = in_each_place(tolerance);
            trace(INPUT, line).0
        };
        assert_eq!(points(0.25), Ok(3));
        assert_eq!(points(0.25_f64.next_up()), Ok(2));
        assert_eq!(points(0.5), Ok(2));
        // Now the second of the three is left out, and the third, 1 from the first, is not.
        assert_eq!(points(1.0), Ok(2));
    }
}

#[test]
fn the_tolerances_of_seams_leave_a_trace_as_it_is() {
    for trace in TRACES {
        for tolerance in TAKEN {
            let [u, v, _] = in_each_place(tolerance);
            assert_eq!([u, v].map(|given| trace(INPUT, given).0), [Ok(3), Ok(3)]);
        }
    }
}

/// Whether a curve is on a side, or inside the grid, is decided by EPS.
#[test]
fn no_tolerance_moves_the_border_of_the_grid() {
    let leg_at = |v| [Sample::at(0.0, v), Sample::at(1.0, v)];
    let (inside, outside) = (leg_at(-EPS), leg_at(-2.0 * EPS));
    let [u, v, line] = [1.0; 3];
    for trace in TRACES {
        for tolerances in [EVERY_EPS, Tolerances { u, v, line }] {
            let answer = |samples| trace(Input { samples, ..INPUT }, tolerances).0;
            assert_eq!(answer(&inside), Ok(2));
            assert_eq!(answer(&outside), Ok(0));
            assert_eq!(answer(&NO_STEP), Err(Refusal::NoStep));
        }
    }
}

/// A surface that is closed in u and in v, but that its last column misses the first by 0.01, and its
/// last row the first by 0.1.
fn nearly_closed() -> Vec<f64> {
    let (m, n) = (3, 4);
    let points = (0..=m).flat_map(|u| (0..=n).map(move |v| (u, v)));
    let points = points.flat_map(|(u, v)| {
        let (x, past) = (10 * (u % m) + 100 * (v % n), [u / m, v / n]);
        [x as f64, 0.01 * past[0] as f64, 0.1 * past[1] as f64]
    });
    points.collect()
}

#[test]
fn each_seam_is_found_by_its_own_tolerance() {
    let grid = nearly_closed();
    let surface = Surface::new(&grid, 3, 4).expect("a grid");
    let (u_seam, v_seam) = (forward(0, 4), forward(0, 3));
    for (u, v, found) in [
        (EPS, EPS, [None, None]),
        (0.02, EPS, [u_seam, None]),
        (EPS, 0.2, [None, v_seam]),
        (0.2, 0.2, [u_seam, v_seam]),
        // As far apart as the tolerance is not close.
        (0.01, 0.1, [None, None]),
    ] {
        for line in [EPS, 1.0] {
            let surface = surface.with_tolerances(Tolerances { u, v, line });
            let surface = surface.expect("tolerances");
            let seams = surface.seams();
            assert_eq!([seams.u.mapping, seams.v.mapping], found, "{u}, {v}");
            assert_eq!(surface.triangulate().seams, seams, "{u}, {v}");
            // A mapping that was found by a coarser tolerance is refused by a finer one.
            let given = [(u_seam, None), (None, v_seam)];
            let taken = given.map(|(u, v)| surface.triangulate_with(u, v).is_ok());
            assert_eq!(taken, found.map(|seam| seam.is_some()), "{u}, {v}");
        }
    }
}

#[test]
fn a_surface_draws_by_its_tolerance_of_lines_but_for_the_grid() {
    let surface = Surface::new(&CELL, 1, 1).expect("a grid");
    let [.., line] = in_each_place(0.25);
    let coarse = surface.with_tolerances(line).expect("tolerances");
    assert_eq!(coarse.grid_lines(), surface.grid_lines());
    let (spacing, twist) = (0.5, 0.5);
    let swirl = Texture::Swirl { spacing, twist };
    let [all, few] = [surface, coarse].map(|surface| surface.texture_lines(swirl));
    let (all, few) = (all.expect("lines"), few.expect("lines"));
    assert!((1..all.points.len()).contains(&few.points.len()));
    for line in &few {
        for ends in line.windows(2) {
            let [a, b] = [ends[0], ends[1]].map(Vector::from);
            assert!(!a.all_close(b, 0.25), "{ends:?}");
        }
    }
}

#[test]
fn closeness_takes_every_tolerance() {
    let origin = Vector::default();
    let quarter = Vector::new(0.25, -0.125, 0.0);
    for (tolerance, close) in [
        (0.25, false),
        (0.25_f64.next_up(), true),
        (2.0, true),
        (f64::INFINITY, true),
        (0.0, false),
        (-1.0, false),
        (f64::NAN, false),
    ] {
        assert_eq!(origin.all_close(quarter, tolerance), close, "{tolerance}");
        assert_eq!(quarter.all_close(origin, tolerance), close, "{tolerance}");
    }
    assert!(origin.all_close(origin, LEAST));
    for refused in [0.0, -0.0, f64::NAN] {
        assert!(!origin.all_close(origin, refused), "{refused}");
    }
    // A component that is NaN is passed over.
    let part = Vector::new(f64::NAN, 0.125, 0.0);
    assert!(part.all_close(origin, 0.25) && !part.all_close(origin, 0.125));
}
