//! What `Surface` adds to the library's calls: the same answers in types of Rust.

use merlontrispa::{
    Drawn, GivenMesh, Mapping, Mesh, OwnedTrace, Refusal, Seams, Surface, Texture, TraceLists,
};
use std::error::Error;

/// The numbers of a grid whose points come from a formula.
fn sampled(m: usize, n: usize, formula: impl Fn(usize, usize) -> [f64; 3]) -> Vec<f64> {
    let points = (0..=m).flat_map(|u| (0..=n).map(move |v| (u, v)));
    points.flat_map(|(u, v)| formula(u, v)).collect()
}

/// A flat surface with as many steps as there may be.
fn largest() -> Vec<f64> {
    sampled(255, 255, |u, v| [u as f64, v as f64, 0.0])
}

/// A surface of M = 5 and N = 3: its last column is its first, turned by `offset` or turned round.
fn joined(mapping: Option<Mapping>, closed_in_v: bool) -> Vec<f64> {
    let (m, n) = (5, 3);
    sampled(m, n, |u, v| {
        let (u, v) = match mapping {
            Some(mapping) if u == m => (0, mapping.map_index_inv(v).expect("an index of a row")),
            _ => (u, v),
        };
        let v = if closed_in_v { v % n } else { v };
        [u as f64, (v * v) as f64, (u + v) as f64]
    })
}

/// The seams by a search between columns, and one between rows.
fn seams_of_rows(surface: Surface<'_>) -> Seams {
    let (points, tolerances) = (surface.points(), surface.tolerances());
    let column = surface.v_steps() + 1;
    let search = |[a, b]: [Vec<[f64; 3]>; 2], tolerance| {
        Mapping::new_vector(a.as_flattened(), b.as_flattened(), tolerance).expect("two rows")
    };
    let columns = [0, surface.u_steps()].map(|u| points[u * column..][..column].to_vec());
    let rows = [0, surface.v_steps()].map(|v| {
        let row = points.iter().skip(v).step_by(column);
        row.copied().collect()
    });
    Seams {
        u: search(columns, tolerances.u),
        v: search(rows, tolerances.v),
    }
}

/// Its mesh, which is the same where the seams are found first and then given.
fn mesh_in_two_steps(surface: Surface<'_>) -> Mesh {
    let (seams, mesh) = (surface.seams(), surface.triangulate());
    assert_eq!(seams, seams_of_rows(surface));
    assert_eq!(seams, mesh.seams);
    let given = surface.triangulate_with(seams.u.mapping, seams.v.mapping);
    let GivenMesh { triangles, flipped } = given.expect("what is found fits");
    assert_eq!((&triangles, &flipped), (&mesh.triangles, &mesh.flipped));
    mesh
}

#[test]
fn seams_are_those_of_the_triangulation() {
    let (offset, steps) = (1, 3);
    let joinings = [
        (None, false),
        (None, true),
        (Some(Mapping::Forward { offset: 0, steps }), false),
        (Some(Mapping::Forward { offset, steps }), true),
        (Some(Mapping::Reverse { offset: 0, steps }), false),
        (Some(Mapping::Reverse { offset, steps }), true),
    ];
    for (mapping, closed_in_v) in joinings {
        let grid = joined(mapping, closed_in_v);
        let surface = Surface::new(&grid, 5, 3).expect("a grid");
        let seams = mesh_in_two_steps(surface).seams;
        assert_eq!(seams.u.mapping, mapping);
        assert_eq!(seams.v.mapping.is_some(), closed_in_v);
    }
    // One cell whose corners are all one point: both seams join, and no triangle is left.
    let surface = Surface::new(&[0.0; 12], 1, 1).expect("a grid");
    let mesh = mesh_in_two_steps(surface);
    assert_eq!((mesh.triangles.len(), mesh.flipped.len()), (0, 0));
}

#[test]
fn the_largest_surface_has_seams() {
    let (offset, steps) = (1, 255);
    let mapping = Mapping::Reverse { offset, steps };
    // Closed in v; the last column is the first, turned round and on.
    let grid = sampled(255, 255, |u, v| match u {
        255 => [
            0.0,
            (mapping.map_index_inv(v).expect("an index") % 255) as f64,
            0.0,
        ],
        _ => [u as f64, (v % 255) as f64, 0.0],
    });
    let surface = Surface::new(&grid, 255, 255).expect("a grid");
    let mesh = mesh_in_two_steps(surface);
    assert_eq!(mesh.seams.u.mapping, Some(mapping));
    let forward = Mapping::Forward { offset: 0, steps };
    assert_eq!(mesh.seams.v.mapping, Some(forward));
    assert_eq!(mesh.triangles.len(), 2 * 255 * 255);
    assert_eq!(mesh.flipped.len(), 255);
    assert_eq!(surface.points()[256], [1.0, 0.0, 0.0]);
}

#[test]
fn room_is_what_the_calls_ask() {
    let grid = joined(None, false);
    let surface = Surface::new(&grid, 5, 3).expect("a grid");
    let triangulate = |triangles, flipped| {
        let (mut triangles, mut flipped) = (vec![0; triangles], vec![0; flipped]);
        let given = surface.triangulate_with_into(None, None, &mut triangles, &mut flipped);
        let found = surface.triangulate_into(&mut triangles, &mut flipped);
        assert_eq!(given.err(), found.err());
        found
    };
    let (triangles, flipped) = (surface.triangles_room(), surface.flipped_room());
    assert!(triangulate(triangles, flipped).is_ok());
    assert_eq!(triangulate(triangles - 1, flipped), Err(Refusal::Room));
    assert_eq!(triangulate(triangles, flipped - 1), Err(Refusal::Room));

    let grid_lines = |points, starts| {
        let (mut points, mut starts) = (vec![0.0; points], vec![0; starts]);
        let lines = surface.grid_lines_into(&mut points, &mut starts);
        lines.map(|lines| lines.drawn)
    };
    let (points, starts) = (surface.grid_points_room(), surface.grid_starts_room());
    let drawn = Drawn {
        points: points / 3,
        lines: starts,
    };
    assert_eq!(grid_lines(points, starts), Ok(drawn));
    assert_eq!(grid_lines(points - 1, starts), Err(Refusal::Room));
    assert_eq!(grid_lines(points, starts - 1), Err(Refusal::Room));
}

#[test]
fn grid_lines_run_along_u_and_then_along_v() {
    let grid = sampled(2, 3, |u, v| [u as f64, v as f64, 0.0]);
    let lines = Surface::new(&grid, 2, 3).expect("a grid").grid_lines();
    let lengths: Vec<_> = lines.iter().map(<[_]>::len).collect();
    assert_eq!(lengths, [3, 3, 3, 3, 4, 4, 4]);
    assert_eq!(lines.iter().len(), 7);
    let last = lines.iter().next_back().expect("a line");
    assert_eq!(last, [0.0, 1.0, 2.0, 3.0].map(|v| [2.0, v, 0.0]));
}

/// A long line, a break and a point that makes no line.
const SAMPLES: [Option<[f64; 2]>; 4] = [
    Some([0.25, 0.5]),
    Some([254.0, 253.0]),
    None,
    Some([1.0, 1.0]),
];

#[test]
fn a_trace_finds_its_room() {
    let grid = largest();
    let surface = Surface::new(&grid, 255, 255).expect("a grid");
    let OwnedTrace {
        lines,
        sides,
        fractions,
        samples,
    } = surface.trace(&SAMPLES).expect("a trace");
    let count = lines.points.len();
    assert!(count > 700, "{count} points");
    assert_eq!((sides.len(), fractions.len()), (count, count));
    assert_eq!(samples, vec![1; count]);
    for ((point, side), t) in lines.points.iter().zip(sides).zip(fractions) {
        let [p, q] = side.map(|number| surface.points()[number]);
        assert_eq!(*point, [0, 1, 2].map(|i| (1.0 - t) * p[i] + t * q[i]));
    }
}

#[test]
fn a_trace_into_lists_that_just_hold_it_is_the_same() {
    let grid = largest();
    let surface = Surface::new(&grid, 255, 255).expect("a grid");
    let owned = surface.trace(&SAMPLES).expect("a trace");
    let count = owned.lines.points.len();
    let (mut points, mut starts) = (vec![0.0; 3 * count + 2], vec![0; 1]);
    let (mut sides, mut fractions) = (vec![0; 2 * count + 1], vec![0.0; count + 1]);
    let mut samples = vec![0; count];
    let mut lists = TraceLists {
        points: &mut points,
        starts: &mut starts,
        sides: &mut sides,
        fractions: &mut fractions,
        samples: &mut samples,
    };
    let pairs = [0.25, 0.5, 254.0, 253.0, f64::NAN, f64::NAN, 1.0, 1.0];
    let refused = surface.trace_into(&pairs, &[1, 1, 0, 2], lists.reborrow());
    assert_eq!(refused.err(), Some(Refusal::Mark));
    let lent = surface
        .trace_into(&pairs, &[1, 1, 0, 1], lists)
        .expect("a trace");
    assert!(lent.lines.iter().eq(&owned.lines));
    assert_eq!(
        (lent.sides, lent.fractions, lent.samples),
        (&owned.sides[..], &owned.fractions[..], &owned.samples[..])
    );
}

/// Strokes on a surface of 5 by 3 cells: breaks first, in a row and last, a sample that is there
/// again, and one that is alone.
const STROKES: [Option<[f64; 2]>; 14] = [
    None,
    None,
    Some([0.5, 0.5]),
    Some([0.5, 0.5]),
    Some([4.5, 2.5]),
    Some([4.5, 0.25]),
    None,
    Some([1.0, 1.0]),
    None,
    None,
    Some([-1.0, 1.5]),
    Some([2.5, 1.5]),
    Some([6.0, 1.5]),
    None,
];

#[test]
fn numbers_of_samples_never_fall_and_are_those_of_legs() {
    let grid = joined(None, false);
    let surface = Surface::new(&grid, 5, 3).expect("a grid");
    let trace = surface.trace(&STROKES).expect("a trace");
    let numbers = &trace.samples;
    assert!(numbers.is_sorted());
    for &number in numbers {
        let [Some(_), Some(_)] = STROKES[number - 1..=number] else {
            panic!("{number} ends no leg")
        };
    }
    // The leg without length lies on a diagonal. The next leg makes its point again, which is left out.
    let mut legs = numbers.clone();
    legs.dedup();
    assert_eq!(legs, [3, 4, 5, 11, 12]);
    assert_eq!(numbers[..2], [3, 4]);
}

#[test]
fn the_lines_of_a_texture_are_those_of_its_rays_in_turn() {
    let (m, n) = (7, 4);
    let grid = sampled(m, n, |u, v| [u as f64, v as f64, (u * v) as f64]);
    let surface = Surface::new(&grid, m, n).expect("a grid");
    let grid_lines = surface.texture_lines(Texture::Grid);
    assert_eq!(grid_lines, Ok(surface.grid_lines()));

    let (spacing, arms) = (0.7, 3);
    let spiral = Texture::Spiral { spacing, arms };
    let plan = spiral.plan(m, n).expect("a plan");
    let mut rays = Vec::new();
    for ray in 0..plan.rays {
        let sample = |i| {
            let angle = spiral.angle(m, n, ray, i)?;
            spiral.sample_point(m, n, ray, i, [angle.cos(), angle.sin()])
        };
        let samples = (0..=plan.samples).map(|i| Some(sample(i).expect("a sample")));
        let samples: Vec<_> = samples.collect();
        let trace = surface.trace(&samples).expect("a trace");
        assert_eq!(surface.trace_ray(spiral, ray), Ok(trace.clone()));
        rays.push(trace.lines);
    }
    for (texture, ray) in [(spiral, plan.rays), (Texture::Grid, 0)] {
        assert_eq!(surface.trace_ray(texture, ray), Err(Refusal::NotThere));
    }
    let lines = surface.texture_lines(spiral).expect("lines");
    assert!(lines.iter().len() > plan.rays);
    assert!(lines.iter().eq(rays.iter().flatten()));

    let arms = 65;
    let refused = surface.texture_lines(Texture::Spiral { spacing, arms });
    assert_eq!(refused, Err(Refusal::Texture));
    let (spacing, twist) = (1e-6, 0.0);
    let refused = surface.texture_lines(Texture::Swirl { spacing, twist });
    assert_eq!(refused, Err(Refusal::Count));
}

#[test]
fn refusals_are_errors_with_a_sentence() {
    let curve = |samples: &[_]| -> Result<(), Box<dyn Error>> {
        Surface::new(&[0.0; 12], 1, 1)?.trace(samples)?;
        Ok(())
    };
    let refused = curve(&[Some([f64::NAN, 0.0])]).expect_err("no point");
    assert_eq!(
        refused.to_string(),
        "10: a coordinate of a point among the samples is NaN, infinite or beyond ±1,048,576"
    );
    assert_eq!(refused.downcast_ref(), Some(&Refusal::Sample));
    assert!(curve(&[None; 65_537]).is_ok());
    let refused = curve(&[None; 65_538]).expect_err("too many samples");
    assert_eq!(refused.downcast_ref(), Some(&Refusal::Length));
    assert_eq!(Texture::Grid.angle(1, 1, 0, 0), Err(Refusal::NotThere));
}
