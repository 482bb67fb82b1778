//! Plans, angles and sample points of textures against the original's: its counts, what the
//! closures of its rays make (`rays`), and the lines of whole swirls and spirals, which the library
//! draws alone but for the cosine and the sine.

mod rays;

use crate::case::case;
use crate::driver::{Compared, Driver};
use crate::inputs::grids::{Grid, any_grid};
use crate::inputs::tolerances::{any_tolerance, tolerances_fit};
use crate::inputs::{EPS, any, whole};
use crate::layers::lines::coordinates;
use crate::mappings::to_edited;
use crate::random::Random;
use crate::record::{Call, Record, Recorded, bits};
use crate::value::Value;
use merlontrispa::{Plan, Refusal, Texture, Tolerances};
use original::{
    ParametricSurfaceTexture, Paths, RaySample, Surface, Vector, edited, radial_sample_count,
    spiral_sample_count, texture_spacing, vectors,
};
use std::cell::LazyCell;
use std::f64::consts::TAU;

const SPACINGS: [f64; 19] = [
    0.0,
    -0.0,
    -1.0,
    f64::NAN,
    f64::INFINITY,
    f64::NEG_INFINITY,
    5e-324,
    EPS.next_down(),
    EPS,
    EPS.next_up(),
    0.01,
    0.05f64.next_down(),
    0.05,
    0.05f64.next_up(),
    0.5f64.next_down(),
    0.5,
    0.5f64.next_up(),
    1e9,
    f64::MAX,
];

const TWISTS: [f64; 14] = [
    0.0,
    -0.0,
    1.0,
    -1.0,
    5e-324,
    64.0,
    -64.0,
    64f64.next_up(),
    -64f64.next_up(),
    64f64.next_down(),
    1e300,
    f64::INFINITY,
    f64::NEG_INFINITY,
    f64::NAN,
];

const ARMS: [usize; 6] = [0, 1, 2, 64, 65, usize::MAX];

const STEPS: [usize; 7] = [0, 1, 2, 3, 254, 255, 256];

/// A texture on a surface of so many cells.
#[derive(Clone)]
struct Input {
    texture: Texture,
    m: usize,
    n: usize,
}

case!(Input { texture, m, n });

/// A texture on a grid.
#[derive(Clone)]
struct Scene {
    texture: Texture,
    grid: Grid,
    /// Those of the library and of the edited original. Where none are given the library has EPS
    /// three times, and is held to the unchanged original.
    tolerances: Option<Tolerances>,
}

case!(Scene {
    texture,
    grid,
    tolerances
});

impl Scene {
    fn new(texture: Texture, grid: Grid) -> Self {
        Self {
            texture,
            grid,
            tolerances: None,
        }
    }

    fn input(&self) -> Input {
        let (m, n) = (self.grid.u_steps, self.grid.v_steps);
        let texture = self.texture;
        Input { texture, m, n }
    }
}

pub fn compare(driver: &mut Driver) -> Compared {
    let radii = LazyCell::new(radii);
    let library = |input: &Input| input.texture.plan(input.m, input.n);
    let original = |input: &Input| original_plan(&radii, input);
    driver.compare_each("plan, edges", edges(), library, original)?;
    driver.compare("plan", 1_000_000, any_input, library, original)?;
    rays::compare(driver, &radii)?;
    let original = |scene: &Scene| original_lines(&radii, scene);
    let drawn = "swirls and spirals, drawn";
    driver.compare(drawn, 4_000, any_scene, library_lines, original)?;
    let limits = "swirls and spirals, at the limits";
    driver.compare_each(limits, limits_drawn(), library_lines, original)?;
    let wide = "swirls and spirals, up to 255 by 255";
    driver.compare(wide, 150, wide_scene, library_lines, original)?;
    let drawn = "swirls and spirals, at tolerances";
    driver.compare(drawn, 1_000, scene_at_tolerances, library_lines, original)
}

/// The texture in the original's type.
fn to_original(texture: Texture) -> ParametricSurfaceTexture {
    match texture {
        Texture::Grid => ParametricSurfaceTexture::Grid,
        Texture::Swirl { spacing, twist } => ParametricSurfaceTexture::Swirl { spacing, twist },
        Texture::Spiral { spacing, arms } => ParametricSurfaceTexture::Spiral { spacing, arms },
    }
}

/// The radius of each number of steps, by the original.
fn radii() -> Vec<f64> {
    let radius = |steps: usize| {
        let grid = vec![Vector::new(0.0, 0.0, 0.0); 2 * (steps + 1)];
        Surface::from_grid(grid, steps, 1).texture_center_radius().1
    };
    std::iter::once(0.0).chain((1..=255).map(radius)).collect()
}

/// The counts of the original, and the refusals of Rules 11.
fn original_plan(radii: &[f64], input: &Input) -> Result<Plan, Refusal> {
    let fits = |steps: usize| (1..=255).contains(&steps);
    if !fits(input.m) || !fits(input.n) {
        return Err(Refusal::Steps);
    }
    let radius = radii[input.m.max(input.n)];
    let (rays, samples) = match input.texture {
        Texture::Grid => (0, 0),
        Texture::Swirl { spacing, twist } => {
            if !twist.is_finite() || twist.abs() > 64.0 {
                return Err(Refusal::Texture);
            }
            let spacing = texture_spacing(spacing);
            let rays = (TAU * radius / spacing).ceil().max(1.0) as usize;
            (rays, radial_sample_count(radius, spacing, twist))
        }
        Texture::Spiral { spacing, arms } => {
            if arms > 64 {
                return Err(Refusal::Texture);
            }
            let spacing = texture_spacing(spacing);
            let turns = (radius / spacing).ceil().max(1.0);
            (arms.max(1), spiral_sample_count(radius, spacing, turns))
        }
    };
    if rays > 65_536 || samples > 65_536 {
        return Err(Refusal::Count);
    }
    Ok(Plan { rays, samples })
}

/// The numbers of each line, or a refusal.
type DrawnLines = Result<Vec<Vec<f64>>, Refusal>;

/// What the original draws of what Rules 11 does not refuse; where it panics, 11 is due.
fn original_lines(radii: &[f64], scene: &Scene) -> DrawnLines {
    let grid = &scene.grid;
    if let Some(refusal) = grid.refusal(None) {
        return Err(refusal);
    }
    if !scene.tolerances.is_none_or(tolerances_fit) {
        return Err(Refusal::Tolerance);
    }
    original_plan(radii, &scene.input())?;
    let paths = original_paths(scene).ok_or(Refusal::NoStep)?;
    let lines = paths.iter_paths().map(|line| line.as_flattened().to_vec());
    Ok(lines.collect())
}

/// The lines of the original, or nothing where it panics: the edited one's where tolerances are given.
fn original_paths(scene: &Scene) -> Option<Paths<[f64; 3]>> {
    let Grid {
        u_steps,
        v_steps,
        ref numbers,
    } = scene.grid;
    let texture = to_original(scene.texture);
    match scene.tolerances {
        None => {
            let mut surface = Surface::from_grid(vectors(numbers), u_steps, v_steps);
            Some(surface.paths(texture)?.map(Into::into))
        }
        Some(tolerances) => edited::at(to_edited(tolerances), || {
            let points = edited::vectors(numbers);
            let mut surface = edited::Surface::from_grid(points, u_steps, v_steps);
            Some(surface.paths(texture.into())?.map(Into::into))
        }),
    }
}

/// What the library draws: its plan, angles, points and traces, with the host's cosine and sine.
fn library_lines(scene: &Scene) -> DrawnLines {
    let grid = &scene.grid;
    let surface = merlontrispa::Surface::new(&grid.numbers, grid.u_steps, grid.v_steps)?;
    let surface = match scene.tolerances {
        None => surface,
        Some(tolerances) => surface.with_tolerances(tolerances)?,
    };
    let lines = surface.texture_lines(scene.texture)?;
    let lines = lines.iter().map(|line| line.as_flattened().to_vec());
    Ok(lines.collect())
}

/// Each edge of a spacing with each of a twist and of arms, on surfaces at the limits.
fn edges() -> impl Iterator<Item = Input> {
    let steps = STEPS.into_iter().flat_map(|m| STEPS.map(|n| (m, n)));
    steps.flat_map(|(m, n)| {
        let swirls = SPACINGS
            .into_iter()
            .flat_map(|spacing| TWISTS.map(|twist| Texture::Swirl { spacing, twist }));
        let spirals = SPACINGS
            .into_iter()
            .flat_map(|spacing| ARMS.map(|arms| Texture::Spiral { spacing, arms }));
        let textures = std::iter::once(Texture::Grid).chain(swirls).chain(spirals);
        textures
            .map(move |texture| Input { texture, m, n })
            .collect::<Vec<_>>()
    })
}

/// A spacing that is often at an edge.
fn any_spacing(random: &mut Random) -> f64 {
    match random.below(4) {
        0 => random.of(&SPACINGS),
        1 => any(random),
        2 => 0.6 * random.unit(),
        _ => 8.0 * random.unit(),
    }
}

fn any_input(random: &mut Random) -> Input {
    let spacing = any_spacing(random);
    let texture = match random.below(16) {
        0 => Texture::Grid,
        k if k < 8 => {
            let twist = match random.below(8) {
                0 => any(random),
                1 => random.of(&TWISTS),
                _ => 130.0 * random.unit() - 65.0,
            };
            Texture::Swirl { spacing, twist }
        }
        _ => {
            let arms = match random.below(8) {
                0 => whole(random),
                _ => random.below(67) as usize,
            };
            Texture::Spiral { spacing, arms }
        }
    };
    let mut steps = || match random.below(16) {
        0 => whole(random),
        1 => random.of(&STEPS),
        _ => 1 + random.below(255) as usize,
    };
    let (m, n) = (steps(), steps());
    Input { texture, m, n }
}

/// A swirl or a spiral that is soon drawn.
fn any_scene(random: &mut Random) -> Scene {
    let spacing = match random.below(4) {
        0 => random.of(&[
            0.0,
            -0.0,
            f64::NAN,
            f64::INFINITY,
            0.5,
            0.5f64.next_up(),
            1e9,
        ]),
        _ => 0.4 + 3.0 * random.unit(),
    };
    let texture = match random.below(2) {
        0 => {
            let twist = 6.0 * random.unit() - 3.0;
            let twist = random.of(&[0.0, 1.0, -1.0, twist, twist]);
            Texture::Swirl { spacing, twist }
        }
        _ => {
            let arms = random.below(6) as usize;
            Texture::Spiral { spacing, arms }
        }
    };
    let [m, n] = [0; 2].map(|_| 1 + random.below(12) as usize);
    let grid = any_grid(random, m, n);
    Scene::new(texture, grid)
}

/// The same at tolerances, on a grid whose points are mostly so near to each other that they tell.
fn scene_at_tolerances(random: &mut Random) -> Scene {
    let mut scene = any_scene(random);
    let scale = random.of(&[1.0, 1.0 / 16.0, 1.0 / 256.0]);
    scene.grid.numbers.iter_mut().for_each(|x| *x *= scale);
    let [u, v, line] = [(); 3].map(|()| any_tolerance(random));
    scene.tolerances = Some(Tolerances { u, v, line });
    scene
}

/// How many samples a drawing may have that is drawn in some milliseconds.
const WORK: usize = 12_000;

/// A swirl or a spiral anywhere in the domain, brought to so few rays and samples that it is soon
/// drawn.
fn wide_scene(random: &mut Random) -> Scene {
    let mut input = wide_input(random);
    while !soon_drawn(&input) {
        input = coarser(input);
    }
    let Input { texture, m, n } = input;
    let grid = any_grid(random, m, n);
    Scene::new(texture, grid)
}

fn soon_drawn(input: &Input) -> bool {
    let plan = input.texture.plan(input.m, input.n);
    plan.is_ok_and(|plan| plan.rays * (plan.samples + 1) <= WORK)
}

/// Rays or turns that are further apart, up to 1000 steps; then half the turns or arms.
fn coarser(Input { texture, m, n }: Input) -> Input {
    let wider = |spacing| 2.0 * texture_spacing(spacing);
    let texture = match texture {
        Texture::Grid => texture,
        Texture::Swirl { spacing, twist } if wider(spacing) > 1e3 => {
            let twist = twist / 2.0;
            Texture::Swirl { spacing, twist }
        }
        Texture::Swirl { spacing, twist } => {
            let spacing = wider(spacing);
            Texture::Swirl { spacing, twist }
        }
        Texture::Spiral { spacing, arms } if wider(spacing) > 1e3 => {
            let arms = arms / 2;
            Texture::Spiral { spacing, arms }
        }
        Texture::Spiral { spacing, arms } => {
            let spacing = wider(spacing);
            Texture::Spiral { spacing, arms }
        }
    };
    Input { texture, m, n }
}

/// A swirl or a spiral anywhere in the domain, whose spacing is of any magnitude.
fn wide_input(random: &mut Random) -> Input {
    let spacing = match random.below(4) {
        0 => random.of(&SPACINGS),
        _ => 2f64.powf(24.0 * random.unit() - 12.0),
    };
    let texture = match random.below(2) {
        0 => {
            let twist = match random.below(4) {
                0 => random.of(&[0.0, -0.0, 64.0, -64.0, 5e-324]),
                1 => 2.0 * random.unit() - 1.0,
                _ => 128.0 * random.unit() - 64.0,
            };
            Texture::Swirl { spacing, twist }
        }
        _ => {
            let arms = random.below(65) as usize;
            Texture::Spiral { spacing, arms }
        }
    };
    // Many turns are soon drawn on few cells only.
    let most = random.of(&[32, 255]);
    let mut steps = || match random.below(4) {
        0 => random.of(&[1, 2, most - 1, most]),
        _ => 1 + random.below(most as u64) as usize,
    };
    let (m, n) = (steps(), steps());
    Input { texture, m, n }
}

/// Swirls and spirals at the limits of what is drawn: the most turns, arms, rays and samples, and
/// one more.
fn limits_drawn() -> impl Iterator<Item = Scene> {
    let swirl = |spacing, twist| Texture::Swirl { spacing, twist };
    let spiral = |spacing, arms| Texture::Spiral { spacing, arms };
    let rays = limit(EPS.next_up(), 1.0, |spacing| swirl(spacing, 0.0).plan(1, 1));
    let turns = limit(EPS.next_up(), 1.0, |spacing| spiral(spacing, 1).plan(1, 1));
    let twist = limit(64.0, 1.0, |twist| swirl(f64::MAX, twist).plan(255, 255));
    let all = [
        (swirl(1e9, 64.0), 100, 1),
        (swirl(1e9, -64.0), 1, 100),
        (swirl(1e9, -64.0), 114, 114),
        (swirl(1e9, -64.0), 115, 115),
        (swirl(f64::MAX, twist), 255, 255),
        (swirl(f64::MAX, twist.next_up()), 255, 255),
        (swirl(100.0, -0.0), 255, 255),
        (swirl(100.0, 1.0), 255, 1),
        (swirl(rays, 0.0), 1, 1),
        (swirl(rays.next_down(), 0.0), 1, 1),
        (spiral(f64::MAX, 64), 255, 255),
        (spiral(180.0, 64), 1, 255),
        (spiral(1e-9, 0), 60, 3),
        (spiral(turns, 1), 1, 1),
        (spiral(turns.next_down(), 1), 1, 1),
    ];
    let mut random = Random::new(1);
    all.into_iter().map(move |(texture, m, n)| {
        let grid = any_grid(&mut random, m, n);
        Scene::new(texture, grid)
    })
}

/// The last float from `fits` to `refused`, both positive, at which there is a plan.
fn limit(refused: f64, fits: f64, plan: impl Fn(f64) -> Result<Plan, Refusal>) -> f64 {
    let [mut refused, mut fits] = [refused, fits].map(f64::to_bits);
    while refused.abs_diff(fits) > 1 {
        let middle = refused.midpoint(fits);
        match plan(f64::from_bits(middle)) {
            Ok(_) => fits = middle,
            Err(_) => refused = middle,
        }
    }
    f64::from_bits(fits)
}

/// Plans, angles and points for the record.
pub fn record(record: &mut Record) {
    let radii = radii();
    let mut random = record.random();
    for _ in 0..200 {
        let scene = any_scene(&mut random);
        assert!(
            drawn_alike(&radii, &scene),
            "a sample is not the original's"
        );
    }
    let all: Vec<_> = edges().collect();
    for _ in 0..4_000 {
        let input = recorded_input(&mut random, &all);
        let plan = original_plan(&radii, &input);
        record.offer(input.planned(plan));
        for _ in 0..2 {
            let (ray, sample) = match plan {
                Ok(plan) => (
                    up_to(&mut random, plan.rays),
                    up_to(&mut random, plan.samples),
                ),
                Err(_) => (0, 0),
            };
            let direction = recorded_direction(&mut random);
            let told = input.sample(plan, ray, sample, direction);
            record.offer(input.turned(told, ray, sample));
            record.offer(input.placed(plan, told, ray, sample, direction));
        }
    }
}

/// Any texture, one that is drawn whole, or one at the edges.
fn recorded_input(random: &mut Random, edges: &[Input]) -> Input {
    match random.below(4) {
        0 => any_input(random),
        1 => any_scene(random).input(),
        _ => edges[random.below(edges.len() as u64) as usize].clone(),
    }
}

/// A cosine and a sine, some of them refused.
fn recorded_direction(random: &mut Random) -> [f64; 2] {
    match random.below(4) {
        0 => random.of(&[
            [1.0, 0.0],
            [-0.0, -1.0],
            [1f64.next_up(), 0.0],
            [0.0, f64::NAN],
        ]),
        _ => [2.0 * random.unit() - 1.0, 2.0 * random.unit() - 1.0],
    }
}

/// Mostly at most `top`.
fn up_to(random: &mut Random, top: usize) -> usize {
    random.below(top as u64 + 2) as usize
}

impl Input {
    /// The texture's kind and numbers, M and N, and what follows.
    fn words(&self, rest: &[u64]) -> Vec<u64> {
        let [kind, spacing, twist, arms] = match self.texture {
            Texture::Grid => [0; 4],
            Texture::Swirl { spacing, twist } => [1, bits(spacing), bits(twist), 0],
            Texture::Spiral { spacing, arms } => [2, bits(spacing), 0, arms as u64],
        };
        let steps = [self.m as u64, self.n as u64];
        [&[kind, spacing, twist, arms], &steps[..], rest].concat()
    }

    fn name(&self) -> &'static str {
        match self.texture {
            Texture::Grid => "a grid",
            Texture::Swirl { .. } => "a swirl",
            Texture::Spiral { .. } => "a spiral",
        }
    }

    fn planned(&self, plan: Result<Plan, Refusal>) -> Recorded {
        Recorded::new(Call::Plan, plan.err(), &self.words(&[]))
            .told(plan.map(|plan| [plan.rays, plan.samples]))
            .reaching_if(plan.is_ok(), self.name())
    }

    fn turned(&self, told: Result<RaySample, Refusal>, ray: usize, i: usize) -> Recorded {
        let numbers = self.words(&[ray as u64, i as u64]);
        let case =
            Recorded::new(Call::Angle, told.err(), &numbers).reaching_if(told.is_ok(), self.name());
        match told {
            Ok(sample) => case.words(&[0, bits(sample.angle)]),
            Err(refusal) => case.told(Err(refusal)),
        }
    }

    fn placed(
        &self,
        plan: Result<Plan, Refusal>,
        told: Result<RaySample, Refusal>,
        ray: usize,
        i: usize,
        [cosine, sine]: [f64; 2],
    ) -> Recorded {
        let fits = |x: f64| x.abs() <= 1.0;
        let told = match plan {
            Ok(_) if !fits(cosine) || !fits(sine) => Err(Refusal::Direction),
            _ => told,
        };
        let numbers = self.words(&[ray as u64, i as u64, bits(cosine), bits(sine)]);
        let case = Recorded::new(Call::SamplePoint, told.err(), &numbers)
            .reaching_if(told.is_ok(), self.name());
        match told {
            Ok(sample) => {
                let [u, v] = sample.point.map(bits);
                case.words(&[0, u, v])
            }
            Err(refusal) => case.told(Err(refusal)),
        }
    }

    /// A sample by the original's closures, or a refusal of Rules 11.
    fn sample(
        &self,
        plan: Result<Plan, Refusal>,
        ray: usize,
        i: usize,
        direction: [f64; 2],
    ) -> Result<RaySample, Refusal> {
        let Plan { rays, samples } = plan?;
        if ray >= rays || i > samples {
            return Err(Refusal::NotThere);
        }
        let texture = to_original(self.texture);
        let lend = move |number, _| (number == i).then_some(direction);
        Ok(original::rays(texture, self.m, self.n, ray, lend).samples[0])
    }
}

/// Whether the closures' samples, with Rust's cosine and sine, draw what the original draws of the
/// texture, bit by bit.
fn drawn_alike(radii: &[f64], scene: &Scene) -> bool {
    let Scene { texture, grid, .. } = scene;
    let (m, n) = (grid.u_steps, grid.v_steps);
    let plan = original_plan(radii, &scene.input());
    let surface = Surface::from_grid(vectors(&grid.numbers), m, n);
    let ray_lines = |ray| {
        let lend = |_, angle: f64| Some([angle.cos(), angle.sin()]);
        let samples = original::rays(to_original(*texture), m, n, ray, lend).samples;
        let samples = samples.iter().map(|sample| Some(sample.point.into()));
        let paths = surface.trace(&samples.collect::<Vec<_>>());
        let paths = paths.ok_or(Refusal::NoStep)?;
        let lines = paths.iter_paths().map(|line| coordinates(line).collect());
        Ok(lines.collect::<Vec<_>>())
    };
    let rays = plan.map_or(0, |plan| plan.rays);
    let drawn: Result<Vec<_>, Refusal> = (0..rays).map(ray_lines).collect();
    original_lines(radii, scene).same(&drawn.map(|rays| rays.concat()))
}

#[cfg(test)]
mod tests {
    use super::*;

    #[test]
    fn the_limits_are_drawn_and_one_more_is_refused() {
        let plans =
            limits_drawn().map(|scene| scene.texture.plan(scene.grid.u_steps, scene.grid.v_steps));
        let (drawn, refused): (Vec<_>, Vec<_>) = plans.partition(Result::is_ok);
        assert_eq!((drawn.len(), refused), (11, vec![Err(Refusal::Count); 4]));
        let most = |count: fn(Plan) -> usize| drawn.iter().flatten().map(|&plan| count(plan)).max();
        assert_eq!(most(|plan| plan.rays), Some(65_536));
        assert_eq!(most(|plan| plan.samples), Some(65_536));
    }

    #[test]
    fn wide_scenes_are_wide() {
        let mut random = Random::new(1);
        let (mut cells, mut twists, mut arms) = (0, 0, 0);
        for _ in 0..150 {
            let Scene { texture, grid, .. } = wide_scene(&mut random);
            assert!(texture.plan(grid.u_steps, grid.v_steps).is_ok());
            cells += u32::from(grid.u_steps.max(grid.v_steps) > 200);
            match texture {
                Texture::Swirl { twist, .. } => twists += u32::from(twist.abs() > 32.0),
                Texture::Spiral { arms: count, .. } => arms += u32::from(count > 32),
                Texture::Grid => {}
            }
        }
        assert!(
            cells > 20 && twists > 8 && arms > 8,
            "{cells}, {twists}, {arms}"
        );
    }

    /// A swirl or a spiral has other lines at its tolerances than by EPS, and not none.
    #[test]
    fn tolerances_decide_lines() {
        let mut random = Random::new(1);
        let (mut other, radii) = (0, radii());
        for _ in 0..200 {
            let scene = scene_at_tolerances(&mut random);
            let by_eps = Scene::new(scene.texture, scene.grid.clone());
            let [here, by_eps] = [&scene, &by_eps].map(|scene| {
                let lines = original_lines(&radii, scene).expect("it is drawn");
                lines.iter().map(Vec::len).collect::<Vec<_>>()
            });
            other += u32::from(!here.is_empty() && here != by_eps);
        }
        assert!(other > 50, "{other}");
    }
}
