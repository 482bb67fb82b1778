//! Angles and sample points against those that the original's closures make, bit by bit, and their
//! refusals against Rules 11.2.

use super::{Input, any_input, edges, original_plan, to_original, wide_input};
use crate::case::case;
use crate::driver::{Compared, Driver};
use crate::inputs::whole;
use crate::random::Random;
use merlontrispa::{Refusal, Texture};
use std::cell::RefCell;

/// A ray of a texture, cut into parts: the samples at their ends are compared.
#[derive(Clone)]
struct Ray {
    texture: Texture,
    m: usize,
    n: usize,
    ray: usize,
    parts: usize,
}

case!(Ray {
    texture,
    m,
    n,
    ray,
    parts
});

/// The angle, and u and v, of each of some samples, or a refusal.
type Samples = Result<Vec<(f64, [f64; 2])>, Refusal>;

pub fn compare(driver: &mut Driver, radii: &[f64]) -> Compared {
    let original = |ray: &Ray| original_samples(radii, ray);
    driver.compare_each(
        "angle and sample_point, edges",
        edges().flat_map(|input| rays_at_edges(&input)),
        library_samples,
        original,
    )?;
    driver.compare(
        "angle and sample_point",
        20_000,
        any_ray,
        library_samples,
        original,
    )?;
    let ruled = |asked: &Asked| ruled(radii, asked);
    driver.compare(
        "angle and sample_point, refusals",
        200_000,
        any_asked,
        told,
        ruled,
    )
}

/// A sample that may or may not be there, and a cosine and a sine that may be refused.
#[derive(Clone)]
struct Asked {
    texture: Texture,
    m: usize,
    n: usize,
    ray: usize,
    sample: usize,
    cosine: f64,
    sine: f64,
}

case!(Asked {
    texture,
    m,
    n,
    ray,
    sample,
    cosine,
    sine
});

/// Whether there is an angle, and a point, or why not.
type Told = [Result<bool, Refusal>; 2];

fn told(asked: &Asked) -> Told {
    let Asked { texture, m, n, .. } = *asked;
    let (ray, sample) = (asked.ray, asked.sample);
    let direction = [asked.cosine, asked.sine];
    let angle = texture.angle(m, n, ray, sample);
    let point = texture.sample_point(m, n, ray, sample, direction);
    [angle.map(|_| true), point.map(|_| true)]
}

/// Rules 11.2: 1, 5 and 6 as for the plan, then 7 for a point alone, then 8.
fn ruled(radii: &[f64], asked: &Asked) -> Told {
    let Asked { texture, m, n, .. } = *asked;
    let plan = match original_plan(radii, &Input { texture, m, n }) {
        Ok(plan) => plan,
        Err(refusal) => return [Err(refusal); 2],
    };
    let there = if asked.ray < plan.rays && asked.sample <= plan.samples {
        Ok(true)
    } else {
        Err(Refusal::NotThere)
    };
    let fits = |x| (-1.0..=1.0).contains(&x);
    let lent = fits(asked.cosine) && fits(asked.sine);
    [there, if lent { there } else { Err(Refusal::Direction) }]
}

/// Any sample of any texture, often one past the last, with any cosine and sine.
fn any_asked(random: &mut Random) -> Asked {
    let Input { texture, m, n } = match random.below(4) {
        0 => any_input(random),
        _ => any_planned(random, wide_input),
    };
    let plan = texture.plan(m, n);
    let (rays, samples) = plan.map_or((0, 0), |plan| (plan.rays, plan.samples));
    Asked {
        texture,
        m,
        n,
        ray: around(random, rays),
        sample: around(random, samples),
        cosine: any_part(random),
        sine: any_part(random),
    }
}

/// Mostly a number up to `top`, often at it or just past it.
fn around(random: &mut Random, top: usize) -> usize {
    match random.below(16) {
        0 => whole(random),
        1..5 => random.of(&[top.saturating_sub(1), top, top + 1]),
        _ => random.below(top.max(1) as u64) as usize,
    }
}

/// A cosine or a sine, now and then one that is refused.
fn any_part(random: &mut Random) -> f64 {
    let past = 1f64.next_up();
    match random.below(8) {
        0 => random.of(&[
            f64::NAN,
            past,
            -past,
            f64::INFINITY,
            f64::NEG_INFINITY,
            1e300,
        ]),
        1 => random.of(&[1.0, -1.0, 0.0, -0.0]),
        _ => 2.0 * random.unit() - 1.0,
    }
}

fn library_samples(ray: &Ray) -> Samples {
    let Ray { texture, m, n, .. } = *ray;
    let plan = texture.plan(m, n)?;
    let sample = |i| {
        let angle = texture.angle(m, n, ray.ray, i)?;
        let point = texture.sample_point(m, n, ray.ray, i, direction(angle))?;
        Ok((angle, point))
    };
    ends(plan.samples, ray.parts).map(sample).collect()
}

fn original_samples(radii: &[f64], ray: &Ray) -> Samples {
    let Ray { texture, m, n, .. } = *ray;
    let plan = original_plan(radii, &Input { texture, m, n })?;
    if ray.ray >= plan.rays {
        return Err(Refusal::NotThere);
    }
    let asked = ends(plan.samples, ray.parts);
    let next = RefCell::new(asked.peekable());
    let lend = move |i, angle| {
        let is_next = next.borrow_mut().next_if_eq(&i).is_some();
        is_next.then(|| direction(angle))
    };
    let rays = original::rays(to_original(texture), m, n, ray.ray, lend);
    // The plan's rays are a formula of ours, since the original has theirs inside its functions.
    let told = (plan.rays, plan.samples + 1);
    assert_eq!((rays.count, rays.made), told, "{texture:?}, {m} by {n}");
    let samples = rays.samples.iter();
    Ok(samples.map(|sample| (sample.angle, sample.point)).collect())
}

/// Where the parts of a ray end that has so many samples: at each sample where there are no fewer
/// parts.
fn ends(samples: usize, parts: usize) -> impl Iterator<Item = usize> {
    let parts = parts.clamp(1, samples.max(1));
    (0..=parts).map(move |part| samples * part / parts)
}

/// The cosine and the sine that are lent for an angle: its own, or any that are not refused. The
/// same angle gets the same.
fn direction(angle: f64) -> [f64; 2] {
    let mut random = Random::new(angle.to_bits());
    match random.below(4) {
        0 => [angle.cos(), angle.sin()],
        1 => [0; 2].map(|_| random.of(&[0.0, -0.0, 1.0, -1.0, 5e-324, -5e-324])),
        _ => [0; 2].map(|_| 2.0 * random.unit() - 1.0),
    }
}

/// The first rays, one in the middle, the last and the one after it, or one where the plan is refused.
fn rays_at_edges(input: &Input) -> Vec<Ray> {
    let Input { texture, m, n } = *input;
    let rays = texture.plan(m, n).map_or(0, |plan| plan.rays);
    let mut all = vec![0, 1, rays / 2, rays.saturating_sub(1), rays];
    all.retain(|&ray| ray <= rays);
    all.sort_unstable();
    all.dedup();
    let parts = 6;
    let ray = |ray| Ray {
        texture,
        m,
        n,
        ray,
        parts,
    };
    all.into_iter().map(ray).collect()
}

/// Any ray of any texture, most of them not refused, now and then with all its samples.
fn any_ray(random: &mut Random) -> Ray {
    let any = if random.below(8) == 0 {
        any_input
    } else {
        wide_input
    };
    let Input { texture, m, n } = any_planned(random, any);
    let rays = texture.plan(m, n).map_or(0, |plan| plan.rays);
    let ray = match random.below(16) {
        0 => rays,
        _ => random.below(rays.max(1) as u64) as usize,
    };
    let parts = match random.below(32) {
        0 => 65_536,
        _ => 1 + random.below(32) as usize,
    };
    Ray {
        texture,
        m,
        n,
        ray,
        parts,
    }
}

/// One of several inputs: the first that has a plan, else the last.
fn any_planned(random: &mut Random, any: fn(&mut Random) -> Input) -> Input {
    let mut input = any(random);
    for _ in 0..8 {
        if input.texture.plan(input.m, input.n).is_ok() {
            break;
        }
        input = any(random);
    }
    input
}

#[cfg(test)]
mod tests {
    use super::super::radii;
    use super::*;
    use crate::planted::found;
    use std::f64::consts::TAU;

    #[test]
    fn rays_lie_in_the_whole_domain() {
        let mut random = Random::new(1);
        let (mut there, mut reached) = (0, [0; 8]);
        for _ in 0..4_000 {
            let ray = any_ray(&mut random);
            let Ray { texture, m, n, .. } = ray;
            if texture.plan(m, n).is_ok_and(|plan| ray.ray < plan.rays) {
                there += 1;
                let facts = match texture {
                    Texture::Grid => [false; 6],
                    Texture::Swirl { spacing, twist } => [
                        spacing < 0.01,
                        spacing > 1e3,
                        twist > 60.0,
                        twist < -60.0,
                        false,
                        false,
                    ],
                    Texture::Spiral { spacing, arms } => [
                        spacing < 0.01,
                        spacing > 1e3,
                        false,
                        false,
                        arms == 0,
                        arms > 60,
                    ],
                };
                let steps = [m == 255 || n == 255, m == 1 || n == 1];
                let facts = facts.into_iter().chain(steps);
                facts
                    .zip(&mut reached)
                    .for_each(|(fact, count)| *count += u32::from(fact));
            }
        }
        assert!(there > 3_000, "{there}");
        assert!(reached.iter().all(|&count| count >= 8), "{reached:?}");
    }

    /// The angle of a swirl, its products taken in another order.
    #[test]
    fn another_order_of_the_angle_is_found() {
        let radii = radii();
        let original = |ray: &Ray| original_samples(&radii, ray);
        let wrong = |ray: &Ray| {
            let Ray { texture, m, n, .. } = *ray;
            let plan = texture.plan(m, n)?;
            let Texture::Swirl { twist, .. } = texture else {
                return library_samples(ray);
            };
            let [count, rays] = [plan.samples, plan.rays].map(|n| n as f64);
            let mut samples = library_samples(ray)?;
            for (i, sample) in ends(plan.samples, ray.parts).zip(&mut samples) {
                let turned = TAU * (twist * i as f64 / count);
                sample.0 = ray.ray as f64 / rays * TAU + turned;
            }
            Ok(samples)
        };
        let case = found(
            |driver| driver.compare("planted", 1_000, any_ray, wrong, original),
            |driver| driver.compare("planted", 1_000, any_ray, library_samples, original),
        );
        assert!(case.starts_with("texture swirl"), "{case}");
    }

    #[test]
    fn each_refusal_of_a_sample_comes_often_and_7_where_8_holds_too() {
        let radii = radii();
        let mut random = Random::new(1);
        let asked: Vec<_> = (0..20_000).map(|_| any_asked(&mut random)).collect();
        let told: Vec<_> = asked.iter().map(|asked| ruled(&radii, asked)).collect();
        let count = |what: Told| told.iter().filter(|&&told| told == what).count();
        for refusal in [
            Refusal::Steps,
            Refusal::Texture,
            Refusal::Count,
            Refusal::NotThere,
        ] {
            assert!(count([Err(refusal); 2]) > 100, "{refusal}");
        }
        assert!(count([Ok(true); 2]) > 2_000);
        assert!(count([Ok(true), Err(Refusal::Direction)]) > 1_000);
        assert!(count([Err(Refusal::NotThere), Err(Refusal::Direction)]) > 500);
    }

    /// A point that is asked for its number before its cosine and sine.
    #[test]
    fn refusals_in_another_order_are_found() {
        let radii = radii();
        let ruled = |asked: &Asked| ruled(&radii, asked);
        let other = |asked: &Asked| match ruled(asked) {
            [Err(angle), _] => [Err(angle); 2],
            told => told,
        };
        let case = found(
            |driver| driver.compare("planted", 1_000, any_asked, other, ruled),
            |driver| driver.compare("planted", 1_000, any_asked, told, ruled),
        );
        assert!(
            case.starts_with("texture grid m 1 n 1 ray 0 sample 0"),
            "{case}"
        );
    }
}
