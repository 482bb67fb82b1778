use crate::boundary;
use crate::refusal::Refusal;

/// What is drawn on a surface of M by N cells (Rules 10).
///
/// The cosine and the sine are the caller's, so that the answers do not rest on a mathematics library;
/// [`Surface::texture_lines`](crate::Surface::texture_lines) takes Rust's.
///
/// ```
/// use merlontrispa::Texture;
///
/// let swirl = Texture::Swirl { spacing: 1.0, twist: 0.5 };
/// let plan = swirl.plan(4, 4)?;
/// let mut ray = Vec::new();
/// for sample in 0..=plan.samples {
///     let (sine, cosine) = swirl.angle(4, 4, 0, sample)?.sin_cos();
///     ray.push(swirl.sample_point(4, 4, 0, sample, [cosine, sine])?);
/// }
/// assert_eq!(ray[0], [2.0, 2.0]);
/// // A twist of a half is half a turn from the centre to the end of a ray.
/// assert_eq!(swirl.angle(4, 4, 0, plan.samples)?, std::f64::consts::PI);
/// # Ok::<(), merlontrispa::Refusal>(())
/// ```
#[derive(Debug, Clone, Copy, PartialEq)]
pub enum Texture {
    /// The lines of the grid, which have no plan.
    Grid,
    /// Rays from the centre outward, turned as they go.
    Swirl {
        /// About how far apart the rays end; 1 where it is not finite, or at most 10^-9.
        spacing: f64,
        /// How often a ray turns round the centre.
        twist: f64,
    },
    /// Arms from the edge inward.
    Spiral {
        /// About how far apart the turns are; 1 where it is not finite, or at most 10^-9.
        spacing: f64,
        /// How many arms; 0 is one.
        arms: usize,
    },
}

/// How many rays a texture has, and samples on each. A ray's samples have the numbers 0 to
/// `samples`, so one more than it says.
#[derive(Debug, Clone, Copy, PartialEq, Eq, Hash)]
pub struct Plan {
    /// The rays, or arms: 0 for a grid.
    pub rays: usize,
    /// The samples on a ray: 0 for a grid.
    pub samples: usize,
}

impl Texture {
    /// Rays and samples per ray on `u_steps` by `v_steps` cells.
    ///
    /// # Errors
    /// 1 for steps that are not from 1 to 255, 5 for a twist or arms that are not allowed, 6 for
    /// more than 65,536 rays, or samples to a ray.
    pub fn plan(self, u_steps: usize, v_steps: usize) -> Result<Plan, Refusal> {
        let (kind, spacing, twist, arms) = self.parts();
        let answer = boundary::mt_plan(kind, spacing, twist, arms, u_steps, v_steps);
        Refusal::check(answer.refusal)?;
        let (rays, samples) = (answer.rays, answer.samples);
        Ok(Plan { rays, samples })
    }

    /// The angle of a sample of a ray.
    ///
    /// # Errors
    /// As for `plan`, and 8 where there is no such ray or sample.
    pub fn angle(
        self,
        u_steps: usize,
        v_steps: usize,
        ray: usize,
        sample: usize,
    ) -> Result<f64, Refusal> {
        let (kind, spacing, twist, arms) = self.parts();
        let answer = boundary::mt_angle(kind, spacing, twist, arms, u_steps, v_steps, ray, sample);
        Refusal::check(answer.refusal).map(|()| answer.angle)
    }

    /// The u and v of a sample of a ray, from the cosine and the sine of its angle.
    ///
    /// # Errors
    /// As for `angle`, and 7 for a cosine or a sine that is NaN or beyond ±1.
    pub fn sample_point(
        self,
        u_steps: usize,
        v_steps: usize,
        ray: usize,
        sample: usize,
        [cosine, sine]: [f64; 2],
    ) -> Result<[f64; 2], Refusal> {
        let (kind, spacing, twist, arms) = self.parts();
        let answer = boundary::mt_sample_point(
            kind, spacing, twist, arms, u_steps, v_steps, ray, sample, cosine, sine,
        );
        Refusal::check(answer.refusal).map(|()| [answer.u, answer.v])
    }

    /// The kind and its numbers, 0 for those that it has not.
    fn parts(self) -> (u8, f64, f64, usize) {
        match self {
            Self::Grid => (0, 0.0, 0.0, 0),
            Self::Swirl { spacing, twist } => (1, spacing, twist, 0),
            Self::Spiral { spacing, arms } => (2, spacing, 0.0, arms),
        }
    }
}
