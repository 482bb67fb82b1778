//! The camera: where a point of space stands on the card, and how far it is away.

/// The size of the card in mm: A6, landscape.
pub const CARD: [f64; 2] = [148.0, 105.0];

/// What stays white at each edge of the card, in mm.
const MARGIN: f64 = 9.0;

/// How far the eye stands from the middle of the surface; no point is more than √3 from there.
const DISTANCE: f64 = 6.0;

/// Where the eye stands round the z axis and above the xy plane, in radians.
const TURN: f64 = -2.2;
const TILT: f64 = 0.55;

/// What is seen nearer together than this, where the surface is about 2 wide, is seen at one place.
const ONE_PLACE: f64 = 1e-6;

/// A point as it is seen: x to the right and y down in mm, depth from 0 (near) to 1 (far).
#[derive(Debug, Clone, Copy, PartialEq)]
pub struct Seen {
    pub x: f64,
    pub y: f64,
    pub depth: f64,
}

/// A view from a fixed side, at a distance and a scale at which given points fill the card.
#[derive(Debug, Clone)]
pub struct Camera {
    middle: [f64; 3],
    radius: f64,
    axes: [[f64; 3]; 3],
    seen: [Range; 3],
    scale: f64,
}

impl Camera {
    /// The view that fits these points, or `None` where they are seen as one place.
    pub fn fitting(points: &[[f64; 3]]) -> Option<Self> {
        let around = [0, 1, 2].map(|axis| Range::of(points.iter().map(|p| p[axis])));
        let radius = around
            .map(|r| r.length() / 2.0)
            .into_iter()
            .fold(0.0, f64::max);
        let mut camera = Self {
            middle: around.map(Range::middle),
            radius,
            axes: axes(),
            seen: [Range::default(); 3],
            scale: 1.0,
        };
        camera.seen =
            [0, 1, 2].map(|axis| Range::of(points.iter().map(|p| camera.project(*p)[axis])));
        let [width, height, _] = camera.seen.map(Range::length);
        camera.scale = f64::min(
            (CARD[0] - 2.0 * MARGIN) / width,
            (CARD[1] - 2.0 * MARGIN) / height,
        );
        (radius > 0.0 && width.max(height) > ONE_PLACE).then_some(camera)
    }

    /// Right, up, and toward the eye, before the scale.
    fn project(&self, point: [f64; 3]) -> [f64; 3] {
        let from_middle = [0, 1, 2].map(|i| (point[i] - self.middle[i]) / self.radius);
        let [right, up, toward] = self.axes.map(|axis| dot(axis, from_middle));
        let nearer = DISTANCE / (DISTANCE - toward);
        [right * nearer, up * nearer, toward]
    }

    /// Where a point stands on the card.
    pub fn see(&self, point: [f64; 3]) -> Seen {
        let [right, up, toward] = self.project(point);
        let [width, height, depth] = self.seen;
        Seen {
            x: CARD[0] / 2.0 + (right - width.middle()) * self.scale,
            y: CARD[1] / 2.0 - (up - height.middle()) * self.scale,
            depth: (depth.to - toward) / depth.length().max(ONE_PLACE),
        }
    }
}

/// Directions to the right, up, and toward the eye.
fn axes() -> [[f64; 3]; 3] {
    let (turn, tilt) = (TURN.sin_cos(), TILT.sin_cos());
    [
        [-turn.0, turn.1, 0.0],
        [-tilt.0 * turn.1, -tilt.0 * turn.0, tilt.1],
        [tilt.1 * turn.1, tilt.1 * turn.0, tilt.0],
    ]
}

fn dot(a: [f64; 3], b: [f64; 3]) -> f64 {
    a[0] * b[0] + a[1] * b[1] + a[2] * b[2]
}

#[derive(Debug, Clone, Copy, Default)]
struct Range {
    from: f64,
    to: f64,
}

impl Range {
    fn of(values: impl Iterator<Item = f64> + Clone) -> Self {
        Self {
            from: values.clone().fold(f64::INFINITY, f64::min),
            to: values.fold(f64::NEG_INFINITY, f64::max),
        }
    }

    fn length(self) -> f64 {
        self.to - self.from
    }

    fn middle(self) -> f64 {
        (self.from + self.to) / 2.0
    }
}

#[cfg(test)]
mod tests {
    use super::*;

    fn close(a: f64, b: f64) -> bool {
        (a - b).abs() < 1e-9
    }

    #[test]
    fn the_axes_are_square_to_each_other() {
        let axes = axes();
        for (i, a) in axes.into_iter().enumerate() {
            for (j, b) in axes.into_iter().enumerate() {
                assert!(close(dot(a, b), if i == j { 1.0 } else { 0.0 }));
            }
        }
    }

    #[test]
    fn what_fits_fills_the_card_and_keeps_the_margin() {
        for size in [1e-6, 1.0, 1e12] {
            let corner = |i: usize| [0, 1, 2].map(|axis| size * (7 + (i >> axis & 1)) as f64);
            let corners: Vec<_> = (0..8).map(corner).collect();
            let camera = Camera::fitting(&corners).expect("a box is seen");
            let seen: Vec<_> = corners.iter().map(|p| camera.see(*p)).collect();
            let [x, y] =
                [|s: &Seen| s.x, |s: &Seen| s.y].map(|part| Range::of(seen.iter().map(part)));
            assert!(x.from > MARGIN - 1e-9 && x.to < CARD[0] - MARGIN + 1e-9);
            assert!(close(y.from, MARGIN) && close(y.to, CARD[1] - MARGIN));
            let depth = Range::of(seen.iter().map(|s| s.depth));
            assert!(close(depth.from, 0.0) && close(depth.to, 1.0));
        }
    }

    #[test]
    fn up_is_up_and_near_is_large() {
        let camera = Camera::fitting(&[[-1.0; 3], [1.0; 3]]).expect("a box is seen");
        let [low, high] = [[0.0, 0.0, -1.0], [0.0, 0.0, 1.0]].map(|p| camera.see(p));
        assert!(high.y < low.y);
        assert!(high.depth < low.depth);
        assert!(close(high.x, low.x));
    }

    #[test]
    fn one_place_is_not_seen() {
        assert!(Camera::fitting(&[[2.0; 3]; 4]).is_none());
        let toward = axes()[2];
        let line = [toward.map(|x| -x), toward];
        assert!(Camera::fitting(&line).is_none());
    }
}
