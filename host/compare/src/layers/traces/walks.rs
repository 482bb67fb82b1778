//! The walk of a trace again, over the points that the original makes, with room for so many.

use merlontrispa::Refusal;
use original::Made;

/// The least room that a walk needs to come as far as it can.
#[derive(Debug, Clone, Copy, Default)]
pub struct Need {
    /// The most points that are kept or pending at once.
    pub points: usize,
    /// The lines that are kept.
    pub lines: usize,
}

impl Need {
    pub fn of(made: &[Made]) -> Self {
        let mut pen = Pen::new(usize::MAX, usize::MAX);
        // Where the original panics the room up to there is what matters.
        let _ = pen.walk(made);
        pen.need
    }
}

/// What ends the walk: 11 where the original panics, 12 where a point or a line is past the room. Else
/// the number of points that are drawn.
pub fn replay(made: &[Made], points: usize, lines: usize) -> Result<usize, Refusal> {
    let mut pen = Pen::new(points, lines);
    pen.walk(made)?;
    Ok(pen.kept)
}

/// A walk under way, with room for so many points and lines.
struct Pen {
    points: usize,
    lines: usize,
    /// The points of the lines that are kept, and of the one that is pending.
    kept: usize,
    pending: usize,
    need: Need,
}

impl Pen {
    fn new(points: usize, lines: usize) -> Self {
        Self {
            points,
            lines,
            kept: 0,
            pending: 0,
            need: Need::default(),
        }
    }

    fn walk(&mut self, made: &[Made]) -> Result<(), Refusal> {
        for point in made {
            // Where nothing is pending the line before was flushed.
            if point.close.is_none() {
                self.flush()?;
            }
            point.point.ok_or(Refusal::NoStep)?;
            if point.close != Some(true) {
                self.push()?;
            }
        }
        self.flush()
    }

    fn push(&mut self) -> Result<(), Refusal> {
        let count = self.kept + self.pending;
        if count >= self.points {
            return Err(Refusal::Full);
        }
        self.pending += 1;
        self.need.points = self.need.points.max(count + 1);
        Ok(())
    }

    fn flush(&mut self) -> Result<(), Refusal> {
        if self.pending >= 2 {
            if self.need.lines >= self.lines {
                return Err(Refusal::Full);
            }
            self.need.lines += 1;
            self.kept += self.pending;
        }
        self.pending = 0;
        Ok(())
    }
}
