//! The pieces of lines, each from a point to the next, and which of them are drawn alike.

use std::ops::Range;

/// A line, given as the range of its points' numbers, cut where its pieces change their kind:
/// `kind` is told of a piece by the point that it leads to. Each part starts at the point at which
/// the last one ends.
pub fn cut<K: PartialEq>(line: Range<usize>, kind: impl Fn(usize) -> K) -> Vec<(K, Range<usize>)> {
    let mut parts: Vec<(K, Range<usize>)> = Vec::new();
    for point in line.skip(1) {
        let kind = kind(point);
        match parts.last_mut() {
            Some((last, part)) if *last == kind => part.end = point + 1,
            _ => parts.push((kind, point - 1..point + 1)),
        }
    }
    parts
}

/// Lines in parts, each a range of points: those that belong to a highlighted sample, and the
/// others.
#[derive(Debug, Default, PartialEq)]
pub struct Parts {
    pub highlighted: Vec<Range<usize>>,
    pub others: Vec<Range<usize>>,
}

impl Parts {
    /// The piece that leads to a point belongs to the sample that made that point: `starts` has the
    /// first point of each line, `samples` the number of each point's sample.
    pub fn new(starts: &[usize], samples: &[usize], highlight: Option<usize>) -> Self {
        let mut parts = Self::default();
        let ends = starts.iter().copied().skip(1).chain([samples.len()]);
        for (start, end) in starts.iter().zip(ends) {
            for (is_highlighted, part) in cut(*start..end, |p| Some(samples[p]) == highlight) {
                let list = if is_highlighted {
                    &mut parts.highlighted
                } else {
                    &mut parts.others
                };
                list.push(part);
            }
        }
        parts
    }

    /// How many pieces are highlighted.
    pub fn highlighted_pieces(&self) -> usize {
        self.highlighted.iter().map(|part| part.len() - 1).sum()
    }
}

#[cfg(test)]
mod tests {
    use super::*;

    #[test]
    fn a_line_is_cut_where_its_pieces_change() {
        let kinds = ["", "a", "a", "b", "a"];
        let parts = cut(0..5, |point| kinds[point]);
        assert_eq!(parts, [("a", 0..3), ("b", 2..4), ("a", 3..5)]);
        // The kind of a line's first point is not asked for: no piece leads to it.
        assert_eq!(cut(2..4, |point| kinds[point]), [("b", 2..4)]);
        assert_eq!(cut(2..3, |point| kinds[point]), []);
    }

    fn parts(starts: &[usize], samples: &[usize], highlight: usize) -> [Vec<Range<usize>>; 2] {
        let parts = Parts::new(starts, samples, Some(highlight));
        [parts.highlighted, parts.others]
    }

    #[test]
    fn a_piece_belongs_to_the_sample_of_its_later_point() {
        let samples = [1, 1, 2, 4];
        assert_eq!(parts(&[0], &samples, 1), [vec![0..2], vec![1..4]]);
        assert_eq!(parts(&[0], &samples, 2), [vec![1..3], vec![0..2, 2..4]]);
        assert_eq!(parts(&[0], &samples, 4), [vec![2..4], vec![0..3]]);
        // A sample that made no point has no piece.
        assert_eq!(parts(&[0], &samples, 3), [vec![], vec![0..4]]);
        // Line 1 starts with a point of sample 5, to which no piece leads.
        let lines = parts(&[0, 2], &[4, 4, 5, 6], 5);
        assert_eq!(lines, [vec![], vec![0..2, 2..4]]);
    }

    #[test]
    fn pieces_of_one_sample_are_joined_within_a_line() {
        let (starts, samples) = ([0, 3, 6], [5, 5, 5, 5, 5, 6, 5, 5]);
        let lines = parts(&starts, &samples, 5);
        assert_eq!(lines, [vec![0..3, 3..5, 6..8], vec![4..6]]);
        assert_eq!(
            Parts::new(&starts, &samples, Some(5)).highlighted_pieces(),
            4
        );
    }

    #[test]
    fn without_a_highlight_each_line_is_whole() {
        let parts = Parts::new(&[0, 2], &[1, 1, 1, 2, 3], None);
        assert_eq!(
            (parts.highlighted_pieces(), parts.others),
            (0, vec![0..2, 2..5])
        );
        assert_eq!(Parts::new(&[], &[], None), Parts::default());
    }
}
