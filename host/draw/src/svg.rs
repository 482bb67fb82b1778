//! The card as an SVG file, in mm.

use crate::camera::{CARD, Camera, Seen};
use crate::drawing::{Drawing, Point};
use crate::pieces::cut;
use merlontrispa::{Mapping, OwnedLines};
use options::Style;
use std::fmt::{Arguments, Write};
use std::ops::Range;

const INK: &str = "#16324f";
const FORWARD: &str = "#1b7fc4";
const REVERSED: &str = "#d0392b";
const FLIPPED: &str = "#f0a83c";
/// Lighter than the ink by far, so that the two differ in grey print and to colour-blind eyes.
const HIGHLIGHT: &str = "#e07b00";

/// Widths of lines in mm.
const THIN: f64 = 0.2;
const BOLD: f64 = 0.6;

/// How strong lines are drawn, from the farthest to the nearest part of a surface.
const STRENGTHS: [f64; 6] = [0.2, 0.32, 0.46, 0.62, 0.8, 1.0];

/// The file's text.
pub fn card(drawing: &Drawing, camera: &Camera, style: Style, title: &str) -> String {
    let see = |line: &[Point]| -> Vec<Seen> { line.iter().map(|p| camera.see(*p)).collect() };
    let see_all = |lines: &OwnedLines| -> Vec<Vec<Seen>> { lines.iter().map(see).collect() };
    let mut sheet = Sheet::new(title);
    if style.flipped {
        sheet.triangles(drawing.flipped.iter().map(|t| t.map(|p| camera.see(p))));
    }
    let points = see(&drawing.lines.points);
    let seen = |part: &Range<usize>| &points[part.clone()];
    let parts = drawing.parts(style.highlight);
    let lines: Vec<_> = parts.others.iter().map(seen).collect();
    if style.plain {
        sheet.lines("texture", Pen::new(INK, THIN), &lines);
    } else {
        sheet.faded("texture", Pen::new(INK, THIN), &lines);
    }
    let lines: Vec<_> = parts.highlighted.iter().map(seen).collect();
    sheet.lines("highlight", Pen::new(HIGHLIGHT, BOLD), &lines);
    sheet.lines("rim", Pen::new(INK, BOLD), &see_all(&drawing.rim));
    if style.seams {
        for (mapping, line) in &drawing.joined {
            let (name, colour) = match mapping {
                Mapping::Forward { .. } => ("forward-seam", FORWARD),
                Mapping::Reverse { .. } => ("reversed-seam", REVERSED),
            };
            sheet.lines(name, Pen::new(colour, BOLD), &[see(line)]);
        }
    }
    sheet.end()
}

#[derive(Clone, Copy)]
struct Pen {
    colour: &'static str,
    width: f64,
    strength: f64,
}

impl Pen {
    fn new(colour: &'static str, width: f64) -> Self {
        let strength = 1.0;
        Self {
            colour,
            width,
            strength,
        }
    }
}

/// The file's text, as far as it is written.
struct Sheet(String);

impl Sheet {
    fn new(title: &str) -> Self {
        let [width, height] = CARD;
        let mut sheet = Self(String::new());
        sheet.write(format_args!(
            "<svg xmlns=\"http://www.w3.org/2000/svg\" width=\"{width}mm\" height=\"{height}mm\" \
             viewBox=\"0 0 {width} {height}\">\n<title>{title}</title>\n\
             <rect width=\"{width}\" height=\"{height}\" fill=\"#fff\"/>"
        ));
        sheet
    }

    fn end(mut self) -> String {
        self.write(format_args!("</svg>"));
        self.0
    }

    fn write(&mut self, text: Arguments<'_>) {
        writeln!(self.0, "{text}").expect("a string takes all text");
    }

    fn triangles(&mut self, triangles: impl Iterator<Item = [Seen; 3]>) {
        self.write(format_args!(
            r#"<g class="flipped" fill="{FLIPPED}" fill-opacity="0.6">"#
        ));
        for corners in triangles {
            self.write(format_args!(r#"<polygon points="{}"/>"#, places(&corners)));
        }
        self.write(format_args!("</g>"));
    }

    fn lines(&mut self, class: &str, pen: Pen, lines: &[impl AsRef<[Seen]>]) {
        if lines.is_empty() {
            return;
        }
        let Pen {
            colour,
            width,
            strength,
        } = pen;
        self.write(format_args!(
            "<g class=\"{class}\" fill=\"none\" stroke=\"{colour}\" stroke-width=\"{width}\" \
             stroke-opacity=\"{strength}\" stroke-linecap=\"round\" stroke-linejoin=\"round\">"
        ));
        for line in lines {
            let places = places(line.as_ref());
            self.write(format_args!(r#"<polyline points="{places}"/>"#));
        }
        self.write(format_args!("</g>"));
    }

    /// The lines in parts, the farthest first and faintest.
    fn faded(&mut self, class: &str, pen: Pen, lines: &[&[Seen]]) {
        let mut bands = STRENGTHS.map(|strength| (Pen { strength, ..pen }, Vec::new()));
        for line in lines {
            let depth = |point: usize| (line[point - 1].depth + line[point].depth) / 2.0;
            for (band, part) in cut(0..line.len(), |point| band(depth(point))) {
                bands[band].1.push(&line[part]);
            }
        }
        for (pen, parts) in bands {
            self.lines(class, pen, &parts);
        }
    }
}

/// The number in `STRENGTHS` of a depth.
fn band(depth: f64) -> usize {
    let last = STRENGTHS.len() - 1;
    (((1.0 - depth) * STRENGTHS.len() as f64) as usize).min(last)
}

/// Points to a hundredth of a mm, each written once where several fall on one place.
fn places(points: &[Seen]) -> String {
    let hundredths = |x: f64| (x * 100.0).round() / 100.0;
    let mut places: Vec<_> = points
        .iter()
        .map(|p| (hundredths(p.x), hundredths(p.y)))
        .collect();
    places.dedup();
    // A line that is seen as one place is a dot.
    if let [dot] = places[..] {
        places.push(dot);
    }
    let places: Vec<_> = places.iter().map(|(x, y)| format!("{x},{y}")).collect();
    places.join(" ")
}

#[cfg(test)]
mod tests {
    use super::*;
    use crate::seams::wanted;
    use merlontrispa::{Surface, Texture};
    use options::{ParametricSurface, Seam, names};

    const TEXTURES: [Texture; 3] = [
        Texture::Grid,
        Texture::Swirl {
            spacing: 4.0,
            twist: 0.5,
        },
        Texture::Spiral {
            spacing: 6.0,
            arms: 2,
        },
    ];

    const ALL: Style = Style {
        seams: true,
        flipped: true,
        plain: false,
        highlight: None,
    };

    const PLAIN: Style = Style { plain: true, ..ALL };

    fn seen(name: &str, texture: Texture) -> (Drawing, Camera) {
        let grid = ParametricSurface::named(name)
            .expect("a name")
            .grid([24, 18]);
        let surface = Surface::new(&grid, 24, 18).expect("a surface");
        let seams = wanted(surface, [Seam::Found; 2]);
        let drawing = Drawing::new(surface, seams, texture).expect("a drawing");
        let camera = Camera::fitting(surface.points()).expect("it is seen");
        (drawing, camera)
    }

    fn drawn(name: &str, texture: Texture, style: Style) -> (Drawing, String) {
        let (drawing, camera) = seen(name, texture);
        let text = card(&drawing, &camera, style, name);
        (drawing, text)
    }

    /// The `points` of the elements of a name in the groups of a class.
    fn elements<'a>(text: &'a str, class: &str, element: &str) -> Vec<&'a str> {
        let class = format!("<g class=\"{class}\"");
        let start = format!("<{element} points=\"");
        let groups = text
            .split("</g>")
            .filter_map(|part| part.split_once(&class));
        let lines = groups.flat_map(|(_, group)| group.lines());
        lines
            .filter_map(|line| line.strip_prefix(&start)?.strip_suffix("\"/>"))
            .collect()
    }

    fn coordinates(points: &str) -> impl Iterator<Item = [f64; 2]> {
        points.split(' ').map(|place| {
            let (x, y) = place.split_once(',').expect("two numbers");
            [x, y].map(|number| number.parse().expect("a number"))
        })
    }

    #[test]
    fn every_line_of_the_library_is_a_polyline_of_the_plain_card() {
        for name in names() {
            for texture in TEXTURES {
                let (drawing, text) = drawn(name, texture, PLAIN);
                assert!(drawing.lines.iter().len() > 0);
                let count = |class, element| elements(&text, class, element).len();
                let lines = elements(&text, "texture", "polyline");
                assert_eq!(lines.len(), drawing.lines.iter().len(), "{name}");
                // A line at a pole is a dot: one place, twice.
                assert!(lines.iter().all(|line| line.contains(' ')), "{name}");
                assert_eq!(count("rim", "polyline"), drawing.rim.iter().len(), "{name}");
                assert_eq!(count("flipped", "polygon"), drawing.flipped.len(), "{name}");
                let seams = count("forward-seam", "polyline") + count("reversed-seam", "polyline");
                assert_eq!(seams, drawing.joined.len(), "{name}");
            }
        }
    }

    #[test]
    fn all_stays_inside_the_card() {
        for name in names() {
            for texture in TEXTURES {
                let (_, text) = drawn(name, texture, ALL);
                let points = text.split("points=\"").skip(1);
                for points in points.map(|part| part.split('"').next().expect("an end")) {
                    for [x, y] in coordinates(points) {
                        assert!((1.0..=CARD[0] - 1.0).contains(&x), "{name}: x {x}");
                        assert!((1.0..=CARD[1] - 1.0).contains(&y), "{name}: y {y}");
                    }
                }
            }
        }
    }

    /// The pieces that are drawn in the groups of a class, each as its two places.
    fn segments(text: &str, class: &str) -> Vec<String> {
        let lines = elements(text, class, "polyline");
        let places = lines.into_iter().map(|line| line.split(' '));
        let pairs = places.flat_map(|p| p.clone().zip(p.skip(1)).collect::<Vec<_>>());
        let ends = pairs.map(|(a, b)| format!("{a} {b}"));
        ends.filter(|ends| !is_dot(ends)).collect()
    }

    fn is_dot(ends: &str) -> bool {
        ends.split_once(' ').is_some_and(|(a, b)| a == b)
    }

    fn sorted(mut segments: Vec<String>) -> Vec<String> {
        segments.sort_unstable();
        segments
    }

    #[test]
    fn a_faded_card_has_the_segments_of_the_plain_one() {
        for texture in TEXTURES {
            let [plain, faded] = [PLAIN, ALL].map(|style| {
                let (_, text) = drawn("klein-bottle", texture, style);
                sorted(segments(&text, "texture"))
            });
            assert_eq!(plain, faded);
        }
    }

    #[test]
    fn a_highlight_takes_its_pieces_from_the_texture_and_changes_nothing_else() {
        for texture in &TEXTURES[1..] {
            for style in [PLAIN, ALL] {
                let (drawing, whole) = drawn("klein-bottle", *texture, style);
                // A sample in the middle of the list of points, which made a point for certain.
                let sample = drawing.samples[drawing.samples.len() / 2];
                let highlight = Some(sample);
                let (_, text) = drawn("klein-bottle", *texture, Style { highlight, ..style });
                let taken = segments(&text, "highlight");
                assert!(!taken.is_empty(), "sample {sample}");
                let all = [segments(&text, "texture"), taken].concat();
                assert_eq!(sorted(all), sorted(segments(&whole, "texture")));
                for class in ["rim", "forward-seam", "reversed-seam"] {
                    assert_eq!(segments(&text, class), segments(&whole, class), "{class}");
                }
                let [flipped, before] = [&text, &whole].map(|t| elements(t, "flipped", "polygon"));
                assert_eq!(flipped, before);
                assert!(segments(&whole, "highlight").is_empty());
            }
        }
    }

    #[test]
    fn what_is_highlighted_leads_to_the_points_that_the_sample_made() {
        for texture in &TEXTURES[1..] {
            let (drawing, camera) = seen("torus", *texture);
            let firsts = &drawing.lines.starts;
            for sample in drawing.samples.iter().step_by(50).copied() {
                let made = (0..drawing.samples.len())
                    .filter(|point| drawing.samples[*point] == sample && !firsts.contains(point));
                let ends = made.map(|point| [point - 1, point].map(|p| drawing.lines.points[p]));
                let ends = ends.map(|ends| places(&ends.map(|p| camera.see(p))));
                // What is seen as one place is no segment.
                let ends = ends.filter(|ends| !is_dot(ends));
                let highlight = Some(sample);
                let text = card(&drawing, &camera, Style { highlight, ..ALL }, "");
                let segments = segments(&text, "highlight");
                assert_eq!(segments, ends.collect::<Vec<_>>(), "sample {sample}");
            }
        }
    }

    #[test]
    fn a_card_has_its_size_in_mm_and_its_options_in_their_groups() {
        let (_, text) = drawn("moebius-band", Texture::Grid, ALL);
        assert!(text.contains(r#"width="148mm" height="105mm" viewBox="0 0 148 105""#));
        assert!(text.starts_with("<svg ") && text.ends_with("</svg>\n"));
        let count = |text: &str, class, element| elements(text, class, element).len();
        assert_eq!(count(&text, "reversed-seam", "polyline"), 1);
        assert_eq!(count(&text, "rim", "polyline"), 2);
        assert_eq!(count(&text, "flipped", "polygon"), 2 * 18);
        let (_, text) = drawn("moebius-band", Texture::Grid, Style::default());
        assert_eq!(count(&text, "reversed-seam", "polyline"), 0);
        assert_eq!(count(&text, "flipped", "polygon"), 0);
    }

    #[test]
    fn bands_go_from_far_to_near() {
        assert_eq!(
            [1.0, 0.99, 0.5, 0.01, 0.0, -1e-9].map(band),
            [0, 0, 3, 5, 5, 5]
        );
        assert_eq!(band(1.0 + 1e-9), 0);
    }
}
