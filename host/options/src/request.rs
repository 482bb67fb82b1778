//! The options of the command line. Each fault is one sentence.

use crate::formula::{Formula, constant};
use crate::parametric::{ParametricSurface, names};
use std::collections::BTreeMap;

const WITH_VALUE: [&str; 13] = [
    "--formula",
    "--u",
    "--v",
    "--steps",
    "--tolerance",
    "--seam-u",
    "--seam-v",
    "--texture",
    "--spacing",
    "--twist",
    "--arms",
    "--highlight",
    "--output",
];

const WITHOUT_VALUE: [&str; 4] = ["--seams", "--flipped", "--plain", "--help"];

/// The most samples per ray: the library refuses a texture with more.
const MOST_SAMPLES: usize = 65_536;

/// The library takes 1 for a spacing that is not above this, or not finite.
const LEAST_SPACING: f64 = 1e-9;

/// The largest tolerance: the library refuses what is above it, and what is not above 0.
const LARGEST_TOLERANCE: f64 = 1.0;

/// The library's own EPS.
const TOLERANCE: f64 = 1e-9;
const SPACING: f64 = 3.0;
const TWIST: f64 = 0.5;
const ARMS: usize = 2;

/// What the user asks for.
#[derive(Debug, Clone, PartialEq)]
pub enum Request {
    /// The help.
    Help,
    /// A card.
    Card(Box<Options>),
}

/// What is to be drawn, and where to.
#[derive(Debug, Clone, PartialEq)]
pub struct Options {
    /// The surface.
    pub surface: ParametricSurface,
    /// Its steps in u and in v.
    pub steps: [usize; 2],
    /// Its tolerances.
    pub tolerances: Tolerances,
    /// Its seam between the first u and the last, and that between the first v and the last.
    pub seams: [Seam; 2],
    /// The lines on it.
    pub texture: Texture,
    /// What is drawn beside them.
    pub style: Style,
    /// The file that is written, `-` for standard output.
    pub output: String,
}

/// How near points must be to count as one: the library's tolerances, in a crate that is built
/// without the library.
#[derive(Debug, Clone, Copy, PartialEq)]
pub struct Tolerances {
    /// Of the seam between the first u and the last.
    pub u: f64,
    /// Of the seam between the first v and the last.
    pub v: f64,
    /// Of neighbours on a line of the texture.
    pub line: f64,
}

impl Default for Tolerances {
    fn default() -> Self {
        let [u, v, line] = [TOLERANCE; 3];
        Self { u, v, line }
    }
}

/// How the edges at two ends are joined: the library's mapping, in a crate that is built without
/// the library. Its steps are those of the grid along the edges.
#[derive(Debug, Clone, Copy, PartialEq, Eq, Default)]
pub enum Seam {
    /// As the library finds it.
    #[default]
    Found,
    /// Given: not at all.
    None,
    /// Given: the edges run the same way.
    Forward {
        /// Where on the last edge the first point of the first one lies.
        offset: usize,
    },
    /// Given: the edges run against each other.
    Reverse {
        /// The same; at 0 it is the end of the last edge.
        offset: usize,
    },
}

/// The lines on a surface: the library's texture, in a crate that is built without the library.
#[derive(Debug, Clone, Copy, PartialEq)]
pub enum Texture {
    /// The lines of its grid.
    Grid,
    /// Rays round the middle of u and v.
    Swirl {
        /// How far apart the rays end, in steps.
        spacing: f64,
        /// Turns of a ray on its way.
        twist: f64,
    },
    /// Arms that wind round the middle of u and v.
    Spiral {
        /// How far apart the turns lie, in steps.
        spacing: f64,
        /// How many arms.
        arms: usize,
    },
}

/// What is drawn beside the lines of the texture and the rim, and how.
#[derive(Debug, Clone, Copy, PartialEq, Eq, Default)]
pub struct Style {
    /// Whether the seams are drawn, in colours that tell forward from reversed.
    pub seams: bool,
    /// Whether the triangles of flipped pairs are filled.
    pub flipped: bool,
    /// Whether each line is one polyline, but where a highlight cuts it, as strong as the others.
    pub plain: bool,
    /// The sample of each ray whose pieces of lines are drawn in another colour.
    pub highlight: Option<usize>,
}

impl Request {
    /// The request of this program's command line.
    ///
    /// # Errors
    /// As [`Request::parse`], and one where the words are not in UTF-8.
    pub fn from_args() -> Result<Self, String> {
        let words = std::env::args_os().skip(1);
        let words: Result<Vec<_>, _> = words.map(|word| word.into_string()).collect();
        Self::parse(words.map_err(|_| "the options are not all in UTF-8")?)
    }

    /// The request of a command's words.
    ///
    /// # Errors
    /// A sentence about the first fault; a fault in a formula is shown in two lines more.
    pub fn parse(words: impl IntoIterator<Item = String>) -> Result<Self, String> {
        let given = Given::new(words)?;
        if given.has("--help") {
            return Ok(Self::Help);
        }
        let surface = given.surface()?;
        let steps = given.steps()?.unwrap_or(surface.steps);
        let options = Options {
            steps,
            tolerances: given.tolerances()?.unwrap_or_default(),
            seams: given.seams(steps)?,
            texture: given.texture()?,
            style: Style {
                seams: given.has("--seams"),
                flipped: given.has("--flipped"),
                plain: given.has("--plain"),
                highlight: given.highlight()?,
            },
            output: given.value("--output").unwrap_or("card.svg").to_string(),
            surface,
        };
        Ok(Self::Card(Box::new(options)))
    }
}

/// The words as they were given: a surface, and options with their values.
#[derive(Default)]
struct Given {
    surface: Option<String>,
    options: BTreeMap<&'static str, String>,
}

impl Given {
    fn new(words: impl IntoIterator<Item = String>) -> Result<Self, String> {
        let mut given = Self::default();
        let mut words = words.into_iter();
        while let Some(word) = words.next() {
            if word.starts_with('-') {
                given.option(&word, &mut words)?;
            } else if let Some(before) = &given.surface {
                return Err(format!(
                    "'{before}' and '{word}' are given, and a card has one surface"
                ));
            } else {
                given.surface = Some(word);
            }
        }
        Ok(given)
    }

    /// Takes an option, and its value from behind '=' or from the words that follow.
    fn option(
        &mut self,
        word: &str,
        rest: &mut impl Iterator<Item = String>,
    ) -> Result<(), String> {
        let (name, attached) = match word.split_once('=') {
            Some((name, value)) => (name, Some(value.to_string())),
            None => (word, None),
        };
        let name = match name {
            "-o" => "--output",
            "-h" => "--help",
            _ => name,
        };
        let among = |names: &[&'static str]| names.iter().copied().find(|known| *known == name);
        let (name, value) = if let Some(name) = among(&WITH_VALUE) {
            let value = attached.or_else(|| rest.next().filter(|next| !next.starts_with("--")));
            (name, value.ok_or_else(|| format!("{name} wants a value"))?)
        } else if let Some(name) = among(&WITHOUT_VALUE) {
            match attached {
                None => (name, String::new()),
                Some(_) => return Err(format!("{name} takes no value")),
            }
        } else {
            return Err(format!("there is no option '{name}': --help lists all"));
        };
        match self.options.insert(name, value) {
            None => Ok(()),
            Some(_) => Err(format!("{name} is given twice")),
        }
    }

    fn value(&self, name: &str) -> Option<&str> {
        self.options.get(name).map(String::as_str)
    }

    fn has(&self, name: &str) -> bool {
        self.options.contains_key(name)
    }

    fn surface(&self) -> Result<ParametricSurface, String> {
        let mut surface = match (&self.surface, self.value("--formula")) {
            (Some(name), Some(_)) => {
                return Err(format!(
                    "'{name}' and --formula are given, and a card has one surface"
                ));
            }
            (None, Some(text)) => Formula::parse(text)
                .map(ParametricSurface::from_formula)
                .map_err(|fault| format!("in the formula, {}", fault.show(text)))?,
            (name, None) => named(name.as_deref().unwrap_or("torus"))?,
        };
        surface.u = self.range("--u")?.unwrap_or(surface.u);
        surface.v = self.range("--v")?.unwrap_or(surface.v);
        Ok(surface)
    }

    fn range(&self, name: &str) -> Result<Option<[f64; 2]>, String> {
        let Some(text) = self.value(name) else {
            return Ok(None);
        };
        let Some((from, to)) = text.split_once("..") else {
            return Err(format!(
                "{name} wants a range FROM..TO, such as 0..2*pi, not '{text}'"
            ));
        };
        // A fault is shown in the whole range.
        let end = |part: &str, start: usize| {
            constant(part).map_err(|mut fault| {
                fault.at += start;
                format!("in {name}, {}", fault.show(text))
            })
        };
        let to_start = from.chars().count() + "..".len();
        let ends = [end(from, 0)?, end(to, to_start)?];
        if ends.iter().all(|end| end.is_finite()) {
            Ok(Some(ends))
        } else {
            Err(format!("{name} wants finite ends, not '{text}'"))
        }
    }

    fn steps(&self) -> Result<Option<[usize; 2]>, String> {
        let Some(text) = self.value("--steps") else {
            return Ok(None);
        };
        let steps = text.split_once(['x', '×']).and_then(|(m, n)| {
            let (m, n) = (m.parse().ok()?, n.parse().ok()?);
            Some([m, n])
        });
        match steps {
            Some(_) => Ok(steps),
            None => Err(format!(
                "--steps wants two counts MxN, such as 40x20, not '{text}'"
            )),
        }
    }

    fn tolerances(&self) -> Result<Option<Tolerances>, String> {
        let Some(text) = self.value("--tolerance") else {
            return Ok(None);
        };
        let parts: Vec<_> = text.split(',').map(str::trim).collect();
        let [u, v, line] = parts[..] else {
            return Err(format!(
                "--tolerance wants three numbers U,V,LINE, such as 0.01,0.01,0.1, not '{text}'"
            ));
        };
        let tolerance = |name: &str, text: &str| match text.parse() {
            Err(_) => Err(format!(
                "{name} of --tolerance wants a number, not '{text}'"
            )),
            Ok(number) if number > 0.0 && number <= LARGEST_TOLERANCE => Ok(number),
            Ok(_) => Err(format!(
                "{name} of --tolerance wants a number above 0 and at most {LARGEST_TOLERANCE}, \
                 not '{text}'"
            )),
        };
        Ok(Some(Tolerances {
            u: tolerance("U", u)?,
            v: tolerance("V", v)?,
            line: tolerance("LINE", line)?,
        }))
    }

    /// The edges at the ends of u have the steps in v, and those at the ends of v the steps in u.
    fn seams(&self, [m, n]: [usize; 2]) -> Result<[Seam; 2], String> {
        Ok([
            self.seam("--seam-u", n, "v")?,
            self.seam("--seam-v", m, "u")?,
        ])
    }

    fn seam(&self, name: &str, steps: usize, along: &str) -> Result<Seam, String> {
        let Some(text) = self.value(name) else {
            return Ok(Seam::Found);
        };
        let offset = |text: &str| match text.parse() {
            // Of a grid without steps the library says that it needs some.
            Ok(offset) if offset < steps || steps == 0 => Ok(offset),
            _ => Err(format!(
                "OFFSET of {name} wants a whole number below {steps}, the steps in {along}, \
                 not '{text}'"
            )),
        };
        match text.split_once(':') {
            None if text == "none" => Ok(Seam::None),
            Some(("forward", text)) => offset(text).map(|offset| Seam::Forward { offset }),
            Some(("reverse", text)) => offset(text).map(|offset| Seam::Reverse { offset }),
            _ => Err(format!(
                "{name} wants forward:OFFSET, reverse:OFFSET or none, such as reverse:3, \
                 not '{text}'"
            )),
        }
    }

    fn texture(&self) -> Result<Texture, String> {
        let texture = match self.value("--texture").unwrap_or("grid") {
            "grid" => Texture::Grid,
            "swirl" => Texture::Swirl {
                spacing: self.spacing()?,
                twist: self.number("--twist")?.unwrap_or(TWIST),
            },
            "spiral" => Texture::Spiral {
                spacing: self.spacing()?,
                arms: self.arms()?,
            },
            other => return Err(format!("--texture is grid, swirl or spiral, not '{other}'")),
        };
        let (swirl, spiral) = match texture {
            Texture::Grid => (false, false),
            Texture::Swirl { .. } => (true, false),
            Texture::Spiral { .. } => (false, true),
        };
        let uses = [
            ("--spacing", swirl || spiral, "swirl or spiral"),
            ("--twist", swirl, "swirl"),
            ("--arms", spiral, "spiral"),
            (
                "--highlight",
                swirl || spiral,
                "swirl or spiral: a grid has no samples",
            ),
        ];
        match uses.iter().find(|(name, used, _)| self.has(name) && !used) {
            None => Ok(texture),
            Some((name, _, wanted)) => Err(format!("{name} goes with --texture {wanted}")),
        }
    }

    fn spacing(&self) -> Result<f64, String> {
        match self.number("--spacing")?.unwrap_or(SPACING) {
            spacing if spacing.is_finite() && spacing > LEAST_SPACING => Ok(spacing),
            other => Err(format!(
                "--spacing wants a finite number above {LEAST_SPACING:?}, not '{other}'"
            )),
        }
    }

    fn arms(&self) -> Result<usize, String> {
        let Some(text) = self.value("--arms") else {
            return Ok(ARMS);
        };
        match text.parse() {
            Ok(arms) if arms > 0 => Ok(arms),
            _ => Err(format!("--arms wants a count from 1 to 64, not '{text}'")),
        }
    }

    fn highlight(&self) -> Result<Option<usize>, String> {
        let Some(text) = self.value("--highlight") else {
            return Ok(None);
        };
        match text.parse() {
            Ok(sample) if (1..=MOST_SAMPLES).contains(&sample) => Ok(Some(sample)),
            _ => Err(format!(
                "--highlight wants a whole number from 1 to {MOST_SAMPLES}, not '{text}'"
            )),
        }
    }

    fn number(&self, name: &str) -> Result<Option<f64>, String> {
        let number = self.value(name).map(|text| {
            let fault = |_| format!("{name} wants a number, not '{text}'");
            text.parse().map_err(fault)
        });
        number.transpose()
    }
}

fn named(name: &str) -> Result<ParametricSurface, String> {
    ParametricSurface::named(name).ok_or_else(|| {
        let names = names().join(", ");
        format!("there is no surface '{name}': the names are {names}")
    })
}

#[cfg(test)]
mod tests {
    use super::*;
    use crate::HELP;
    use std::f64::consts::PI;

    /// The words of a command, parted by spaces.
    fn parse(words: &str) -> Result<Request, String> {
        Request::parse(words.split_whitespace().map(String::from))
    }

    fn card(words: &str) -> Options {
        match parse(words) {
            Ok(Request::Card(options)) => *options,
            other => panic!("{words}: {other:?}"),
        }
    }

    #[test]
    fn nothing_given_is_a_torus() {
        let options = card("");
        assert_eq!(Some(options.surface), ParametricSurface::named("torus"));
        assert_eq!(options.tolerances, Tolerances::default());
        assert_eq!(options.seams, [Seam::Found; 2]);
        assert_eq!(options.texture, Texture::Grid);
        assert_eq!(options.style, Style::default());
        assert_eq!(options.output, "card.svg");
    }

    #[test]
    fn each_option_is_taken() {
        let words =
            "sphere --texture swirl --spacing 2.5 --twist -1 --steps 30x20 --seams --plain -o -";
        let options = card(words);
        assert_eq!(options.surface.name, "sphere");
        let (spacing, twist) = (2.5, -1.0);
        assert_eq!(options.texture, Texture::Swirl { spacing, twist });
        assert_eq!(options.steps, [30, 20]);
        let style = Style {
            seams: true,
            plain: true,
            flipped: false,
            highlight: None,
        };
        assert_eq!(options.style, style);
        assert_eq!(options.output, "-");
        let options = card("--texture=spiral --arms=5 shell --flipped --output=a=b.svg");
        let (spacing, arms) = (SPACING, 5);
        assert_eq!(options.texture, Texture::Spiral { spacing, arms });
        assert!(options.style.flipped);
        assert_eq!(options.output, "a=b.svg");
        for (texture, sample) in [("swirl", 1), ("spiral", 65_536)] {
            let options = card(&format!("--texture {texture} --highlight {sample}"));
            assert_eq!(options.style.highlight, Some(sample));
        }
        assert_eq!(parse("torus -h"), Ok(Request::Help));
        assert_eq!(parse("--help"), Ok(Request::Help));
    }

    #[test]
    fn tolerances_are_three_numbers() {
        let tolerances = |text: &str| {
            let words = ["--tolerance", text].map(String::from);
            match Request::parse(words) {
                Ok(Request::Card(options)) => options.tolerances,
                other => panic!("{text}: {other:?}"),
            }
        };
        let [u, v, line] = [0.01, 1e-9, 0.5];
        assert_eq!(tolerances("0.01,1e-9,.5"), Tolerances { u, v, line });
        assert_eq!(tolerances(" 0.01, 1e-9, 0.5"), Tolerances { u, v, line });
        // The least and the largest that the library takes.
        let [u, v, line] = [5e-324, 1.0, 1.0];
        assert_eq!(tolerances("5e-324,1,1.0"), Tolerances { u, v, line });
    }

    #[test]
    fn a_seam_is_none_or_a_direction_with_an_offset_below_the_steps_of_its_edges() {
        let forward = |offset| Seam::Forward { offset };
        let reverse = |offset| Seam::Reverse { offset };
        let cases = [
            ("--seam-u forward:0", [forward(0), Seam::Found]),
            ("--seam-v=reverse:3", [Seam::Found, reverse(3)]),
            ("--seam-v none --seam-u reverse:0", [reverse(0), Seam::None]),
            ("--seam-u none", [Seam::None, Seam::Found]),
            // A torus has 72 steps in u, and 30 in v.
            (
                "--seam-u forward:29 --seam-v reverse:71",
                [forward(29), reverse(71)],
            ),
            (
                "--seam-u forward:40 --seam-v forward:3 --steps 4x41",
                [forward(40), forward(3)],
            ),
            // The fault is then the steps, of which the library tells.
            ("--seam-u forward:0 --steps 4x0", [forward(0), Seam::Found]),
        ];
        for (words, seams) in cases {
            assert_eq!(card(words).seams, seams, "{words}");
        }
    }

    #[test]
    fn ranges_are_constants() {
        let options = card("--u -pi/2..pi --v 0...5 --formula x=u;y=v;z=0");
        assert_eq!(options.surface.u, [-PI / 2.0, PI]);
        assert_eq!(options.surface.v, [0.0, 0.5]);
        assert_eq!(options.surface.formula.at(3.0, 5.0), [3.0, 5.0, 0.0]);
    }

    #[test]
    fn the_help_names_every_surface_and_option_and_what_is_not_given() {
        let words: Vec<_> = HELP
            .split(|c: char| c.is_whitespace() || c == ',')
            .collect();
        for name in names().iter().chain(&WITH_VALUE).chain(&WITHOUT_VALUE) {
            assert!(words.contains(name), "{name}");
        }
        let numbers = [SPACING, TWIST, ARMS as f64].map(|number| number.to_string());
        for number in numbers.into_iter().chain([format!("{TOLERANCE:?} each")]) {
            assert!(
                HELP.contains(&format!(" {number} if not given")),
                "{number}"
            );
        }
    }

    #[test]
    fn faults_are_named() {
        let cases = [
            ("tours", "there is no surface 'tours'"),
            ("torus sphere", "one surface"),
            ("torus --formula x=u;y=v;z=0", "one surface"),
            ("--size 3", "there is no option '--size'"),
            ("-x", "there is no option '-x'"),
            ("--steps", "--steps wants a value"),
            ("--steps --seams", "--steps wants a value"),
            ("--steps 40", "--steps wants two counts"),
            ("--steps 40x-2", "--steps wants two counts"),
            ("--steps 4x4 --steps 5x5", "--steps is given twice"),
            ("--tolerance", "--tolerance wants a value"),
            (
                "--tolerance 0.1",
                "--tolerance wants three numbers U,V,LINE, such as 0.01,0.01,0.1, not '0.1'",
            ),
            ("--tolerance 0.1,0.1", "three numbers U,V,LINE"),
            ("--tolerance 1,1,1,1", "three numbers U,V,LINE"),
            ("--tolerance=", "three numbers U,V,LINE"),
            (
                "--tolerance 1,near,1",
                "V of --tolerance wants a number, not 'near'",
            ),
            (
                "--tolerance ,1,1",
                "U of --tolerance wants a number, not ''",
            ),
            (
                "--tolerance 1,1,0",
                "LINE of --tolerance wants a number above 0 and at most 1, not '0'",
            ),
            (
                "--tolerance -0.1,1,1",
                "U of --tolerance wants a number above 0 and at most 1, not '-0.1'",
            ),
            ("--tolerance 1,1.5,1", "at most 1, not '1.5'"),
            ("--tolerance 1,1,nan", "at most 1, not 'nan'"),
            ("--tolerance 1,1,inf", "at most 1, not 'inf'"),
            ("--tolerance 1,1,-0", "at most 1, not '-0'"),
            ("--tolerance 1,1,1.0000000000000002", "at most 1"),
            // A number that is too small for an f64 is 0.
            ("--tolerance 1,1,1e-400", "at most 1, not '1e-400'"),
            ("--seam-u", "--seam-u wants a value"),
            ("--seam-u none --seam-u none", "--seam-u is given twice"),
            (
                "--seam-u both",
                "--seam-u wants forward:OFFSET, reverse:OFFSET or none, such as reverse:3, not 'both'",
            ),
            ("--seam-v forward", "reverse:OFFSET or none, such as"),
            ("--seam-v 3", "reverse:OFFSET or none, such as"),
            (
                "--seam-v=",
                "reverse:OFFSET or none, such as reverse:3, not ''",
            ),
            ("--seam-v none:0", "reverse:3, not 'none:0'"),
            ("--seam-v Reverse:0", "reverse:3, not 'Reverse:0'"),
            (
                "--seam-u forward:30",
                "OFFSET of --seam-u wants a whole number below 30, the steps in v, not '30'",
            ),
            (
                "--seam-v reverse:72",
                "OFFSET of --seam-v wants a whole number below 72, the steps in u, not '72'",
            ),
            ("--seam-v forward:3 --steps 3x9", "below 3, the steps in u"),
            ("--seam-u forward:", "below 30, the steps in v, not ''"),
            ("--seam-u reverse:-1", "below 30, the steps in v, not '-1'"),
            (
                "--seam-u reverse:1.5",
                "below 30, the steps in v, not '1.5'",
            ),
            (
                "--seam-u reverse:0:0",
                "below 30, the steps in v, not '0:0'",
            ),
            (
                "--seam-u forward:99999999999999999999",
                "not '99999999999999999999'",
            ),
            ("--seams=yes", "--seams takes no value"),
            ("--texture dots", "--texture is grid, swirl or spiral"),
            ("--twist 1", "--twist goes with --texture swirl"),
            (
                "--texture spiral --twist 1",
                "--twist goes with --texture swirl",
            ),
            (
                "--texture swirl --arms 2",
                "--arms goes with --texture spiral",
            ),
            (
                "--spacing 1",
                "--spacing goes with --texture swirl or spiral",
            ),
            ("--texture swirl --spacing 0", "above 1e-9"),
            ("--texture swirl --spacing 1e-9", "above 1e-9"),
            ("--texture swirl --spacing nan", "a finite number"),
            ("--texture swirl --spacing inf", "a finite number"),
            ("--texture swirl --twist much", "--twist wants a number"),
            ("--texture spiral --arms 0", "--arms wants a count"),
            ("--texture spiral --arms 1.5", "--arms wants a count"),
            (
                "--highlight 20",
                "--highlight goes with --texture swirl or spiral: a grid has no samples",
            ),
            ("--texture swirl --highlight", "--highlight wants a value"),
            (
                "--texture swirl --highlight 0",
                "--highlight wants a whole number from 1 to 65536, not '0'",
            ),
            (
                "--texture swirl --highlight -1",
                "from 1 to 65536, not '-1'",
            ),
            (
                "--texture swirl --highlight 2.5",
                "from 1 to 65536, not '2.5'",
            ),
            (
                "--texture spiral --highlight all",
                "from 1 to 65536, not 'all'",
            ),
            ("--texture spiral --highlight=", "from 1 to 65536, not ''"),
            ("--texture spiral --highlight 65537", "not '65537'"),
            (
                "--texture spiral --highlight 99999999999999999999",
                "not '99999999999999999999'",
            ),
            ("--u 3", "--u wants a range"),
            ("--u 0..1/0", "--u wants finite ends, not '0..1/0'"),
            ("--v sqrt(-1)..1", "--v wants finite ends"),
            ("--u 0..", "'(' belongs here\n    0..\n       ^"),
            (
                "--u 0..v",
                "in --u, this is none of pi, sin, cos and sqrt\n    0..v\n       ^",
            ),
            ("--formula x=u", "in the formula, y is missing"),
        ];
        for (words, part) in cases {
            let sentence = parse(words).expect_err(words);
            assert!(sentence.contains(part), "{words}: {sentence}");
        }
    }
}
