//! Recorded answers: the cases that `crates/replay` runs the library on, with no Rust beside it.
//!
//! A case is one call: its inputs, the answer of the original or a refusal of Rules 11, and every
//! lent list afterwards. Inputs are made at random from a seed, and one is kept if it reaches
//! something that few of those before it reach. What has to be reached is listed here, and the
//! command fails where it is not.
//!
//! The text is of numbers to the base 16. A field is a count and as many numbers, on a line of its
//! own; a case is a field, which begins with its count. Field 0 has the number of cases. In a case
//! field 0 has the call, what it is held to (0 the original, 1 docs/RULES.md) and the numbers it
//! takes, tolerances last, by their bits; lists follow, each its length and its places without the
//! zeros at its end.

use crate::inputs::grids::Grid;
use crate::inputs::tolerances::tolerance_fits;
use crate::layers::{lines, meshes, seams, textures, traces, vectors};
use crate::random::Random;
use merlontrispa::Refusal;
use std::collections::BTreeMap;
use std::iter;

/// How many cases reach a thing before one more that reaches nothing else is passed over.
const ENOUGH: u32 = 5;

/// The most numbers of a case, but for the one on many cells.
const LENGTH: usize = 420;

/// What a case calls. `crates/replay` has the same numbers.
#[derive(Debug, Clone, Copy, PartialEq, Eq)]
pub enum Call {
    NewVector = 1,
    MapIndex,
    MapIndexInv,
    TriangulateGrid,
    GridPaths,
    Line,
    TraceFlat,
    Plan,
    Angle,
    SamplePoint,
    Vector,
    FindSeams,
    TriangulateSeams,
}

use Call::*;

/// The calls that can be refused, each with the numbers of its refusals.
const REFUSALS: [(Call, &[u8]); 12] = [
    (NewVector, &[2, 4, 13]),
    (MapIndex, &[8]),
    (MapIndexInv, &[8]),
    (TriangulateGrid, &[1, 2, 3, 4, 13]),
    (GridPaths, &[1, 2, 3, 4]),
    (Line, &[8]),
    (TraceFlat, &[1, 2, 4, 9, 10, 11, 12, 13]),
    (Plan, &[1, 5, 6]),
    (Angle, &[1, 5, 6, 8]),
    (SamplePoint, &[1, 5, 6, 7, 8]),
    (FindSeams, &[1, 2, 4, 13]),
    (TriangulateSeams, &[1, 2, 3, 4, 13, 14]),
];

/// The directions and offsets of a seam.
const SEAMS: [&str; 5] = [
    "none",
    "forward at 0",
    "forward at an offset",
    "reverse at 0",
    "reverse at an offset",
];

/// What else has to be reached.
const REACHED: [(Call, &[&str]); 9] = [
    (NewVector, &SEAMS),
    (
        NewVector,
        &["another seam than by EPS", "2 before 13", "13 before 4"],
    ),
    (
        TriangulateGrid,
        &[
            "many cells",
            "a triangle left out",
            "flipped pairs",
            "another u seam than by EPS",
            "another v seam than by EPS",
            "u refused alone",
            "v refused alone",
            "line refused alone",
            "1 before 13",
            "2 before 13",
            "13 before 3",
            "13 before 4",
        ],
    ),
    (GridPaths, &["many cells"]),
    (Line, &["the last line", "an empty line"]),
    (
        TraceFlat,
        &[
            "a U event",
            "a V event",
            "a diagonal event",
            "an event at an end",
            "an event at -0",
            "a point close to the last one",
            "a line of one point",
            "several lines",
            "a break",
            "a break before all points",
            "breaks in a row",
            "a point close to the last one of another leg",
            "no room in the samples alone",
            "many cells",
            "fewer points than by EPS",
            "more points than by EPS",
            "u refused alone",
            "v refused alone",
            "line refused alone",
            "1 before 13",
            "2 before 13",
            "13 before 4",
            "13 before 9",
            "13 before 10",
        ],
    ),
    (
        Vector,
        &[
            "add",
            "sub",
            "mul_scalar",
            "all_close",
            "not all_close",
            "all_close by more than EPS",
            "not all_close by less than EPS",
            "a tolerance that is a NaN",
            "a tolerance that is not above zero",
            "a tolerance above 1",
        ],
    ),
    (
        FindSeams,
        &[
            "another u seam than by EPS",
            "another v seam than by EPS",
            "u refused alone",
            "v refused alone",
            "line refused alone",
            "1 before 13",
            "2 before 13",
            "13 before 4",
        ],
    ),
    (
        TriangulateSeams,
        &[
            "another u seam than is found",
            "another v seam than is found",
            "a triangle left out",
            "flipped pairs",
            "other steps",
            "an offset that is not below the steps",
            "an open row a",
            "an open row b",
            "the last point alone",
            "u refused alone",
            "v refused alone",
            "line refused alone",
            "1 before 13",
            "2 before 13",
            "13 before 3",
            "13 before 4",
            "13 before 14",
            "1 before 14",
            "2 before 14",
            "3 before 14",
            "4 before 14",
        ],
    ),
];

/// One call with what it answers and leaves.
pub struct Recorded {
    call: Call,
    fields: Vec<Vec<u64>>,
    reaches: Vec<String>,
}

impl Recorded {
    /// A call with these numbers, held to the original, or to the rules where it is `refused`: only the
    /// original's own panic is its answer.
    pub fn new(call: Call, refused: Option<Refusal>, numbers: &[u64]) -> Self {
        let rules = refused.is_some_and(|refusal| refusal != Refusal::NoStep);
        let head = [call as u64, u64::from(rules)];
        let case = Self {
            call,
            fields: vec![[&head, numbers].concat()],
            reaches: Vec::new(),
        };
        match refused {
            Some(refusal) => case.reaching(&format!("refusal {}", refusal.number())),
            None => case.reaching("answered"),
        }
    }

    /// A call on a grid: its steps and its numbers.
    pub fn on_grid(call: Call, refused: Option<Refusal>, grid: &Grid) -> Self {
        let steps = [grid.u_steps as u64, grid.v_steps as u64];
        Self::new(call, refused, &steps).floats(&grid.numbers)
    }

    /// The tolerances that it takes, after its other numbers, and what it reaches where one of them is
    /// refused: `otherwise` is what the call is refused with at EPS.
    pub fn at_tolerances(
        mut self,
        tolerances: &[f64],
        refused: Option<Refusal>,
        otherwise: Option<Refusal>,
    ) -> Self {
        self.fields[0].extend(tolerances.iter().map(|&tolerance| bits(tolerance)));
        let named = iter::zip(["u", "v", "line"], tolerances);
        let mut faults = named.filter(|(_, tolerance)| !tolerance_fits(**tolerance));
        let (Some((name, _)), Some(refused)) = (faults.next(), refused) else {
            return self;
        };
        if refused != Refusal::Tolerance {
            return self.reaching(&format!("{} before 13", refused.number()));
        }
        let alone = faults.next().is_none() && tolerances.len() > 1;
        let case = self.reaching_if(alone, &format!("{name} refused alone"));
        match otherwise {
            Some(after) => case.reaching(&format!("13 before {}", after.number())),
            None => case,
        }
    }

    /// Held to the rules: the original has no such call.
    pub fn held_to_rules(mut self) -> Self {
        self.fields[0][1] = 1;
        self
    }

    pub fn reaching(mut self, what: &str) -> Self {
        self.reaches.push(format!("{:?}: {what}", self.call));
        self
    }

    pub fn reaching_if(self, reached: bool, what: &str) -> Self {
        if reached { self.reaching(what) } else { self }
    }

    /// A field of these numbers.
    pub fn words(mut self, words: &[u64]) -> Self {
        self.fields.push(words.to_vec());
        self
    }

    /// The answer: two numbers, or a refusal's.
    pub fn told(self, told: Result<[usize; 2], Refusal>) -> Self {
        match told {
            Ok([a, b]) => self.words(&[0, a as u64, b as u64]),
            Err(refusal) => self.words(&[refusal.number().into()]),
        }
    }

    pub fn floats(self, list: &[f64]) -> Self {
        self.list(list.iter().map(|&x| bits(x)))
    }

    pub fn numbers(self, list: &[usize]) -> Self {
        self.list(list.iter().map(|&n| n as u64))
    }

    pub fn bytes(self, list: &[u8]) -> Self {
        self.list(list.iter().map(|&n| n.into()))
    }

    fn list(self, places: impl ExactSizeIterator<Item = u64>) -> Self {
        let mut words = vec![places.len() as u64];
        words.extend(places);
        while words.len() > 1 && words.last() == Some(&0) {
            words.pop();
        }
        self.words(&words)
    }

    fn length(&self) -> usize {
        self.fields.iter().map(|field| field.len() + 1).sum()
    }
}

/// The bits of a float. NaNs are not told apart.
pub fn bits(x: f64) -> u64 {
    if x.is_nan() { f64::NAN } else { x }.to_bits()
}

/// The cases that are kept, and how many reach each thing.
pub struct Record {
    seed: u64,
    cases: Vec<Recorded>,
    reached: BTreeMap<String, u32>,
}

impl Record {
    /// The cases that come from a seed.
    pub fn new(seed: u64) -> Self {
        let mut record = Self {
            seed,
            cases: Vec::new(),
            reached: BTreeMap::new(),
        };
        seams::record(&mut record);
        meshes::record(&mut record);
        lines::record(&mut record);
        traces::record(&mut record);
        textures::record(&mut record);
        vectors::record(&mut record);
        meshes::given::record(&mut record);
        record
    }

    /// Random numbers for the next calls.
    pub fn random(&self) -> Random {
        Random::new(self.seed + self.cases.len() as u64)
    }

    /// Keeps a short case that reaches something that few do.
    pub fn offer(&mut self, case: Recorded) {
        self.offer_below(ENOUGH, case);
    }

    /// Keeps a short case that reaches something that fewer than so many do.
    pub fn offer_below(&mut self, enough: u32, case: Recorded) {
        let few = |what: &String| self.reached.get(what).is_none_or(|&count| count < enough);
        if case.length() <= LENGTH && case.reaches.iter().any(few) {
            self.keep(case);
        }
    }

    /// Keeps a case.
    pub fn keep(&mut self, case: Recorded) {
        for what in &case.reaches {
            *self.reached.entry(what.clone()).or_default() += 1;
        }
        self.cases.push(case);
    }

    pub fn len(&self) -> usize {
        self.cases.len()
    }

    /// How many cases reach each thing, line by line.
    pub fn summary(&self) -> String {
        let lines = self.reached.iter();
        lines
            .map(|(what, count)| format!("  {what}: {count}\n"))
            .collect()
    }

    /// What no case reaches.
    pub fn missing(&self) -> Vec<String> {
        let refusals = REFUSALS.iter().flat_map(|&(call, numbers)| {
            let refused = numbers
                .iter()
                .map(move |n| format!("{call:?}: refusal {n}"));
            refused.chain([format!("{call:?}: answered")])
        });
        let things = REACHED
            .iter()
            .flat_map(|&(call, things)| things.iter().map(move |what| format!("{call:?}: {what}")));
        let joinings = SEAMS
            .iter()
            .flat_map(|u| SEAMS.map(|v| format!("{TriangulateGrid:?}: u {u}, v {v}")));
        let seams = [FindSeams, TriangulateSeams].into_iter().flat_map(|call| {
            let axes = ["u", "v"].into_iter();
            axes.flat_map(move |axis| SEAMS.map(|seam| format!("{call:?}: {axis} {seam}")))
        });
        let all = refusals.chain(things).chain(joinings).chain(seams);
        all.filter(|what| !self.reached.contains_key(what))
            .collect()
    }

    pub fn text(&self) -> String {
        let mut text = line(&[self.cases.len() as u64]);
        for case in &self.cases {
            text += &format!("{:X}\n", case.length());
            text.extend(case.fields.iter().map(|field| line(field)));
        }
        text
    }
}

/// A field on a line.
fn line(field: &[u64]) -> String {
    let words = field.iter().map(|word| format!(" {word:X}"));
    format!("{:X}{}\n", field.len(), words.collect::<String>())
}

#[cfg(test)]
mod tests {
    use super::*;
    use crate::request::SEED;
    use std::fs;
    use std::path::Path;

    fn committed(file: &str) -> String {
        let crates = Path::new(env!("CARGO_MANIFEST_DIR")).join("../../crates");
        fs::read_to_string(crates.join("replay").join(file)).expect("the file is there")
    }

    #[test]
    fn the_record_is_made_again() {
        let record = Record::new(SEED);
        assert_eq!(record.missing(), [""; 0]);
        assert!(
            record.text() == committed("stdin"),
            "compare --record FILE makes another"
        );
        let expected = format!("replay: {} cases, 0 differ\n", record.len());
        assert_eq!(committed("stdout"), expected);
    }
}
