//! What `rt` says of an edit. `rt ci` shows of its check the first refusal, in one line, cut short:
//!
//!     rt: must-fail float/order.edit: refused, as it must be: ./proofs/order/max/Answers.antt:6:24: error: `returns`: the two types ..
//!     rt: must-fail float/order.edit: refused, as it must be: note: src/order.rt:16:1: it is not proved that ..
//!
//! `rt check` shows every refusal in such a line, and of each function whether it is proved:
//!
//!     fn float::order::max: not proved
//!     fn float::sign::abs: no proof: it calls `float::sign::is_negative`, which is not proved
//!     fn float::sign::is_finite: not proved; it calls `float::sign::abs`, which is not proved
//!
//! The second's own proof does not fail, and the third's does.

/// The words for a fact that is not shown: antt has them where an answer of a proof does not show
/// what it is to show. A refusal in other words, but those for a goal that is left open, tells
/// nothing of the program's meaning: a goal or a field that is not there under its name, a name that
/// is not in scope, a file that cannot be read.
const FACT_FAILS: &[&str] = &[
    // a proof of another statement than the one asked for
    "the two types ",
    "the two sides ",
    "expected type `",
    "beneath `",
    "computed as a goal is, one side reads ",
    // `rw` and `simp` leave something, or find nothing to rewrite
    "give a proof of that as the last argument",
    "no equation of the list ",
    "no occurrence of the path's ",
    // `cc`: the equations at hand do not make the two sides one
    "list the missing equation with its arguments",
    // `search`, `grind` and `omega`
    "no proof of ",
    "the goal does not follow",
    "does not follow from what it read",
];

/// The words for a goal that no answer and no search closes.
const LEFT_OPEN: &[&str] = &["it is not proved that ", "`search` found no proof (`"];

/// What goes before the fields of a record that has not the one which is named.
const FIELDS: &str = "  the fields that can be named here are ";

/// What goes before the goals and places of a function where one is named that it has not.
const GOALS: &str = "help: `Goals` has no ";

/// What `rt ci` or `rt must-fail` printed.
#[derive(Debug, Clone)]
pub struct Said {
    text: String,
}

/// All that `rt check` printed of a crate that it refused.
#[derive(Debug, Clone)]
pub struct Whole {
    text: String,
}

/// A refusal: where it stands, in which declaration, and what is said.
#[derive(Debug, Clone, PartialEq, Eq)]
pub struct Refusal {
    pub file: String,
    /// From 0 on.
    pub line: usize,
    pub declaration: String,
    pub message: String,
}

impl Said {
    pub fn new(text: String) -> Said {
        Said { text }
    }

    /// What `rt` goes on with after saying that the file `label` of a crate is refused.
    pub fn refused(&self, krate: &str, label: &str) -> Result<&str, String> {
        let start = format!("rt: must-fail {krate}/{label}.edit: ");
        let mut lines = self.text.lines();
        let said = lines
            .find_map(|line| line.strip_prefix(&start))
            .ok_or("rt says nothing of it")?;
        said.strip_prefix("refused, as it must be")
            .ok_or_else(|| format!("rt says: {said}"))
    }

    /// The refusal that `rt` shows of a file, where it is of a fact or a name that it still has.
    pub fn refusal(&self, krate: &str, label: &str) -> Option<Refusal> {
        parse(self.refused(krate, label).ok()?.strip_prefix(": ")?)
    }
}

impl Whole {
    /// The log of a check that came to this crate and refused it.
    pub fn new(krate: &str, text: String) -> Result<Whole, String> {
        let start = format!("crate {krate}: ");
        let mut after = text.lines().skip_while(|line| !line.starts_with(&start));
        match after.any(|line| line == "logic=not-proved") {
            true => Ok(Whole { text }),
            false => Err(format!("{krate} was not refused")),
        }
    }

    /// The errors of `antt` and the goals that are left open, in order.
    pub fn refusals(&self) -> impl Iterator<Item = Refusal> {
        self.text.lines().filter_map(parse)
    }

    /// The names that a function's answers have and the edit has made away with, and some that are
    /// there now: fields of a record, and goals and places that follow what is said of the function.
    /// Each in one text.
    pub fn names(&self, path: &str, answers: &str) -> (String, String) {
        let (mut gone, mut there, mut is_own) = (Vec::new(), Vec::new(), false);
        let function = format!("fn {path}: ");
        for line in self.text.lines() {
            if let Some(refusal) = parse(line) {
                is_own = refusal.file == answers;
                gone.extend(no_longer(&refusal.message).filter(|_| is_own));
            } else if line.starts_with("fn ") {
                is_own = line.starts_with(&function);
            }
            let listed = line.strip_prefix(FIELDS);
            let listed = listed.or_else(|| Some(line.strip_prefix(GOALS)?.split_once(';')?.1));
            if let Some(listed) = listed.filter(|_| is_own) {
                there.extend(listed.split('`').skip(1).step_by(2));
            }
        }
        (gone.join(" "), there.join(" "))
    }

    /// Whether a function's own proof fails, and what else is said of that: `it calls` others that
    /// are not proved.
    pub fn leaves(&self, path: &str) -> Result<&str, String> {
        let start = format!("fn {path}: ");
        let mut lines = self.text.lines();
        let said = lines
            .find_map(|line| line.strip_prefix(&start))
            .ok_or_else(|| format!("the check has no line of fn {path}"))?;
        let fault = || format!("fn {path}: {said}");
        match said.strip_prefix("not proved") {
            Some(rest) => Ok(rest.trim_start_matches("; ")),
            None if said.starts_with("no proof: it calls `") => Err(fault()),
            None if said.starts_with("no proof: ") => Ok(""),
            None => Err(fault()),
        }
    }
}

impl Refusal {
    /// Whether it is of a fact that is not shown, or of a goal that is left open.
    pub fn is_of_a_fact(&self) -> bool {
        let fails = || FACT_FAILS.iter().any(|words| self.message.contains(words));
        self.is_left_open() || fails() || is_a_term(&self.message)
    }

    /// Whether it is of a goal that is left open.
    pub fn is_left_open(&self) -> bool {
        LEFT_OPEN.iter().any(|words| self.message.contains(words))
    }
}

/// Whether a message is one term, cut short or not: antt then says on its next lines with what that
/// was compared, and that the comparison does not hold.
fn is_a_term(message: &str) -> bool {
    let term = message.strip_prefix('`');
    term.is_some_and(|term| !term.strip_suffix('`').unwrap_or(term).contains('`'))
}

/// The name that is not there, where a message says so.
fn no_longer(message: &str) -> Option<String> {
    let (_, rest) = ["has no field `", " has no `"]
        .iter()
        .find_map(|words| message.split_once(words))?;
    rest.split_once('`').map(|(name, _)| name.to_string())
}

/// `FILE:LINE:COLUMN: error: `DECLARATION`: MESSAGE`, or `note: FILE:LINE:COLUMN: MESSAGE`. A note
/// that has its place first goes with an error.
fn parse(shown: &str) -> Option<Refusal> {
    let (is_note, shown) = match shown.strip_prefix("note: ") {
        Some(rest) => (true, rest),
        None => (false, shown),
    };
    let (file, rest) = shown.strip_prefix("./").unwrap_or(shown).split_once(':')?;
    let (line, rest) = rest.split_once(':')?;
    let (column, said) = rest.split_once(": ")?;
    column.parse::<usize>().ok()?;
    let said = match is_note {
        true => said,
        false => said.strip_prefix("error: ")?,
    };
    let named = said
        .strip_prefix('`')
        .and_then(|rest| rest.split_once("`: "));
    let (declaration, message) = named.unwrap_or(("", said));
    Some(Refusal {
        file: file.to_string(),
        line: line.parse::<usize>().ok()?.checked_sub(1)?,
        declaration: declaration.to_string(),
        message: message.to_string(),
    })
}

#[cfg(test)]
mod tests {
    use super::*;

    const DIFFER: &str = "as printed, the two types first differ where one has `c.args.x` (expected), right after `m";

    /// What `rt ci` printed where it says that of the file `float/order.edit`.
    fn said(said: &str) -> Said {
        Said::new(format!(
            "rt: float proved\nrt: must-fail float/other.edit: refused, as it must be\n\
             rt: must-fail float/order.edit: {said}\nrt: ok; handles allowed: none\n"
        ))
    }

    fn shown(shown: &str) -> Refusal {
        let said = said(&format!("refused, as it must be: {shown}"));
        said.refusal("float", "order").unwrap()
    }

    #[test]
    fn an_answer_that_shows_another_fact_is_read() {
        let shown = shown(&format!(
            "./proofs/sign/abs/Answers.antt:7:30: error: `returns-then-x`: {DIFFER}"
        ));
        assert_eq!(shown.file, "proofs/sign/abs/Answers.antt");
        assert_eq!(shown.line, 6);
        assert_eq!(shown.declaration, "returns-then-x");
        assert!(shown.is_of_a_fact());
    }

    #[test]
    fn so_is_a_goal_that_is_left_open() {
        let shown = shown(
            "note: src/order.rt:16:1: it is not proved that what the function ensures holds when it returns (`returns-then-y-x`); `search` gave up at one of its limits",
        );
        assert_eq!((shown.file.as_str(), shown.line), ("src/order.rt", 15));
        assert!(shown.declaration.is_empty() && shown.is_of_a_fact());
    }

    #[test]
    fn the_words_of_the_tactics_are_known() {
        for message in [
            "computed as far as they go, the two types differ only where one has `lib.Ieee.le` (expected) and th",
            "expected type `Path ℕ ((n * 2 + d) / d / 2) (near n d)`, but this has type `(n * 2 + d) / d / 2 ≡ ",
            "give a proof of that as the last argument, `simp L t` (`simp L ?` shows it as a hole's goal), or",
            "`simp`: no equation of the list has an instance in the goal `Rattle.float.proofs.order.clam",
            "`search`: no proof of `mathlib.Core.Path.◌≡◌ (lib.Ieee.neg (lib.Ieee.of_int lib.Ie",
            "`search` found no proof (`slice_bounds-points-end`); `search` gave up at one of its limits",
            "`omega`: the goal does not follow from what it read. All of that holds, and the goal fails",
            "`rw`: no occurrence of the path's left endpoint in the goal: write the family yourself and",
            "`borrow.Table.Row.get 8 (Rattle.lent.proofs.check_room.Lts.T9).locals (Rattle.lent.",
            "`fits x`",
            "computed as a goal is, one side reads `left c.args.tolerance c.args.sample c.args.",
            "beneath `j x' (i : 𝕀)`, `close_at (borrow.Table.Row.get 7 (Rattle.cyclic.proofs.seam.se",
        ] {
            let at = format!("./proofs/Less.antt:9:13: error: `le_is`: {message}");
            assert!(shown(&at).is_of_a_fact(), "{message}");
        }
    }

    #[test]
    fn a_name_that_is_not_there_is_no_fact() {
        for message in [
            "`goal.returns-then-x-y`: module `Rattle.float.proofs.order.max.Goals` has no `returns-then-x-y` that can be named from here",
            "record `Rattle.float.proofs.order.max.Lts.Then2` has no field `if-x-y` (nearest: .if-y-x, .if-x)",
            "`le_is` is not in scope",
            "`returns` was not admitted (it has holes or undetermined implicits, or was rejected)",
        ] {
            let at = format!("./proofs/order/max/Answers.antt:9:13: error: `returns`: {message}");
            assert!(!shown(&at).is_of_a_fact(), "{message}");
        }
    }

    #[test]
    fn an_edit_that_is_not_refused_is_a_fault() {
        for text in [
            "NOT REFUSED: the crate is still proved with this edit",
            "BAD EDIT: it changes nothing",
            "NOT TRIED: its check was killed",
        ] {
            let fault = Err(format!("rt says: {text}"));
            assert_eq!(said(text).refused("float", "order"), fault);
        }
        let missing = Said::new(String::new());
        let fault = Err("rt says nothing of it".to_string());
        assert_eq!(missing.refused("float", "order"), fault);
    }

    #[test]
    fn a_refusal_that_shows_nothing_settles_nothing() {
        for text in [
            "refused, as it must be",
            "refused, as it must be: killed",
            "refused, as it must be: ./proofs/order/max/Answers.antt:13:36: note: the two types differ",
            "refused, as it must be (only because a proof file names what the edit took away): ./proofs/order/max/Answers.antt:13:36: error: `returns`: the two types differ",
            "refused, as it must be (only by a limit of the prover): ./proofs/order/max/Answers.antt:13:36: error: `returns`: the two types differ",
        ] {
            assert!(said(text).refused("float", "order").is_ok());
            assert_eq!(said(text).refusal("float", "order"), None);
        }
    }

    /// As `rt check` printed it, with lines cut short and proved functions left out.
    const WHOLE: &str = "rt: chose --jobs 2 for float
checked float::order::max, 2 of 13
./proofs/cast/to_f64/Answers.antt:12:13: error: `returns`: as printed, the two types first differ where one has `(lib.Ieee.neg c.nearest_u64_to_f64.result)`
  (expected), right after `mathlib.Core.Path.◌≡◌`, and the other has `c.nearest_u64_to_f64.result` (found)
./proofs/cast/to_f64/Answers.antt:10:5: note: a trial run of this declaration was refused too. That run's refusal: computed as far as they go, the two types differ only where
./proofs/order/max/Answers.antt:10:41: error: `returns-then-x`: record `Rattle.float.proofs.order.max.Lts.Then2` has no field `if-x-y` (nearest: .if-y-x, .if-x)
./proofs/triangles/build_cell/Answers.antt:32:5: error: 2 declarations that depend on `first_kept`, which was rejected, were not checked: add_triangle-requires, returns
note: a goal may be false even if its line does not say so: rattle seldom finds values that break an equation of lists
note: ./proofs/check_mesh/Answers.antt:13: `false-raw` is rattle's own name, not the source's, and may change
fn float::cast::to_f64: not proved
fn float::order::clamp: proved
note: src/order.rt:16:1: it is not proved that what the function ensures holds when it returns (`returns-then-y-x`); `search` gave up at one of its limits
fn float::order::max: not proved
note: src/vectors.rt:23:1: it is not proved that what the function ensures holds when it returns (`returns`); `search` gave up at one of its limits
fn float::vectors::to_c: no proof: expected answers in ./proofs/vectors/to_c/Answers.antt; `search` did not prove `returns`
fn float::sign::abs: no proof: it calls `float::sign::is_negative`, which is not proved
fn float::sign::is_finite: not proved; it calls `float::sign::abs`, which is not proved
crate float: modules loaded=435 checked=53
logic=not-proved
";

    #[test]
    fn a_whole_log_has_every_refusal() {
        let log = Whole::new("float", WHOLE.to_string()).unwrap();
        let found: Vec<(String, bool)> = log
            .refusals()
            .map(|refusal| (refusal.file.clone(), refusal.is_of_a_fact()))
            .collect();
        let wanted = [
            ("proofs/cast/to_f64/Answers.antt", true),
            ("proofs/order/max/Answers.antt", false),
            ("proofs/triangles/build_cell/Answers.antt", false),
            ("src/order.rt", true),
            ("src/vectors.rt", true),
        ];
        assert_eq!(found, wanted.map(|(file, is)| (file.to_string(), is)));
    }

    #[test]
    fn and_tells_which_functions_are_not_proved_by_their_own_proof() {
        let log = Whole::new("float", WHOLE.to_string()).unwrap();
        for path in [
            "float::cast::to_f64",
            "float::order::max",
            "float::vectors::to_c",
        ] {
            assert_eq!(log.leaves(path), Ok(""));
        }
        for path in ["float::order::clamp", "float::sign::abs", "float::none"] {
            assert!(log.leaves(path).is_err(), "{path}");
        }
        let proved = WHOLE.replace("logic=not-proved", "logic=proved functions=13");
        assert!(Whole::new("float", proved).is_err());
        assert!(Whole::new("order", WHOLE.to_string()).is_err());
    }
}
