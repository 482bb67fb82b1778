//! Holds the wrong programs of one `.edit` file to what they must leave unproved.
//!
//! A file with one is judged by the refusal that `rt` shows of it. A wrong definition may name
//! several laws or functions: that refusal is at one of them, and the others are not seen. Where it
//! is not, and where a file has several or one that changes several functions, the whole of what a
//! check says decides: it shows each function, and of the laws those that rest on no law that is
//! refused before them.

use std::collections::{BTreeMap, BTreeSet};

use crate::check::Logged;
use crate::edit::{Change, Left, Wrong};
use crate::log::{Refusal, Said, Whole};
use crate::names::renamed;
use crate::source::Source;

/// What a wrong program leaves unproved for its own sake, or the first thing that is wrong with it.
pub type Judged = Result<String, String>;

/// By the path of a function the ways to give its proof the names that an edit leaves, and what a
/// check of each says.
pub type Renamed = BTreeMap<String, Vec<(Source, Logged)>>;

/// The crate as it stands, and what `rt` said of its edits.
#[derive(Clone, Copy)]
pub struct Tried<'a> {
    pub krate: &'a str,
    pub source: &'a Source,
    pub said: &'a Said,
}

impl Tried<'_> {
    /// The verdicts on a file's wrong programs by what `rt` shows of it, where that is enough.
    pub fn by_first(&self, label: &str, programs: &[Wrong]) -> Option<Vec<Judged>> {
        let fault = |why: String| Some(vec![Err(why); programs.len()]);
        if let Err(why) = self.said.refused(self.krate, label) {
            return fault(why);
        }
        if let Err(why) = alone(programs) {
            return fault(why);
        }
        let [wrong] = programs else {
            return None;
        };
        let edited = match self.in_place(wrong) {
            Ok(edited) => edited,
            Err(why) => return fault(why),
        };
        if wrong.of_code() && wrong.leaves.len() > 1 {
            return None;
        }
        let refusal = self.said.refusal(self.krate, label)?;
        // The goal may be open because the change renamed it: the whole log tells.
        if wrong.of_code() && refusal.is_left_open() {
            return None;
        }
        let mut leaves = wrong.leaves.iter();
        let own = leaves.find(|left| belongs(&refusal, left, &edited))?;
        refusal
            .is_of_a_fact()
            .then(|| vec![Ok(format!("{own} is"))])
    }

    /// The crate with every change of a file.
    pub fn edited(&self, programs: &[Wrong]) -> Result<Source, String> {
        let mut source = self.source.clone();
        for Change { file, old, new } in programs.iter().flat_map(|wrong| &wrong.changes) {
            source.replace(file, old, new)?;
        }
        Ok(source)
    }

    /// The verdicts on a file's wrong programs by what a check of the crate with every change of
    /// the file says.
    pub fn by_whole(
        &self,
        programs: &[Wrong],
        edited: &Source,
        log: &Whole,
        renamed: &Renamed,
    ) -> Vec<Judged> {
        let is_promise = |wrong| self.changes_contract(wrong);
        let promises = programs.len() > 1 && programs.iter().any(is_promise);
        let judged = programs.iter().map(|wrong| {
            self.in_place(wrong)?;
            let mut also = wrong.functions().filter_map(|path| log.leaves(path).ok());
            match also.find(|also| promises && !also.is_empty()) {
                Some(also) => Err(format!("{also}, and a contract is changed")),
                None => leaves(wrong, edited, log, renamed),
            }
        });
        judged.collect()
    }

    /// No proof is changed, and the functions that a wrong program changes are the ones it names.
    /// Where a function is proved by hand, only its contract may be changed: such a proof follows
    /// the code word by word, and is refused whatever a change of the code means.
    ///
    /// Hands back the crate as the wrong program has it.
    fn in_place(&self, wrong: &Wrong) -> Result<Source, String> {
        if let Some(left) = wrong.leaves.iter().find(|left| !self.is_there(left)) {
            return Err(format!("there is no {left}"));
        }
        let named: BTreeSet<String> = wrong.functions().map(str::to_string).collect();
        let (source, touched) = self.changed(wrong)?;
        if let Some(path) = touched.iter().find(|path| !named.contains(*path)) {
            return Err(format!("changes fn {path}, which it does not name"));
        }
        if !wrong.of_code() {
            return Ok(source);
        }
        if let Some(path) = named.iter().find(|path| !touched.contains(*path)) {
            return Err(format!("names fn {path}, which it does not change"));
        }
        match wrong.leaves.len() == named.len() {
            true => Ok(source),
            false => Err("a change of code names its functions, each once, and no law".to_string()),
        }
    }

    /// The crate as a wrong program has it, and the functions whose code or contract that changes.
    fn changed(&self, wrong: &Wrong) -> Result<(Source, BTreeSet<String>), String> {
        let (mut touched, mut source) = (BTreeSet::new(), self.source.clone());
        for Change { file, old, new } in &wrong.changes {
            let line = source.replace(file, old, new)?;
            if file.starts_with("proofs/") {
                return Err(format!("changes a proof: {old}"));
            }
            if !file.starts_with("src/") {
                continue;
            }
            let functions = source.touched(file, line);
            if functions.is_empty() {
                return Err(format!("in no function: {old}"));
            }
            let is_code = !source.in_contract(file, line);
            if let Some(path) = functions.iter().find(|path| is_code && self.by_hand(path)) {
                return Err(format!("fn {path} is proved by hand"));
            }
            touched.extend(functions);
        }
        Ok((source, touched))
    }

    fn changes_contract(&self, wrong: &Wrong) -> bool {
        let mut source = self.source.clone();
        wrong.changes.iter().any(|Change { file, old, new }| {
            let line = source.replace(file, old, new);
            line.is_ok_and(|line| source.in_contract(file, line))
        })
    }

    fn is_there(&self, left: &Left) -> bool {
        match left {
            Left::Function(path) => self.source.functions().iter().any(|f| f.path == *path),
            Left::Law { file, name } => self.source.declares(file, name),
        }
    }

    fn by_hand(&self, path: &str) -> bool {
        let proof = format!("{}Proof.antt", proof_folder(path));
        self.source.text(&proof).is_some()
    }
}

/// Wrong programs share a check only where each is a change of code, and no two name one function:
/// a changed definition can bring down any number of proofs. A proof rests on the contracts of the
/// callees, and not on their code, so the change of one does not bring down the proof of another.
fn alone(programs: &[Wrong]) -> Result<(), String> {
    if programs.len() > 1 && !programs.iter().all(Wrong::of_code) {
        return Err("a change of specs/ shares its check".to_string());
    }
    let mut named = BTreeSet::new();
    let mut paths = programs.iter().flat_map(Wrong::functions);
    match paths.find(|path| !named.insert(*path)) {
        Some(path) => Err(format!("fn {path} is named twice in one check")),
        None => Ok(()),
    }
}

/// The functions of wrong programs that a check refuses for other than a fact, with the ways to give
/// their proofs the names that the edit leaves.
pub fn renamings(programs: &[Wrong], edited: &Source, log: &Whole) -> Vec<(String, Vec<Source>)> {
    let paths = programs.iter().flat_map(Wrong::functions);
    let other = paths.filter(|path| {
        let left = Left::Function(path.to_string());
        log.leaves(path).is_ok() && is_left(&left, edited, log).is_err()
    });
    let ways = other.map(|path| {
        let answers = format!("{}Answers.antt", proof_folder(path));
        (path.to_string(), renamed(path, &answers, edited, log))
    });
    ways.collect()
}

/// What a check says of a wrong program: each of its functions is refused for its own sake, or of a
/// definition one of those that it names.
fn leaves(wrong: &Wrong, edited: &Source, log: &Whole, renamed: &Renamed) -> Judged {
    let own = wrong.leaves.iter().map(|left| {
        let own = is_left(left, edited, log).map(|()| format!("{left} is"));
        own.or_else(|why| by_new_names(left, renamed).ok_or(why))
            .or_else(|why| by_open_goal(left, edited, log).ok_or(why))
    });
    let (own, faults): (Vec<Judged>, Vec<Judged>) = own.partition(Result::is_ok);
    let is_enough = faults.is_empty() || !own.is_empty() && !wrong.of_code();
    match (faults.into_iter().next(), &own[..]) {
        (Some(fault), _) if !is_enough => fault,
        (None, [_, _, ..]) if wrong.of_code() => Ok(format!("each of {} functions is", own.len())),
        (_, [first, ..]) => first.clone(),
        (_, []) => Err("names nothing".to_string()),
    }
}

/// Whether a function is refused for its own sake in each way to give its proof the new names.
fn by_new_names(left: &Left, renamed: &Renamed) -> Option<String> {
    let Left::Function(path) = left else {
        return None;
    };
    let ways = renamed.get(path).filter(|ways| !ways.is_empty())?;
    let refused = |(source, log): &(Source, Logged)| match log {
        Ok(log) => is_left_by(left, source, log, Refusal::is_of_a_fact).is_ok(),
        Err(_) => false,
    };
    let words = format!("{left}, under the names that its goals then have, is");
    ways.iter().all(refused).then_some(words)
}

/// Whether a goal of a function is left open at least, where its new names cannot be put for the old.
fn by_open_goal(left: &Left, edited: &Source, log: &Whole) -> Option<String> {
    let is_open = is_left_by(left, edited, log, Refusal::is_left_open).is_ok();
    is_open.then(|| format!("{left}, by a goal that is open under another name, is"))
}

/// Whether a check leaves that function or law unproved for its own sake. Where names are gone that
/// the answers of a function have, a goal of it that is left open may just have another name.
fn is_left(left: &Left, edited: &Source, log: &Whole) -> Result<(), String> {
    let names_are_gone = match left {
        Left::Function(path) => {
            let answers = format!("{}Answers.antt", proof_folder(path));
            !log.names(path, &answers).0.is_empty()
        }
        Left::Law { .. } => false,
    };
    is_left_by(left, edited, log, |refusal| {
        refusal.is_of_a_fact() && !(names_are_gone && refusal.is_left_open())
    })
}

/// Whether a check leaves that function or law unproved by a refusal that counts.
fn is_left_by(
    left: &Left,
    edited: &Source,
    log: &Whole,
    counts: impl Fn(&Refusal) -> bool,
) -> Result<(), String> {
    if let Left::Function(path) = left {
        log.leaves(path)?;
    }
    let own: Vec<Refusal> = log
        .refusals()
        .filter(|refusal| belongs(refusal, left, edited))
        .collect();
    if own.iter().any(counts) {
        return Ok(());
    }
    Err(match own.first() {
        Some(Refusal { message, .. }) => {
            let short: String = message.chars().take(160).collect();
            format!("{left} is refused for other than a fact: {short}")
        }
        None => format!("{left} is not refused for its own sake"),
    })
}

/// Whether a refusal stands in the proof of a function or among its own lines, or at the law.
fn belongs(refusal: &Refusal, left: &Left, edited: &Source) -> bool {
    match left {
        Left::Function(path) => {
            let own = refusal.file.strip_prefix(&proof_folder(path));
            own.is_some_and(|name| !name.contains('/'))
                || edited.around(&refusal.file, refusal.line).as_ref() == Some(path)
        }
        Left::Law { file, name } => refusal.file == *file && refusal.declaration == *name,
    }
}

/// The folder that has a function's proof, below the crate's folder.
fn proof_folder(path: &str) -> String {
    let inner = path.split_once("::").map_or(path, |(_, inner)| inner);
    format!("proofs/{}/", inner.replace("::", "/"))
}

#[cfg(test)]
mod tests {
    use super::*;
    use crate::edit::parse;

    const CODE: &str = "use k::other;\n\nconst TOP: usize = 4;\n\nfn one(x: usize) -> usize {\n    x + 1\n}\n\nfn two(x: usize) -> usize {\n    one(x) + 2\n}\n\n\
                        fn three(x: usize) -> usize {\n    x + TOP\n}\n\nfn four(x: usize) -> usize\n    ensures { result ≡ x + 4 }\n{\n    4 + x\n}\n";
    const ONE: &str =
        "wrong: one_off\nleaves: fn k::one\nfile: src/lib.rt\nold: x + 1\nnew: x + 2\n";
    const THREE: &str = "wrong: top_five\nleaves: fn k::three\nfile: src/lib.rt\nold: TOP: usize = 4\nnew: TOP: usize = 5\n";
    const FOUR: &str =
        "wrong: four_off\nleaves: fn k::four\nfile: src/lib.rt\nold: 4 + x\nnew: 5 + x\n";
    const TWO: &str =
        "wrong: two_off\nleaves: fn k::two\nfile: src/lib.rt\nold: one(x) + 2\nnew: one(x) + 3\n";
    const LAW: &str = "wrong: law_off\nleaves: law proofs/L.antt fact\nleaves: law specs/T.antt known\nfile: specs/S.antt\nold: yes\nnew: no\n";

    const OF_ONE: &str =
        "./proofs/one/Answers.antt:3:5: error: `returns`: the two types differ only where";
    const OF_TWO: &str = "./proofs/two/Answers.antt:3:5: error: `returns`: expected type `x`";
    const OF_THREE: &str =
        "note: src/lib.rt:13:1: it is not proved that what the function ensures holds (`returns`)";
    const OF_FOUR: &str = "./proofs/four/Proof.antt:9:5: error: `walk`: expected type `x`";
    const OF_LAW: &str = "./proofs/L.antt:1:1: error: `fact`: `search`: no proof of `x`";
    const OF_KNOWN: &str = "./specs/T.antt:1:1: error: `known`: the two types differ only where";

    const FUNCTIONS: &str = "fn k::one: not proved\n\
        fn k::two: not proved; it calls `k::one`, which is not proved\n\
        fn k::three: no proof: expected answers in ./proofs/three/Answers.antt; `search` did not prove `returns`\n\
        fn k::four: not proved\ncrate k: modules loaded=2\nlogic=not-proved\n";

    /// The verdicts on an edit of whose check `rt ci` shows the first of these lines, and `rt check`
    /// each.
    fn verdicts(text: &str, lines: &[&str]) -> Vec<Judged> {
        let files = [
            ("src/lib.rt", CODE),
            ("specs/S.antt", "yes\n"),
            ("specs/T.antt", "pub known : x ≡ y\n"),
            ("proofs/L.antt", "  fact : x ≡ y\n  fact = refl\n"),
            ("proofs/one/Answers.antt", "returns = x\n"),
            ("proofs/four/Proof.antt", "by hand\n"),
        ];
        let files = files.map(|(file, text)| (file.to_string(), text.to_string()));
        let start = "rt: must-fail k/e.edit: refused, as it must be: ";
        let tried = Tried {
            krate: "k",
            source: &Source::new("k", files.into()),
            said: &Said::new(format!("{start}{}\n", lines[0])),
        };
        let programs = parse(text).unwrap();
        tried.by_first("e", &programs).unwrap_or_else(|| {
            let log = Whole::new("k", format!("{}\n{FUNCTIONS}", lines.join("\n"))).unwrap();
            let edited = tried.edited(&programs).unwrap();
            tried.by_whole(&programs, &edited, &log, &Renamed::new())
        })
    }

    fn verdict(text: &str, shown: &str) -> Judged {
        let [one] = &verdicts(text, &[shown])[..] else {
            panic!("not one wrong program: {text}");
        };
        one.clone()
    }

    fn passes(text: &str, shown: &str, left: &str) {
        assert_eq!(verdict(text, shown), Ok(format!("{left} is")));
    }

    fn refused(text: &str, shown: &str, why: &str) {
        let said = verdict(text, shown).unwrap_err();
        assert!(said.contains(why), "{said}");
    }

    #[test]
    fn a_function_is_refused_for_its_own_sake() {
        passes(ONE, OF_ONE, "fn k::one");
        passes(THREE, OF_THREE, "fn k::three");
    }

    #[test]
    fn and_not_for_that_of_another() {
        refused(ONE, OF_THREE, "not refused for its own sake");
        refused(ONE, OF_LAW, "not refused for its own sake");
        let inner = OF_ONE.replace("proofs/one/", "proofs/one/two/");
        refused(ONE, &inner, "not refused for its own sake");
    }

    #[test]
    fn nor_for_a_name_that_is_gone() {
        let name = OF_ONE.replace("the two types differ", "record `Then` has no field");
        refused(ONE, &name, "other than a fact");
    }

    #[test]
    fn but_for_a_fact_once_its_proof_has_the_new_names() {
        let answers = ("proofs/one/Answers.antt", "returns c = c.if-x.true\n");
        let files = [("src/lib.rt", CODE), answers];
        let files = files.map(|(file, text)| (file.to_string(), text.to_string()));
        let edited = Source::new("k", files.into());
        let gone = "./proofs/one/Answers.antt:1:13: error: `returns`: record `Then` has no field `if-x`\n  \
                    the fields that can be named here are `if-y`, `args`";
        let whole = |lines: &str| Whole::new("k", format!("{lines}\n{FUNCTIONS}"));
        let (log, programs) = (whole(gone).unwrap(), parse(ONE).unwrap());
        let found = renamings(&programs, &edited, &log);
        let [(path, ways)] = &found[..] else {
            panic!("not one function: {found:?}");
        };
        assert_eq!((path.as_str(), ways.len()), ("k::one", 1));
        assert_eq!(ways[0].text(answers.0), Some("returns c = c.if-y.true\n"));
        let judged = |log: Logged| {
            let tried = [(path.clone(), vec![(ways[0].clone(), log)])];
            leaves(&programs[0], &edited, &whole(gone).unwrap(), &tried.into())
        };
        let words = "fn k::one, under the names that its goals then have, is";
        assert_eq!(judged(whole(OF_ONE)), Ok(words.to_string()));
        for other in [whole(gone), whole(OF_THREE), Err("not refused".into())] {
            assert!(judged(other).unwrap_err().contains("has no field"));
        }
        assert!(renamings(&programs, &edited, &whole(OF_ONE).unwrap()).is_empty());
    }

    #[test]
    fn of_the_laws_that_are_named_one_is_shown() {
        passes(LAW, OF_LAW, "law proofs/L.antt fact");
        passes(LAW, OF_KNOWN, "law specs/T.antt known");
        let after = verdicts(LAW, &[OF_ONE, OF_KNOWN]);
        assert_eq!(after, [Ok("law specs/T.antt known is".to_string())]);
        refused(
            LAW,
            &OF_LAW.replace("fact", "other"),
            "not refused for its own sake",
        );
        refused(&LAW.replace("fact", "facts"), OF_KNOWN, "there is no law");
        refused(LAW, OF_ONE, "not refused for its own sake");
    }

    #[test]
    fn the_change_is_in_the_function_that_is_named() {
        refused(&ONE.replace("::one", "::five"), OF_ONE, "there is no fn");
        let elsewhere = ONE.replace("k::one", "k::two");
        refused(&elsewhere, OF_ONE, "changes fn k::one");
        let more = ONE.replace(
            "leaves: fn k::one",
            "leaves: fn k::one\nleaves: fn k::three",
        );
        refused(&more, OF_ONE, "names fn k::three");
    }

    #[test]
    fn each_function_that_is_changed_is_named_and_refused() {
        let both = format!("{ONE}file: src/lib.rt\nold: x + TOP\nnew: x + 0\n");
        refused(&both, OF_ONE, "changes fn k::three");
        let named = both.replace(
            "leaves: fn k::one",
            "leaves: fn k::one\nleaves: fn k::three",
        );
        refused(&named, OF_ONE, "fn k::three is not refused");
        let judged = verdicts(&named, &[OF_ONE, OF_THREE]);
        assert_eq!(judged, [Ok("each of 2 functions is".to_string())]);
        let twice = ONE.replace("leaves: fn k::one", "leaves: fn k::one\nleaves: fn k::one");
        refused(&twice, OF_ONE, "named twice");
    }

    #[test]
    fn wrong_programs_of_one_file_are_each_refused() {
        let own = |path: &str| Ok(format!("fn k::{path} is"));
        let both = format!("{ONE}{THREE}");
        let judged = verdicts(&both, &[OF_ONE, OF_THREE]);
        assert_eq!(judged, [own("one"), own("three")]);
        let one = verdicts(&both, &[OF_THREE]);
        assert!(one[0].is_err() && one[1] == own("three"));
    }

    #[test]
    fn a_caller_by_its_own_proof() {
        let both = format!("{ONE}{TWO}");
        let judged = verdicts(&both, &[OF_ONE, OF_TWO]);
        assert!(judged.iter().all(Result::is_ok));
        assert!(verdicts(&both, &[OF_ONE])[1].is_err());
    }

    #[test]
    fn but_not_where_a_contract_is_changed_too() {
        let promise = FOUR.replace("4 + x", "x + 4").replace("5 + x", "x + 5");
        let judged = verdicts(&format!("{promise}{TWO}"), &[OF_FOUR, OF_TWO]);
        assert!(judged[0].is_ok());
        assert!(
            judged[1]
                .as_ref()
                .unwrap_err()
                .contains("it calls `k::one`")
        );
    }

    #[test]
    fn nor_do_they_share_a_function_or_a_definition() {
        let again = ONE.replace("x + 1", "one(x: usize)");
        let law = format!("{THREE}{LAW}");
        for (text, why) in [
            (format!("{ONE}{again}"), "named twice"),
            (law, "shares its check"),
        ] {
            for judged in verdicts(&text, &[OF_ONE, OF_LAW]) {
                assert!(judged.unwrap_err().contains(why));
            }
        }
    }

    #[test]
    fn a_proof_by_hand_shows_nothing() {
        refused(FOUR, OF_FOUR, "by hand");
        let defined = format!("{FOUR}file: specs/S.antt\nold: yes\nnew: no\n");
        refused(&defined, OF_FOUR, "by hand");
    }

    #[test]
    fn but_a_contract_that_such_code_does_not_keep_does() {
        let promise = FOUR.replace("4 + x", "x + 4").replace("5 + x", "x + 5");
        passes(&promise, OF_FOUR, "fn k::four");
        refused(&promise, OF_ONE, "not refused for its own sake");
        let both = format!("{promise}old: 4 + x\nnew: 5 + x\n");
        refused(&both, OF_FOUR, "by hand");
    }

    #[test]
    fn a_changed_proof_shows_nothing() {
        let proof = LAW
            .replace("specs/S.antt", "proofs/four/Proof.antt")
            .replace("yes", "by hand");
        refused(&proof, OF_LAW, "changes a proof");
    }

    #[test]
    fn code_that_is_changed_beside_a_definition_is_named_too() {
        let both = format!("{LAW}file: src/lib.rt\nold: x + 1\nnew: x + 2\n");
        refused(&both, OF_LAW, "changes fn k::one");
        let named = both.replacen("leaves: law", "leaves: fn k::one\nleaves: law", 1);
        passes(&named, OF_ONE, "fn k::one");
    }

    #[test]
    fn a_change_of_code_is_in_a_function_and_names_no_law() {
        let outside = ONE.replace("x + 1", "k::other").replace("x + 2", "k::more");
        refused(&outside, OF_ONE, "in no function");
        let law = ONE.replace("file:", "leaves: law proofs/L.antt fact\nfile:");
        refused(&law, OF_ONE, "and no law");
    }

    #[test]
    fn an_edit_that_no_longer_stands_is_a_fault() {
        refused(&ONE.replace("x + 1", "x + 9"), OF_ONE, "has 0 times");
    }
}
