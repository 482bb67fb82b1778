//! Holds each wrong program of `crates/NAME/must-fail` to what it must leave unproved.
//!
//!     edits SAID [CRATE..]
//!
//! SAID is a file with what `rt ci` or `rt must-fail` printed, in the repository and as it stands.
//! `rt` has seen to it that each `.edit` file is refused, and prints of each check the first
//! refusal. This program fails unless what each wrong program names is refused for its own sake:
//! its own proof does not show a fact that it needs, and it is not refused for a callee's sake or
//! for a name that is gone. Where the first refusal does not tell that, it has `rt check` say all
//! of it, in copies of the repository. `edit.rs` has the form of a file, `log.rs` the words of
//! `rt`, `judge.rs` the rules, `check.rs` the copies.

mod check;
mod edit;
mod judge;
mod log;
mod names;
mod source;

use std::collections::{BTreeMap, BTreeSet};
use std::fs;
use std::path::{Path, PathBuf};
use std::process::ExitCode;

use check::{Job, Logged};
use edit::Wrong;
use judge::{Judged, Renamed, Tried};
use log::Said;
use source::Source;

/// A file of wrong programs of a crate, as far as it is judged.
struct Tries<'a> {
    tried: Tried<'a>,
    name: String,
    state: State,
}

enum State {
    /// The name of each wrong program, and the verdict on it.
    Settled(Vec<(String, Judged)>),
    /// The wrong programs, and the crate with all their changes, whose check decides.
    Open(Vec<Wrong>, Source),
}

impl Tries<'_> {
    /// The crate, the wrong programs and the crate with their changes, where a check decides.
    fn open(&self) -> Option<Open<'_>> {
        match &self.state {
            State::Settled(_) => None,
            State::Open(programs, edited) => Some((self.tried.krate, programs, edited)),
        }
    }
}

fn main() -> ExitCode {
    match run(std::env::args().skip(1).collect()) {
        Ok(0) => ExitCode::SUCCESS,
        Ok(_) => ExitCode::FAILURE,
        Err(why) => {
            eprintln!("edits: {why}");
            ExitCode::from(2)
        }
    }
}

/// Judges the named crates, or all, and hands back how many wrong programs failed.
fn run(words: Vec<String>) -> Result<usize, String> {
    let (said, wanted) = words.split_first().ok_or("usage: edits SAID [CRATE..]")?;
    let said = Said::new(read(Path::new(said))?);
    let root = root()?;
    let (mut passed, mut failed) = (0, 0);
    for (krate, name, verdict) in judge(&root, &crates(&root, wanted)?, &said)? {
        match verdict {
            Ok(own) => {
                passed += 1;
                println!("{krate}/{name}: {own} refused for its own sake");
            }
            Err(why) => {
                failed += 1;
                println!("{krate}/{name}: FAULT: {why}");
            }
        }
    }
    println!("edits: {passed} passed, {failed} failed");
    Ok(failed)
}

/// The crate and the name of each wrong program, and the verdict on it.
fn judge(
    root: &Path,
    crates: &[String],
    said: &Said,
) -> Result<Vec<(String, String, Judged)>, String> {
    let sources: Vec<Source> = crates
        .iter()
        .map(|krate| Ok(Source::new(krate, files(&root.join("crates").join(krate))?)))
        .collect::<Result<_, String>>()?;
    let mut tries = Vec::new();
    for (krate, source) in crates.iter().zip(&sources) {
        let tried = Tried {
            krate,
            source,
            said,
        };
        tries.extend(by_first(root, tried)?);
    }
    let checked = checked(root, &tries)?.into_iter();
    let mut verdicts = Vec::new();
    for (file, checked) in tries.into_iter().zip(checked) {
        let krate = file.tried.krate.to_string();
        let judged = verdicts_of(file, checked).into_iter();
        verdicts.extend(judged.map(|(name, verdict)| (krate.clone(), name, verdict)));
    }
    Ok(verdicts)
}

/// A file that a check decides: the crate, the wrong programs, and the crate with their changes.
type Open<'a> = (&'a str, &'a [Wrong], &'a Source);

/// What the checks say of each file that is open.
fn checked(root: &Path, tries: &[Tries]) -> Result<Vec<Option<(Logged, Renamed)>>, String> {
    let open: Vec<Option<Open>> = tries.iter().map(Tries::open).collect();
    let job = |(krate, _, edited)| Job { krate, edited };
    let jobs: Vec<Job> = open.iter().flatten().copied().map(job).collect();
    check::as_they_stand(root, &jobs)?;
    let mut logs = check::all(root, &jobs)?.into_iter();
    let mut next = |open: &Option<Open>| open.and_then(|_| logs.next());
    let logs: Vec<Option<Logged>> = open.iter().map(&mut next).collect();
    let renamed = checked_again(root, &open, &logs)?;
    let both = logs.into_iter().zip(renamed);
    let both = both.map(|(log, renamed)| log.map(|log| (log, renamed)));
    Ok(both.collect())
}

/// What the checks say of the functions of each file whose proofs have names that its changes have
/// made away with, with the new names in their place.
fn checked_again(
    root: &Path,
    open: &[Option<Open>],
    logs: &[Option<Logged>],
) -> Result<Vec<Renamed>, String> {
    let mut ways = Vec::new();
    for (at, both) in open.iter().zip(logs).enumerate() {
        let (Some((krate, programs, edited)), Some(Ok(log))) = both else {
            continue;
        };
        for (path, found) in judge::renamings(programs, edited, log) {
            let each = found.into_iter().map(|way| (at, *krate, path.clone(), way));
            ways.extend(each);
        }
    }
    let job = ways
        .iter()
        .map(|(_, krate, _, edited)| Job { krate, edited });
    let logs = check::all(root, &job.collect::<Vec<_>>())?;
    let mut renamed = vec![Renamed::new(); open.len()];
    for ((at, _, path, way), log) in ways.into_iter().zip(logs) {
        renamed[at].entry(path).or_default().push((way, log));
    }
    Ok(renamed)
}

/// The verdicts on a file, of which checks say that where it is open.
fn verdicts_of(file: Tries, checked: Option<(Logged, Renamed)>) -> Vec<(String, Judged)> {
    let Tries { tried, name, state } = file;
    let (programs, edited) = match state {
        State::Settled(judged) => return judged,
        State::Open(programs, edited) => (programs, edited),
    };
    let judged = match checked {
        Some((Ok(log), renamed)) => tried.by_whole(&programs, &edited, &log, &renamed),
        Some((Err(why), _)) => vec![Err(why); programs.len()],
        None => vec![Err("not checked".to_string()); programs.len()],
    };
    named(&name, &programs, judged)
}

/// The names of wrong programs with the verdicts on them; a fault begins with the file's name.
fn named(name: &str, programs: &[Wrong], judged: Vec<Judged>) -> Vec<(String, Judged)> {
    let names = programs.iter().map(|wrong| wrong.name.clone());
    let judged = judged
        .into_iter()
        .map(|verdict| verdict.map_err(|why| format!("{name}: {why}")));
    names.zip(judged).collect()
}

fn root() -> Result<PathBuf, String> {
    let here = std::env::current_dir().map_err(|fault| fault.to_string())?;
    let found = here
        .ancestors()
        .find(|folder| folder.join("crates.txt").is_file());
    found
        .map(Path::to_path_buf)
        .ok_or_else(|| "no crates.txt in this folder or above it".to_string())
}

fn crates(root: &Path, wanted: &[String]) -> Result<Vec<String>, String> {
    let all = names(&root.join("crates"))?;
    if wanted.is_empty() {
        return Ok(all);
    }
    match wanted.iter().find(|name| !all.contains(name)) {
        Some(name) => Err(format!("no crate {name}")),
        None => Ok(wanted.to_vec()),
    }
}

/// Each file of wrong programs of a crate, as far as what `rt` showed of it judges it.
fn by_first<'a>(root: &Path, tried: Tried<'a>) -> Result<Vec<Tries<'a>>, String> {
    let edits = root.join("crates").join(tried.krate).join("must-fail");
    if !edits.is_dir() {
        return Ok(Vec::new());
    }
    let mut seen = BTreeSet::new();
    let files = names(&edits)?.into_iter().map(|name| {
        let state = state(tried, &edits.join(&name), &name, &mut seen)
            .unwrap_or_else(|why| State::Settled(vec![(name.clone(), Err(why))]));
        Tries { tried, name, state }
    });
    Ok(files.collect())
}

/// How far a file is judged by what `rt` showed of it. The name of a wrong program is not among
/// those of the crate that were seen, but where another function is left unproved.
fn state(
    tried: Tried,
    file: &Path,
    name: &str,
    seen: &mut BTreeSet<(String, String)>,
) -> Result<State, String> {
    let label = name
        .strip_suffix(".edit")
        .ok_or("no name of an edit: it ends in `.edit`")?;
    let programs = edit::parse(&read(file)?)?;
    let first = |wrong: &Wrong| (wrong.name.clone(), wrong.leaves[0].to_string());
    if let Some(taken) = programs.iter().find(|wrong| !seen.insert(first(wrong))) {
        return Err(format!("the name {} is taken", taken.name));
    }
    if let Some(judged) = tried.by_first(label, &programs) {
        return Ok(State::Settled(named(name, &programs, judged)));
    }
    let edited = tried.edited(&programs)?;
    Ok(State::Open(programs, edited))
}

/// The files of src/, specs/ and proofs/ below a folder.
fn files(folder: &Path) -> Result<BTreeMap<String, String>, String> {
    let mut found = BTreeMap::new();
    let mut open: Vec<String> = ["src", "specs", "proofs"].map(String::from).into();
    while let Some(name) = open.pop() {
        let path = folder.join(&name);
        if path.is_dir() {
            open.extend(names(&path)?.iter().map(|inner| format!("{name}/{inner}")));
        } else if path.is_file() {
            found.insert(name, read(&path)?);
        }
    }
    Ok(found)
}

/// The names in a folder, in order.
fn names(folder: &Path) -> Result<Vec<String>, String> {
    let fault = |fault: std::io::Error| format!("{}: {fault}", folder.display());
    let mut found = Vec::new();
    for entry in fs::read_dir(folder).map_err(fault)? {
        found.push(
            entry
                .map_err(fault)?
                .file_name()
                .to_string_lossy()
                .into_owned(),
        );
    }
    found.sort();
    Ok(found)
}

fn read(path: &Path) -> Result<String, String> {
    fs::read_to_string(path).map_err(|fault| format!("{}: {fault}", path.display()))
}

#[cfg(test)]
mod tests {
    use super::*;

    const TEXT: &str = "wrong: w\nleaves: fn k::f\nfile: src/lib.rt\nold: true\nnew: false\n";
    const OPEN: &str = "note: src/lib.rt:1:1: it is not proved that it holds (`returns`)";

    /// The verdicts on files with these texts, named one, two and so on as far as they go, of all
    /// of which `rt` shows the same, as does a check of those that this does not settle.
    fn verdicts(folder: &str, texts: &[&str]) -> Vec<Judged> {
        let root = std::env::temp_dir().join(format!("edits-{}-{folder}", std::process::id()));
        let edits = root.join("crates/k/must-fail");
        fs::create_dir_all(&edits).unwrap();
        fs::create_dir_all(root.join("crates/k/src")).unwrap();
        let code = "fn f() -> bool {\n    true\n}\n\nfn g() {}\n";
        fs::write(root.join("crates/k/src/lib.rt"), code).unwrap();
        let mut text = String::new();
        for (edit, name) in texts.iter().zip(["one", "two"]) {
            fs::write(edits.join(format!("{name}.edit")), edit).unwrap();
            text += &format!("rt: must-fail k/{name}.edit: refused, as it must be: {OPEN}\n");
        }
        fs::write(edits.join("three.md"), "").unwrap();
        let (said, source) = (Said::new(text), files(&root.join("crates/k")).unwrap());
        let tried = Tried {
            krate: "k",
            source: &Source::new("k", source),
            said: &said,
        };
        let tries = by_first(&root, tried).unwrap();
        fs::remove_dir_all(&root).unwrap();
        let log =
            format!("{OPEN}\nfn k::f: not proved\ncrate k: modules loaded=2\nlogic=not-proved\n");
        let log = || Some((log::Whole::new("k", log.clone()), Renamed::new()));
        let judged = tries.into_iter().flat_map(|file| verdicts_of(file, log()));
        judged.map(|(_, verdict)| verdict).collect()
    }

    #[test]
    fn each_file_is_judged() {
        let judged = verdicts("each", &[TEXT]);
        assert_eq!(judged[0], Ok("fn k::f is".to_string()));
        assert!(judged[1].is_err() && judged.len() == 2);
    }

    #[test]
    fn so_is_each_wrong_program_of_a_file() {
        let second = TEXT.replace("wrong: w", "wrong: v").replace("k::f", "k::g");
        let second = second.replace("true", "g() {").replace("false", "g() { ");
        let judged = verdicts("several", &[&format!("{TEXT}{second}")]);
        assert_eq!(judged[0], Ok("fn k::f is".to_string()));
        let fault = "one.edit: the check has no line of fn k::g".to_string();
        assert_eq!(judged[1], Err(fault));
    }

    #[test]
    fn a_name_counts_once() {
        let taken = Err("the name w is taken".to_string());
        assert_eq!(verdicts("once", &[TEXT, TEXT])[2], taken);
        let other = TEXT.replace("k::f", "k::g").replace("true", "g() {");
        assert_ne!(verdicts("other", &[TEXT, &other])[2], taken);
    }
}
