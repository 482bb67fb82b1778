//! Checks of the crate with a file's changes, in copies of the repository among the temporary files.
//!
//! A copy has the texts of every crate and, from `out/`, the libraries that checks of the repository
//! built; of the crate that is tried it has in a try also what its own check kept, so that only what
//! changed is proved again. The copies of a run that was killed are removed by the next one.

use std::collections::hash_map::DefaultHasher;
use std::collections::{BTreeMap, BTreeSet};
use std::ffi::OsStr;
use std::fs::{self, File};
use std::hash::{Hash, Hasher};
use std::io;
use std::num::NonZero;
use std::path::{Path, PathBuf};
use std::process::{Command, Output, Stdio};
use std::sync::atomic::{AtomicUsize, Ordering};
use std::sync::{Mutex, PoisonError};
use std::thread;

use crate::log::Whole;
use crate::source::Source;

/// A crate as a file changes it.
pub struct Job<'a> {
    pub krate: &'a str,
    pub edited: &'a Source,
}

/// What a check said, or why nothing is known of it.
pub type Logged = Result<Whole, String>;

/// Has `rt` build the libraries below the crates of the jobs as they stand, and keep what it proves.
pub fn as_they_stand(root: &Path, jobs: &[Job]) -> Result<(), String> {
    let listed = fs::read_to_string(root.join("crates.txt")).map_err(|fault| fault.to_string())?;
    for krate in tops(&uses(&listed), jobs) {
        let ran = rt(&root.join("crates").join(krate), &["check"])?;
        if !ran.status.success() {
            let said = last(&ran);
            return Err(format!("{krate} is not proved as it stands: {said}"));
        }
    }
    Ok(())
}

/// What each check said, in the order of the jobs.
pub fn all(root: &Path, jobs: &[Job]) -> Result<Vec<Logged>, String> {
    if jobs.is_empty() {
        return Ok(Vec::new());
    }
    let rooms = Rooms::new(root).map_err(|fault| fault.to_string())?;
    let (next, found) = (AtomicUsize::new(0), Mutex::new(Vec::new()));
    thread::scope(|scope| {
        for number in 0..at_once().min(jobs.len()) {
            let (rooms, next, found) = (&rooms, &next, &found);
            scope.spawn(move || work(&rooms.one(number), root, jobs, next, found));
        }
    });
    let mut found = found.into_inner().unwrap_or_else(PoisonError::into_inner);
    found.sort_by_key(|(at, _)| *at);
    Ok(found.into_iter().map(|(_, logged)| logged).collect())
}

/// How many checks run side by side: as many as there are processors, where memory allows.
fn at_once() -> usize {
    let processors = thread::available_parallelism().map_or(1, NonZero::get);
    let told = fs::read_to_string("/proc/meminfo").unwrap_or_default();
    let mut lines = told.lines();
    let free = lines.find_map(|line| line.strip_prefix("MemAvailable:"));
    let free = free.and_then(|free| free.split_whitespace().next()?.parse::<usize>().ok());
    let fits = free.map_or(processors, |free| free / OF_ONE);
    processors.min(fits).max(1)
}

/// The kB that the check of a large crate takes.
const OF_ONE: usize = 2_000_000;

/// Does the next of the jobs while there is one.
fn work(
    room: &Path,
    root: &Path,
    jobs: &[Job],
    next: &AtomicUsize,
    found: &Mutex<Vec<(usize, Logged)>>,
) {
    let whole = copy(root, room).map_err(|fault| format!("{}: {fault}", room.display()));
    loop {
        let at = next.fetch_add(1, Ordering::Relaxed);
        let Some(job) = jobs.get(at) else {
            return;
        };
        let logged = whole.clone().and_then(|()| one(room, root, job));
        let mut found = found.lock().unwrap_or_else(PoisonError::into_inner);
        found.push((at, logged));
    }
}

/// By its name what each crate of a `crates.txt` uses.
fn uses(listed: &str) -> BTreeMap<&str, Vec<&str>> {
    let rows = listed.lines().filter_map(|line| {
        let (head, used) = line.split('#').next()?.split_once(':')?;
        Some((
            head.split_whitespace().next()?,
            used.split_whitespace().collect(),
        ))
    });
    rows.collect()
}

/// The crates of the jobs that no other one of them stands on.
fn tops<'a>(uses: &BTreeMap<&str, Vec<&str>>, jobs: &[Job<'a>]) -> Vec<&'a str> {
    let wanted: BTreeSet<&str> = jobs.iter().map(|job| job.krate).collect();
    let mut below = BTreeSet::new();
    let mut open: Vec<&str> = wanted.iter().copied().collect();
    while let Some(krate) = open.pop() {
        let used = uses.get(krate).into_iter().flatten();
        open.extend(used.filter(|used| below.insert(**used)));
    }
    wanted
        .into_iter()
        .filter(|krate| !below.contains(krate))
        .collect()
}

/// What a check of a crate with its changes says. The copy then has the crate as it stands again,
/// for those above it.
fn one(room: &Path, root: &Path, job: &Job) -> Logged {
    let inner = Path::new("crates").join(job.krate);
    let (folder, own) = (room.join(&inner), root.join(&inner));
    let fault = |fault: io::Error| format!("{}: {fault}", folder.display());
    edited(&folder, job.edited, &own).map_err(fault)?;
    let logged = checked(job.krate, &folder);
    as_before(&folder, &own).map_err(fault)?;
    logged
}

/// What a check says. One that was killed, for memory say, is done again.
fn checked(krate: &str, folder: &Path) -> Logged {
    let words = ["check", "--jobs", "1"];
    let mut ran = rt(folder, &words)?;
    if !matches!(ran.status.code(), Some(0 | 1)) {
        ran = rt(folder, &words)?;
    }
    let said = String::from_utf8_lossy(&ran.stdout).into_owned();
    match ran.status.code() {
        Some(0) => Err("the crate is still proved".to_string()),
        Some(1) => Whole::new(krate, said).map_err(|why| format!("{why}: {}", last(&ran))),
        _ => Err(format!(
            "its check ended with {}: {}",
            ran.status,
            last(&ran)
        )),
    }
}

fn rt(folder: &Path, words: &[&str]) -> Result<Output, String> {
    let mut command = Command::new("rt");
    let ran = command.args(words).current_dir(folder).stdin(Stdio::null());
    ran.output().map_err(|fault| format!("rt: {fault}"))
}

/// The last line that a command printed.
fn last(ran: &Output) -> String {
    let said = match ran.stderr.is_empty() {
        true => &ran.stdout,
        false => &ran.stderr,
    };
    let said = String::from_utf8_lossy(said);
    said.lines().last().unwrap_or_default().to_string()
}

/// The files of a crate that a check reads.
const PARTS: [&str; 3] = ["src", "specs", "proofs"];

/// What a check of a crate keeps.
const KEPT: &str = "out/incremental";

/// Gives the copy of a crate these texts, and what a check of the crate as it stands kept.
fn edited(folder: &Path, source: &Source, own: &Path) -> io::Result<()> {
    for part in PARTS {
        remove(&folder.join(part))?;
    }
    for (file, text) in source.files() {
        let file = folder.join(file);
        fs::create_dir_all(file.parent().unwrap_or(folder))?;
        fs::write(file, text)?;
    }
    remove(&folder.join(KEPT))?;
    tree(&own.join(KEPT), &folder.join(KEPT))
}

/// Gives the copy of a crate its texts as they stand.
fn as_before(folder: &Path, own: &Path) -> io::Result<()> {
    remove(&folder.join(KEPT))?;
    for part in PARTS {
        remove(&folder.join(part))?;
        tree(&own.join(part), &folder.join(part))?;
    }
    Ok(())
}

/// Copies of the repository, which one run at a time has and removes at its end.
struct Rooms {
    folder: PathBuf,
    _lock: File,
}

impl Rooms {
    fn new(root: &Path) -> io::Result<Rooms> {
        let mut hasher = DefaultHasher::new();
        root.canonicalize()?.hash(&mut hasher);
        let name = format!("edits-{:016x}", hasher.finish());
        let folder = std::env::temp_dir().join(name);
        let lock = File::create(folder.with_extension("lock"))?;
        lock.lock()?;
        remove(&folder)?;
        Ok(Rooms {
            folder,
            _lock: lock,
        })
    }

    fn one(&self, number: usize) -> PathBuf {
        self.folder.join(number.to_string())
    }
}

impl Drop for Rooms {
    fn drop(&mut self) {
        let _ = remove(&self.folder);
    }
}

/// Copies what a check of a crate reads of the repository.
fn copy(root: &Path, room: &Path) -> io::Result<()> {
    fs::create_dir_all(room)?;
    for name in ["crates.txt", "HANDLES"] {
        tree(&root.join(name), &room.join(name))?;
    }
    for entry in fs::read_dir(root.join("crates"))? {
        let entry = entry?;
        let to = room.join("crates").join(entry.file_name());
        for part in PARTS.into_iter().chain(["out/rlib"]) {
            tree(&entry.path().join(part), &to.join(part))?;
        }
    }
    Ok(())
}

/// Copies a file or a folder with all that is in it, where it is there. Of a library, whose files
/// `rt` removes before it makes them anew, a file gets a second name where that can be.
fn tree(from: &Path, to: &Path) -> io::Result<()> {
    if from.is_dir() {
        fs::create_dir_all(to)?;
        for entry in fs::read_dir(from)? {
            let name = entry?.file_name();
            tree(&from.join(&name), &to.join(&name))?;
        }
    } else if from.is_file() {
        let is_built = from.iter().any(|part| part == OsStr::new("rlib"));
        if !is_built || fs::hard_link(from, to).is_err() {
            fs::copy(from, to)?;
        }
    }
    Ok(())
}

/// Removes a folder, if it is there.
fn remove(folder: &Path) -> io::Result<()> {
    match fs::remove_dir_all(folder) {
        Err(fault) if fault.kind() != io::ErrorKind::NotFound => Err(fault),
        _ => Ok(()),
    }
}

#[cfg(test)]
mod tests {
    use super::*;

    #[test]
    fn the_libraries_below_the_crates_that_are_tried_are_built() {
        let listed = "# lowest first\na:   # laws\nb: a\nc staticlib: b   # the top\nd: a\n";
        let uses = uses(listed);
        assert_eq!(uses["c"], ["b"]);
        let edited = &Source::default();
        let jobs = ["a", "b", "c", "d"].map(|krate| Job { krate, edited });
        assert_eq!(tops(&uses, &jobs), ["c", "d"]);
        assert_eq!(tops(&uses, &jobs[..2]), ["b"]);
    }

    #[test]
    fn a_copy_has_what_a_check_reads() {
        let folder = std::env::temp_dir().join(format!("edits-copy-{}", std::process::id()));
        let (root, room) = (folder.join("root"), folder.join("room"));
        let write = |file: &str| {
            let file = root.join(file);
            fs::create_dir_all(file.parent().unwrap()).unwrap();
            fs::write(file, "old").unwrap();
        };
        for file in ["src/lib.rt", "out/rlib/k.rlib/format", "must-fail/one.edit"] {
            write(&format!("crates/k/{file}"));
        }
        write("crates/k/out/incremental/kept");
        write("crates.txt");
        copy(&root, &room).unwrap();
        let (own, k) = (root.join("crates/k"), room.join("crates/k"));
        let source = Source::new("k", [("src/other.rt".into(), "new".into())].into());
        let there = || {
            let files = ["src/lib.rt", "src/other.rt", KEPT, "out/rlib/k.rlib/format"];
            files.map(|file| k.join(file).exists())
        };
        let before = there();
        edited(&k, &source, &own).unwrap();
        let during = there();
        as_before(&k, &own).unwrap();
        let after = there();
        let left_out = k.join("must-fail").exists();
        fs::remove_dir_all(&folder).unwrap();
        assert_eq!(before, [true, false, false, true]);
        assert_eq!(during, [false, true, true, true]);
        assert!(after == before && !left_out);
    }
}
