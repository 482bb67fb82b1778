//! The pages on the proofs name every wrong program that is tried.

use std::fs;
use std::path::{Path, PathBuf};

fn root() -> PathBuf {
    Path::new(env!("CARGO_MANIFEST_DIR")).join("../..")
}

fn read(path: &Path) -> String {
    fs::read_to_string(path).unwrap_or_else(|error| panic!("{}: {error}", path.display()))
}

fn inside(folder: &Path) -> Vec<PathBuf> {
    let entries = fs::read_dir(folder);
    let entries = entries.unwrap_or_else(|error| panic!("{}: {error}", folder.display()));
    entries.map(|entry| entry.unwrap().path()).collect()
}

/// The names of the wrong programs of a crate.
fn wrong_programs(folder: &Path) -> Vec<String> {
    let edits = folder.join("must-fail");
    if !edits.exists() {
        return Vec::new();
    }
    let text: String = inside(&edits).iter().map(|file| read(file)).collect();
    let names = text.lines().filter_map(|line| line.strip_prefix("wrong: "));
    names.map(str::to_owned).collect()
}

/// On the page of its crate, or where the crate has none on any.
#[test]
fn every_wrong_program_is_named() {
    let proofs = root().join("docs/proofs");
    let pages: String = inside(&proofs).iter().map(|page| read(page)).collect();
    let pages = pages + &read(&root().join("docs/PROOFS.md"));
    let mut count = 0;
    for folder in inside(&root().join("crates")) {
        let name = folder.file_name().expect("a crate's name");
        let own = proofs.join(name).with_extension("md");
        let own = own.exists().then(|| read(&own));
        let page = own.as_ref().unwrap_or(&pages);
        for wrong in wrong_programs(&folder) {
            let named = page.contains(&format!("`{wrong}`"));
            assert!(named, "no page of {} has {wrong}", name.display());
            count += 1;
        }
    }
    assert!(count > 100, "{count} wrong programs");
}
