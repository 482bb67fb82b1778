//! Finds the original's sources: in the folder that LARNT_SRC names, else in ../shared/docs/src beside
//! the repository. Where they are, `cfg(larnt)` is set, and OUT_DIR has what names their files, and
//! the edited copies of some of them (edits.rs).

mod edits;

use edits::{Edit, GIVEN, LENT, TOLERANT, edited};
use std::env;
use std::fs;
use std::path::{Path, PathBuf};

const FILES: [&str; 4] = ["parametric.rs", "path.rs", "util.rs", "vector.rs"];

fn main() {
    println!("cargo::rustc-check-cfg=cfg(larnt)");
    println!("cargo::rerun-if-env-changed=LARNT_SRC");
    let beside = Path::new(env!("CARGO_MANIFEST_DIR")).join("../../../shared/docs/src");
    let sources = env::var_os("LARNT_SRC").map_or(beside, PathBuf::from);
    for file in FILES {
        println!("cargo::rerun-if-changed={}", sources.join(file).display());
    }
    let Ok(sources) = sources.canonicalize() else {
        return;
    };
    if FILES.iter().any(|file| !sources.join(file).is_file()) {
        return;
    }
    println!("cargo::rustc-cfg=larnt");
    println!("cargo::metadata=present=1");
    let out = PathBuf::from(env::var_os("OUT_DIR").expect("cargo sets OUT_DIR"));
    if let Err(fault) = provide(&sources, &out) {
        println!("cargo::error={fault}");
    }
}

/// Writes what the crate includes: the unchanged files by their paths, and the copies.
fn provide(sources: &Path, out: &Path) -> Result<(), String> {
    let unchanged = ["path", "util", "vector"].map(|name| module(name, sources));
    write(&out.join("larnt.rs"), &unchanged.concat())?;
    let parametric = sources.join("parametric.rs");
    write(
        &out.join("parametric.rs"),
        &format!("include!({parametric:?});\n"),
    )?;
    copy(sources, "parametric.rs", &LENT, &out.join("lent"))?;
    copy(sources, "parametric.rs", &GIVEN, &out.join("given"))?;
    let tolerant = out.join("tolerant");
    copy(sources, "parametric.rs", &TOLERANT, &tolerant)?;
    copy(sources, "vector.rs", &TOLERANT, &tolerant)?;
    write(&out.join("tolerant.rs"), &module("vector", &tolerant))
}

/// A file of a folder that is a module of its own.
fn module(name: &str, folder: &Path) -> String {
    let file = folder.join(name).with_extension("rs");
    format!(
        "#[allow(clippy::all, dead_code, missing_docs, unexpected_cfgs, unused_imports)]\n\
         #[path = {file:?}]\nmod {name};\n"
    )
}

/// Writes an edited copy of a source to a folder.
fn copy(sources: &Path, file: &str, edits: &[Edit], folder: &Path) -> Result<(), String> {
    let source = sources.join(file);
    let text = fs::read_to_string(&source);
    let text = text.map_err(|fault| format!("{}: {fault}", source.display()))?;
    fs::create_dir_all(folder).map_err(|fault| format!("{}: {fault}", folder.display()))?;
    write(&folder.join(file), &edited(file, text, edits)?)
}

fn write(file: &Path, text: &str) -> Result<(), String> {
    fs::write(file, text).map_err(|fault| format!("{}: {fault}", file.display()))
}
