//! What the documents show and where they lead: README's program is an example of this crate, and
//! the links of every page have a file and a heading behind them.

use std::fs;
use std::path::{Path, PathBuf};

fn root() -> PathBuf {
    Path::new(env!("CARGO_MANIFEST_DIR")).join("../..")
}

fn read(path: &Path) -> String {
    fs::read_to_string(path).unwrap_or_else(|error| panic!("{}: {error}", path.display()))
}

#[test]
fn the_program_of_the_readme_is_the_example() {
    let root = root();
    let example = read(&root.join("host/merlontrispa/examples/cell.rs"));
    let (_, program) = example.split_once("\n\n").expect("a first line");
    let set_in = program.lines().map(|line| match line {
        "" => "\n".to_owned(),
        _ => format!("    {line}\n"),
    });
    let program: String = set_in.collect();
    assert!(read(&root.join("README.md")).contains(&program));
}

/// The targets of a page's links, those of reference links too.
fn targets(page: &str) -> Vec<&str> {
    let inline = page.split("](").skip(1);
    let inline = inline.map(|rest| rest.split(')').next().expect("a target"));
    let references = page.lines().filter(|line| line.starts_with('['));
    let references = references.filter_map(|line| Some(line.split_once("]: ")?.1));
    inline.chain(references).collect()
}

/// The anchors of a page's headings: small letters, hyphens for spaces, other signs left out.
fn anchors(page: &str) -> Vec<String> {
    let headings = page.lines().filter_map(|line| {
        let title = line.trim_start_matches('#').strip_prefix(' ')?;
        line.starts_with('#').then_some(title)
    });
    let anchors = headings.map(|title| {
        let kept = |c: &char| c.is_alphanumeric() || " -_".contains(*c);
        let title: String = title.to_lowercase().chars().filter(kept).collect();
        title.replace(' ', "-")
    });
    anchors.collect()
}

/// The labels that a page's links use, as `[Rules 3][r3]` does, and those that it defines.
fn labels(page: &str) -> (Vec<&str>, Vec<&str>) {
    let used = page.split("][").skip(1);
    let used = used.map(|rest| rest.split(']').next().expect("a label"));
    let defined = page.lines().filter_map(|line| line.strip_prefix('['));
    let defined = defined.filter_map(|line| Some(line.split_once("]: ")?.0));
    (used.collect(), defined.collect())
}

/// README and the pages of `docs`.
fn pages() -> Vec<PathBuf> {
    let folders = ["docs", "docs/proofs"].map(|folder| root().join(folder));
    let entries = folders.iter().flat_map(|folder| {
        let entries = fs::read_dir(folder);
        entries.unwrap_or_else(|error| panic!("{}: {error}", folder.display()))
    });
    let paths = entries.map(|entry| entry.expect("an entry").path());
    let pages = paths.filter(|path| path.extension().is_some_and(|kind| kind == "md"));
    pages.chain([root().join("README.md")]).collect()
}

#[test]
fn the_links_of_every_page_lead_somewhere() {
    let mut count = 0;
    for path in pages() {
        let (page, name) = (read(&path), path.display());
        let folder = path.parent().expect("a folder");
        for target in targets(&page) {
            let (file, anchor) = target.split_once('#').unwrap_or((target, ""));
            let to = match file {
                "" => path.clone(),
                _ => folder.join(file),
            };
            assert!(to.exists(), "{name}: {target}");
            let known = anchor.is_empty() || anchors(&read(&to)).iter().any(|a| a == anchor);
            assert!(known, "{name}: {target}");
            count += 1;
        }
        let (used, defined) = labels(&page);
        let unknown = used.iter().find(|label| !defined.contains(label));
        assert_eq!(unknown, None, "{name}");
        // A link may have its label alone, as `[mesh]`.
        let count = |text: String| page.matches(&text).count();
        let once = |label: &&&str| count(format!("[{label}]")) == 1;
        assert_eq!(defined.iter().find(once), None, "{name}");
    }
    assert!(count > 400, "{count} links");
}
