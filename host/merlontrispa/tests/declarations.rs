//! The three places that declare the C boundary agree: `crates`, from which the library is built,
//! `include/merlontrispa.h`, and this crate's `src`. All are brought to Rust's words: a slice is its
//! pointer and its length, and `mt_index_answer` is `IndexAnswer`. So do the places that list the
//! refusals.

use merlontrispa::Refusal;
use std::collections::BTreeSet;
use std::fs;
use std::path::{Path, PathBuf};

/// Functions with their parameters, and `#[repr(C)]` structs with their fields.
type Declarations = BTreeSet<String>;

fn root() -> PathBuf {
    Path::new(env!("CARGO_MANIFEST_DIR")).join("../..")
}

fn read(path: impl AsRef<Path>) -> String {
    let path = root().join(path);
    fs::read_to_string(&path).unwrap_or_else(|error| panic!("{}: {error}", path.display()))
}

/// The text of all files below a folder whose names end so.
fn sources(folder: &Path, extension: &str) -> String {
    let entries = fs::read_dir(folder).expect("a folder of the repository");
    let paths = entries.map(|entry| entry.expect("an entry").path());
    paths
        .map(|path| match path.extension() {
            _ if path.is_dir() => sources(&path, extension),
            Some(found) if found == extension => read(path),
            _ => String::new(),
        })
        .collect()
}

/// A text without the parts from an opening to the closing after it.
fn without(text: &str, opening: &str, closing: &str) -> String {
    let mut parts = text.split(opening);
    let first = parts.next().unwrap_or_default().to_owned();
    parts.fold(first, |kept, part| {
        kept + " " + part.split_once(closing).map_or("", |(_, rest)| rest)
    })
}

/// What stands between the first opening and the closing after it, and what comes after that.
fn between(text: &str, opening: char, closing: char) -> (&str, &str) {
    let (_, rest) = text.split_once(opening).expect("an opening");
    rest.split_once(closing).expect("a closing")
}

/// The items of a list, each with single spaces, the empty one after the last separator left out.
fn items(list: &str, separator: char) -> Vec<String> {
    let items = list.split(separator);
    let items = items.map(|item| item.split_whitespace().collect::<Vec<_>>().join(" "));
    items.filter(|item| !item.is_empty()).collect()
}

/// The declarations of a text in Rust or Rattle.
fn rust(text: &str) -> Declarations {
    let text = &without(text, "//", "\n");
    let functions = text.split("fn mt_").skip(1).map(|rest| {
        let (name, _) = rest.split_once('(').expect("parameters");
        let (parameters, rest) = between(rest, '(', ')');
        let parameters: Vec<_> = items(parameters, ',').iter().map(|p| lent(p)).collect();
        let answer = rest.trim_start().strip_prefix("->").expect("an answer");
        let answer = answer.trim_start();
        let end = answer.find(|c: char| !c.is_alphanumeric());
        let answer = &answer[..end.unwrap_or(answer.len())];
        format!("mt_{name}({}) -> {answer}", parameters.join(", "))
    });
    let structs = text.split("#[repr(C)]").skip(1).map(|rest| {
        let (_, rest) = rest.split_once("struct ").expect("a struct");
        let name = rest.split_whitespace().next().expect("a name");
        let fields = items(between(rest, '{', '}').0, ',');
        let fields = fields.iter().map(|field| field.trim_start_matches("pub "));
        format!("{name} {{ {} }}", fields.collect::<Vec<_>>().join(", "))
    });
    functions.chain(structs).collect()
}

/// A parameter, a slice as its pointer and its length.
fn lent(parameter: &str) -> String {
    let (name, kind) = parameter.split_once(": ").expect("a name and a type");
    let slice = |opening| kind.strip_prefix(opening)?.strip_suffix(']');
    match (slice("&["), slice("&mut [")) {
        (Some(element), _) => format!("{name}: *const {element}, {name}_len: usize"),
        (_, Some(element)) => format!("{name}: *mut {element}, {name}_len: usize"),
        _ => parameter.to_owned(),
    }
}

/// The declarations of a header.
fn c(header: &str) -> Declarations {
    let header = without(&without(header, "/*", "*/"), "#", "\n");
    let statements = header.split(';').filter(|text| text.contains('('));
    let functions = statements.map(|statement| {
        let (parameters, _) = between(statement, '(', ')');
        let declared = statement.split('(').next().expect("a name");
        // What comes before, as the end of a struct, is no part of the declaration.
        let words: Vec<_> = declared.split_whitespace().collect();
        let [.., answer, name] = words[..] else {
            panic!("{statement}")
        };
        let parameters: Vec<_> = items(parameters, ',').iter().map(|p| field(p)).collect();
        format!("{name}({}) -> {}", parameters.join(", "), kind(answer))
    });
    let structs = header.split("typedef struct ").skip(1).map(|rest| {
        let name = rest.split_whitespace().next().expect("a name");
        let (fields, rest) = between(rest, '{', '}');
        assert!(rest.trim_start().starts_with(&format!("{name};")), "{name}");
        let fields: Vec<_> = items(fields, ';').iter().map(|f| field(f)).collect();
        format!("{} {{ {} }}", kind(name), fields.join(", "))
    });
    functions.chain(structs).collect()
}

/// A parameter or a field of C.
fn field(declared: &str) -> String {
    let (before, name) = declared.rsplit_once(' ').expect("a type and a name");
    match (name.strip_prefix('*'), before.strip_prefix("const ")) {
        (Some(name), Some(element)) => format!("{name}: *const {}", kind(element)),
        (Some(name), None) => format!("{name}: *mut {}", kind(before)),
        (None, _) => format!("{name}: {}", kind(before)),
    }
}

/// A type of C.
fn kind(name: &str) -> String {
    let number = match name {
        "double" => "f64",
        "size_t" => "usize",
        "uint8_t" => "u8",
        "uint64_t" => "u64",
        "int32_t" => "i32",
        "int64_t" => "i64",
        "bool" => "bool",
        _ => return capitals(name.strip_prefix("mt_").expect("a type of the library")),
    };
    number.to_owned()
}

/// `index_answer` as `IndexAnswer`.
fn capitals(name: &str) -> String {
    let words = name.split('_').map(|word| {
        let (first, rest) = word.split_at(1);
        first.to_uppercase() + &rest.to_lowercase()
    });
    words.collect()
}

/// The library's own declarations, which there must be.
fn exports() -> Declarations {
    let declarations = rust(&sources(&root().join("crates"), "rt"));
    let trace = "mt_trace_flat(grid: *const f64, grid_len: usize, m: usize, n: usize, ";
    assert!(declarations.iter().any(|text| text.starts_with(trace)));
    assert!(declarations.contains("Part { offset: usize, length: usize }"));
    declarations
}

#[track_caller]
fn assert_same(ours: &Declarations, theirs: &Declarations) {
    let different: Vec<_> = ours.symmetric_difference(theirs).collect();
    assert!(different.is_empty(), "on one side only: {different:#?}");
}

#[test]
fn the_header_declares_what_the_library_exports() {
    assert_same(&c(&read("include/merlontrispa.h")), &exports());
}

#[test]
fn this_crate_declares_what_the_library_exports() {
    let ours = Path::new(env!("CARGO_MANIFEST_DIR")).join("src");
    assert_same(&rust(&sources(&ours, "rs")), &exports());
}

/// Letters, digits and the signs that C writes as Rust does, so that only the typography may differ.
fn plain(sentence: &str) -> String {
    let sentence = sentence.replace('±', "+-").to_lowercase();
    let kept = |c: &char| c.is_alphanumeric() || "+-^,;".contains(*c);
    sentence.chars().filter(kept).collect()
}

/// The name, number and sentence of each refusal of this crate.
fn refusals() -> Vec<(String, u8, String)> {
    let all = Refusal::ALL.iter().map(|&refusal| {
        let told = refusal.to_string();
        let (number, sentence) = told.split_once(": ").expect("a number");
        assert_eq!(number, refusal.number().to_string());
        let name = format!("{refusal:?}");
        (name, refusal.number(), plain(sentence))
    });
    all.collect()
}

#[test]
fn the_library_has_the_names_and_numbers_of_the_refusals() {
    let source = read("crates/refusal/src/lib.rt");
    let source = without(&source, "//", "\n");
    let (_, variants) = source
        .split_once("pub enum Refusal {")
        .expect("the refusals");
    let (variants, _) = variants.split_once(",\n}").expect("the last refusal");
    let variants = variants.split(',').map(|variant| {
        let (name, number) = variant.trim().split_once(" = ").expect("a number");
        (name.to_owned(), number.parse().expect("a u8"))
    });
    let variants: Vec<(String, u8)> = variants.collect();
    let ours = refusals()
        .into_iter()
        .map(|(name, number, _)| (name, number));
    assert_eq!(variants, ours.collect::<Vec<_>>());
}

#[test]
fn the_header_has_the_numbers_and_sentences_of_the_refusals() {
    let header = read("include/merlontrispa.h");
    let (_, entries) = header.split_once("enum mt_refusal").expect("the refusals");
    let (entries, _) = between(entries, '{', '}');
    let entries = entries.split("/*").skip(1).map(|entry| {
        let (sentence, name) = entry.split_once("*/").expect("a comment");
        let sentence = sentence.replace("\n     *", "");
        let (name, number) = name.split_once(" = ").expect("a number");
        let number: u8 = number.trim().trim_end_matches(',').parse().expect("a u8");
        let name = name.trim().strip_prefix("MT_").expect("the prefix");
        (capitals(name), number, plain(&sentence))
    });
    let entries: Vec<_> = entries.collect();
    let none = ("Ok".to_owned(), 0, plain("No refusal."));
    assert_eq!(entries, [vec![none], refusals()].concat());
}

#[test]
fn the_readme_has_the_numbers_and_sentences_of_the_refusals() {
    let readme = read("README.md");
    let (_, section) = readme.split_once("\n### Refusals\n").expect("refusals");
    let section = section.split("\n#").next().expect("a section");
    // An item is a line that begins with its number, and the lines below it that are set in.
    let items = section.replace("\n   ", " ");
    let items = items.lines().filter_map(|line| line.split_once(". "));
    let items =
        items.filter_map(|(number, sentence)| Some((number.parse().ok()?, plain(sentence))));
    let items: Vec<(u8, _)> = items.collect();
    let ours = refusals()
        .into_iter()
        .map(|(_, number, told)| (number, told));
    assert_eq!(items, ours.collect::<Vec<_>>());
}

/// The functions of declarations as `mt_max(x, y) -> f64`, without the types of parameters.
fn functions(declarations: &Declarations) -> Vec<String> {
    let functions = declarations.iter().filter(|text| text.starts_with("mt_"));
    let functions = functions.map(|function| {
        let (name, _) = function.split_once('(').expect("parameters");
        let (parameters, answer) = between(function, '(', ')');
        let names = items(parameters, ',');
        let names = names.iter().map(|p| p.split(':').next().expect("a name"));
        format!("{name}({}){answer}", names.collect::<Vec<_>>().join(", "))
    });
    functions.collect()
}

/// The functions that `docs/CALLS.md` has as a heading or as a row of a table, in their order. The
/// name is followed by `(parameters) → answer`.
fn listed(calls: &str) -> Vec<String> {
    let places = ["\n### `mt_", "\n| `mt_"];
    let entries = places.iter().flat_map(|place| calls.split(place).skip(1));
    let functions = entries.map(|entry| {
        let (name, rest) = entry.split_once('`').expect("the end of a name");
        let (parameters, rest) = between(rest, '(', ')');
        let answer = rest.strip_prefix(" → ").expect("an answer");
        let answer = words(answer).next().expect("a type");
        let parameters = items(parameters, ',').join(", ");
        format!("mt_{name}({parameters}) -> {}", kind(answer))
    });
    functions.collect()
}

/// The names and numbers of a text.
fn words(text: &str) -> impl Iterator<Item = &str> {
    let words = text.split(|c: char| !(c.is_alphanumeric() || c == '_'));
    words.filter(|word| !word.is_empty())
}

/// The names of a text that are the library's in C.
fn prefixed(text: &str) -> BTreeSet<&str> {
    words(text).filter(|word| word.starts_with("mt_")).collect()
}

#[test]
fn the_table_of_calls_has_each_function_of_the_header_once() {
    let (header, calls) = (read("include/merlontrispa.h"), read("docs/CALLS.md"));
    let mut listed = listed(&calls);
    listed.sort();
    let mut declared = functions(&c(&header));
    declared.sort();
    assert_eq!(listed, declared);
    let header = without(&header, "/*", "*/");
    let others: Vec<_> = prefixed(&calls)
        .difference(&prefixed(&header))
        .copied()
        .collect();
    assert!(others.is_empty(), "not in the header: {others:?}");
}

/// The numbers in a column of the tables of a text.
fn numbers(text: &str, column: usize) -> BTreeSet<u8> {
    let rows = text.lines().filter(|line| line.starts_with('|'));
    let cells = rows.filter_map(|row| row.split('|').nth(column));
    cells.filter_map(|cell| cell.trim().parse().ok()).collect()
}

#[test]
fn the_rules_have_the_numbers_of_the_refusals() {
    let all: BTreeSet<_> = Refusal::ALL.iter().map(|r| r.number()).collect();
    let rules = read("docs/RULES.md");
    let section = rules.split("\n## ").find(|text| text.starts_with("11 "));
    assert_eq!(numbers(section.expect("Rules 11"), 2), all);
}
