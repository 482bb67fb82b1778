//! The functions of a crate, read from the layout that `rt fmt` keeps: a function begins at a line with
//! `fn` and ends at the closing brace of the same indentation.

use std::collections::{BTreeMap, BTreeSet};
use std::ops::Range;

/// A function: its path from the crate on, its file, and its lines there: attributes from `head` on,
/// `fn` with contract and body from `first` on.
#[derive(Debug, Clone, PartialEq, Eq)]
pub struct Function {
    pub path: String,
    file: String,
    head: usize,
    first: usize,
    last: usize,
    text: String,
}

impl Function {
    /// The lines from its first `requires` or `ensures` up to the brace that opens its body.
    fn contract(&self) -> Range<usize> {
        let lines: Vec<&str> = self.text.lines().collect();
        let clause = |line: &&str| {
            let words = line.trim_start();
            words.starts_with("requires ") || words.starts_with("ensures ")
        };
        let brace = format!("{}{{", indentation(lines[0]));
        let begins = lines.iter().position(clause);
        let ends = lines.iter().position(|line| *line == brace);
        match (begins, ends) {
            (Some(begins), Some(ends)) => self.first + begins..self.first + ends,
            _ => self.first..self.first,
        }
    }
}

/// The texts of a crate's files, by their names below the crate's folder.
#[derive(Debug, Clone, Default)]
pub struct Source {
    krate: String,
    files: BTreeMap<String, String>,
}

impl Source {
    /// The source of a crate.
    pub fn new(krate: &str, files: BTreeMap<String, String>) -> Source {
        Source {
            krate: krate.to_string(),
            files,
        }
    }

    /// The text of a file.
    pub fn text(&self, file: &str) -> Option<&str> {
        self.files.get(file).map(String::as_str)
    }

    /// The names of the files and their texts.
    pub fn files(&self) -> impl Iterator<Item = (&str, &str)> {
        let both = |(file, text)| (String::as_str(file), String::as_str(text));
        self.files.iter().map(both)
    }

    /// Gives a file another text.
    pub fn set(&mut self, file: &str, text: String) {
        self.files.insert(file.to_string(), text);
    }

    /// Replaces `old`, which stands in the file exactly once, by `new`, and hands back the line
    /// where it stood.
    pub fn replace(&mut self, file: &str, old: &str, new: &str) -> Result<usize, String> {
        let text = self
            .files
            .get_mut(file)
            .ok_or_else(|| format!("{file} is not there"))?;
        let places: Vec<usize> = text.match_indices(old).map(|(at, _)| at).collect();
        let [at] = places[..] else {
            return Err(format!("{file} has {} times: {old}", places.len()));
        };
        let line = text[..at].matches('\n').count();
        text.replace_range(at..at + old.len(), new);
        Ok(line)
    }

    /// Every function of the crate's code.
    pub fn functions(&self) -> Vec<Function> {
        let code = |file: &str| file.starts_with("src/") && file.ends_with(".rt");
        let files = || self.files.iter().filter(|(file, _)| code(file));
        let homes: BTreeMap<&str, String> = files()
            .flat_map(|(file, text)| declared(text).map(move |name| (name, self.module(file))))
            .collect();
        files()
            .flat_map(|(file, text)| self.functions_of(file, text, &homes))
            .collect()
    }

    /// Whether a file of `proofs/` or `specs/` declares a name: with its type, after words as `pub`.
    pub fn declares(&self, file: &str, name: &str) -> bool {
        let heads = |text: &str| {
            let mut heads = text.lines().filter_map(|line| line.split_once(" :"));
            heads.any(|(head, _)| head.split_whitespace().any(|word| word == name))
        };
        self.text(file).is_some_and(heads)
    }

    /// The function that a line stands in, its attributes included.
    pub fn around(&self, file: &str, line: usize) -> Option<String> {
        let around = |f: &Function| f.file == file && (f.head..=f.last).contains(&line);
        self.functions().into_iter().find(around).map(|f| f.path)
    }

    /// The functions that a line belongs to: the one that it stands in or, where it is a
    /// constant's, those that mention the constant.
    pub fn touched(&self, file: &str, line: usize) -> BTreeSet<String> {
        if let Some(path) = self.around(file, line) {
            return BTreeSet::from([path]);
        }
        let text = self
            .text(file)
            .and_then(|text| text.lines().nth(line))
            .unwrap_or("");
        let Some(name) = constant(text) else {
            return BTreeSet::new();
        };
        let mut users = self.functions();
        users.retain(|f| words(&f.text).any(|word| word == name));
        users.into_iter().map(|f| f.path).collect()
    }

    /// Whether a line belongs to a function's contract, and not to its head or its body.
    pub fn in_contract(&self, file: &str, line: usize) -> bool {
        let functions = self.functions();
        let mut here = functions.iter().filter(|f| f.file == file);
        here.any(|f| f.contract().contains(&line))
    }

    fn module(&self, file: &str) -> String {
        let inner = file.trim_start_matches("src/").trim_end_matches(".rt");
        match inner {
            "lib" | "main" => self.krate.clone(),
            _ => format!("{}::{}", self.krate, inner.replace('/', "::")),
        }
    }

    fn functions_of(
        &self,
        file: &str,
        text: &str,
        homes: &BTreeMap<&str, String>,
    ) -> Vec<Function> {
        let lines: Vec<&str> = text.lines().collect();
        let (mut found, mut owner) = (Vec::new(), self.module(file));
        for (first, line) in lines.iter().enumerate() {
            if let Some(name) = implemented(line) {
                owner = match homes.get(name.as_str()) {
                    Some(home) => format!("{home}::{name}"),
                    None => format!("{}::{name}", self.module(file)),
                };
            } else if *line == "}" {
                owner = self.module(file);
            }
            if let Some(name) = header(line) {
                let last = end(&lines, first);
                found.push(Function {
                    path: format!("{owner}::{name}"),
                    file: file.to_string(),
                    head: head(&lines, first),
                    first,
                    last,
                    text: lines[first..=last].join("\n"),
                });
            }
        }
        found
    }
}

/// The name of the function that a line begins.
fn header(line: &str) -> Option<&str> {
    let mut rest = line.trim_start();
    for word in ["pub ", "pub(crate) ", "const ", "extern \"C\" "] {
        rest = rest.strip_prefix(word).unwrap_or(rest);
    }
    let rest = rest.strip_prefix("fn ")?;
    Some(&rest[..rest.find(['(', '<'])?])
}

/// What rattle calls the block that a line begins: a type's own by the type, as `Grid`, and that of a
/// trait by the type, the trait and what the trait is given, as `U8FromRefusal`.
fn implemented(line: &str) -> Option<String> {
    let rest = line.strip_prefix("impl")?.strip_suffix(" {")?;
    let rest = match rest.strip_prefix('<') {
        Some(parameters) => &parameters[closing(parameters)?..],
        None => rest,
    };
    let rest = rest.strip_prefix(' ')?;
    let Some((given, owner)) = rest.split_once(" for ") else {
        return Some(rest.split('<').next()?.to_string());
    };
    let owner = owner.split('<').next()?;
    Some(
        std::iter::once(owner)
            .chain(words(given))
            .map(capital)
            .collect(),
    )
}

/// The place behind the bracket that closes a list of parameters.
fn closing(text: &str) -> Option<usize> {
    let mut depth = 1;
    for (at, c) in text.char_indices() {
        depth += i32::from(c == '<') - i32::from(c == '>');
        if depth == 0 {
            return Some(at + 1);
        }
    }
    None
}

fn capital(word: &str) -> String {
    let (first, rest) = word.split_at(1);
    first.to_uppercase() + rest
}

/// The first line of the attributes of the function whose `fn` is on line `first`.
fn head(lines: &[&str], first: usize) -> usize {
    let other = |line: &str| {
        let ends = line.ends_with(['{', '}', ';']);
        line.is_empty() || ends || line.trim_start().starts_with("//")
    };
    let above = lines[..first].iter().rposition(|line| other(line));
    above.map_or(0, |above| above + 1)
}

/// The last line of the function that begins at line `first`.
fn end(lines: &[&str], first: usize) -> usize {
    let header = lines[first];
    if header.contains('{') && header.ends_with('}') {
        return first;
    }
    let brace = format!("{}}}", indentation(header));
    let after = lines[first..].iter().position(|line| *line == brace);
    after.map_or(lines.len() - 1, |lines| first + lines)
}

fn indentation(line: &str) -> &str {
    &line[..line.len() - line.trim_start().len()]
}

/// The structs and enums that a file declares.
fn declared(text: &str) -> impl Iterator<Item = &str> {
    text.lines().filter_map(|line| {
        let rest = line.strip_prefix("pub ").unwrap_or(line);
        let rest = rest
            .strip_prefix("struct ")
            .or_else(|| rest.strip_prefix("enum "))?;
        rest.split(|c: char| !in_word(c)).next()
    })
}

/// The name of the constant that a line declares.
fn constant(line: &str) -> Option<&str> {
    let rest = line.strip_prefix("pub ").unwrap_or(line);
    rest.strip_prefix("const ")?.split(':').next()
}

fn in_word(c: char) -> bool {
    c.is_alphanumeric() || c == '_'
}

/// Each word of a text.
fn words(text: &str) -> impl Iterator<Item = &str> {
    let words = text.split(|c: char| !in_word(c));
    words.filter(|word| !word.is_empty())
}

#[cfg(test)]
mod tests {
    use super::*;

    const SIGN: &str = "const TOP: f64 = 4.0;\n\npub fn abs(x: f64) -> f64\n    ensures { r }\n{\n    if negative(x) { -x } else { x }\n}\n\n\
                        fn negative(x: f64) -> bool {\n    x < 0.0\n}\n\nfn fits(x: f64) -> bool {\n    abs(x) < TOP\n}\n";
    const LIB: &str = "pub struct Point {\n    x: f64,\n}\n\nimpl Point {\n    pub fn far(self) -> bool {\n        sign::fits(self.x)\n    }\n}\n";

    fn source() -> Source {
        let files = [("src/sign.rt", SIGN), ("src/lib.rt", LIB)];
        Source::new(
            "float",
            files
                .map(|(file, text)| (file.to_string(), text.to_string()))
                .into(),
        )
    }

    fn set(names: &[&str]) -> BTreeSet<String> {
        names.iter().map(|name| name.to_string()).collect()
    }

    #[test]
    fn names_functions_as_rattle_does() {
        let functions = source().functions();
        let paths: Vec<&str> = functions.iter().map(|f| f.path.as_str()).collect();
        assert_eq!(
            paths,
            [
                "float::Point::far",
                "float::sign::abs",
                "float::sign::negative",
                "float::sign::fits"
            ]
        );
    }

    #[test]
    fn a_method_has_the_path_of_its_type() {
        let mut source = source();
        let other = "impl Point {\n    fn near(self) -> bool {\n        true\n    }\n}\n";
        source.files.insert("src/near.rt".into(), other.into());
        assert!(
            source
                .functions()
                .iter()
                .any(|f| f.path == "float::Point::near")
        );
    }

    #[test]
    fn a_block_of_a_trait_has_the_name_that_rattle_gives_it() {
        let named = |line| implemented(line).unwrap();
        assert_eq!(named("impl Point {"), "Point");
        assert_eq!(named("impl<'a> Grid<'a> {"), "Grid");
        assert_eq!(named("impl TwoRows<'_> {"), "TwoRows");
        assert_eq!(named("impl From<Refusal> for u8 {"), "U8FromRefusal");
        assert_eq!(
            named("impl From<Result<Counts, Refusal>> for PathsAnswer {"),
            "PathsAnswerFromResultCountsRefusal"
        );
        assert_eq!(implemented("fn near() {"), None);
    }

    #[test]
    fn a_line_belongs_to_the_function_around_it() {
        assert_eq!(
            source().touched("src/sign.rt", 3),
            set(&["float::sign::abs"])
        );
        assert_eq!(
            source().touched("src/lib.rt", 6),
            set(&["float::Point::far"])
        );
        assert_eq!(source().touched("src/lib.rt", 1), set(&[]));
    }

    #[test]
    fn so_do_its_attributes() {
        let mut source = source();
        let text = "impl Point {\n    // Near.\n    #[tactic(\n        auto\n    )]\n    fn near(self) -> bool {\n        true\n    }\n}\n";
        source.files.insert("src/near.rt".into(), text.into());
        let around = |line| source.around("src/near.rt", line);
        assert!((2..8).all(|line| around(line).as_deref() == Some("float::Point::near")));
        assert!([0, 1, 8].iter().all(|line| around(*line).is_none()));
    }

    #[test]
    fn a_constant_belongs_to_those_that_use_it() {
        assert_eq!(
            source().touched("src/sign.rt", 0),
            set(&["float::sign::fits"])
        );
    }

    #[test]
    fn a_contract_stands_between_head_and_body() {
        let lines: Vec<usize> = (0..SIGN.lines().count())
            .filter(|line| source().in_contract("src/sign.rt", *line))
            .collect();
        assert_eq!(lines, [3]);
        let mut source = source();
        let method = "impl Point {\n    fn near(\n        self,\n    ) -> bool\n        requires { x }\n        ensures { result\n            ≡ y }\n    {\n        true\n    }\n}\n";
        source.files.insert("src/near.rt".into(), method.into());
        assert!((4..7).all(|line| source.in_contract("src/near.rt", line)));
        assert!((0..4).all(|line| !source.in_contract("src/near.rt", line)));
        assert!((7..11).all(|line| !source.in_contract("src/near.rt", line)));
    }

    #[test]
    fn a_law_is_declared_with_its_type() {
        let mut source = source();
        let text = "  pub le_is : {x : ℕ} →\n    le x x\n  le_is = lt_is refl\n";
        source.files.insert("proofs/Less.antt".into(), text.into());
        assert!(source.declares("proofs/Less.antt", "le_is"));
        assert!(!source.declares("proofs/Less.antt", "lt_is"));
        assert!(!source.declares("proofs/Less.antt", "le-is"));
        assert!(!source.declares("proofs/More.antt", "le_is"));
    }

    #[test]
    fn a_text_is_replaced_where_it_stands_once() {
        let mut source = source();
        assert_eq!(source.replace("src/sign.rt", "x < 0.0", "0.0 < x"), Ok(9));
        assert!(source.text("src/sign.rt").unwrap().contains("0.0 < x"));
        assert!(source.replace("src/sign.rt", "f64", "f32").is_err());
        assert!(source.replace("src/sign.rt", "absent", "").is_err());
        assert!(source.replace("src/other.rt", "x", "").is_err());
    }
}
