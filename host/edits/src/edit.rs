//! The files `crates/NAME/must-fail/*.edit`: wrong programs that the prover must refuse.
//!
//!     # a comment, where the name does not say why it is wrong
//!     wrong: abs_keeps_sign
//!     leaves: fn float::sign::abs
//!     file: src/sign.rt
//!     old: if is_negative(x) { -x } else { x }
//!     new: if is_negative(x) { x } else { x }
//!
//! `leaves: law proofs/Demands.antt demand3` names a lemma or a known result in the place of a
//! function. `rt` reads the last three kinds of lines, makes every change of a file and checks the
//! crate once, so the wrong programs of a file are tried together.

use std::fmt;

/// What a wrong program must leave unproved.
#[derive(Debug, Clone, PartialEq, Eq)]
pub enum Left {
    /// A function, by its path from the crate on.
    Function(String),
    /// A declaration of a file of `proofs/` or `specs/`.
    Law { file: String, name: String },
}

impl fmt::Display for Left {
    fn fmt(&self, f: &mut fmt::Formatter) -> fmt::Result {
        match self {
            Left::Function(path) => write!(f, "fn {path}"),
            Left::Law { file, name } => write!(f, "law {file} {name}"),
        }
    }
}

/// One replacement: `old` stands in the file exactly once.
#[derive(Debug, Clone, PartialEq, Eq)]
pub struct Change {
    pub file: String,
    pub old: String,
    pub new: String,
}

/// A wrong program: what it is called, what it must leave unproved, and how it comes from the right
/// one.
#[derive(Debug, Clone, PartialEq, Eq, Default)]
pub struct Wrong {
    pub name: String,
    pub leaves: Vec<Left>,
    pub changes: Vec<Change>,
}

impl Wrong {
    /// The functions that it names.
    pub fn functions(&self) -> impl Iterator<Item = &str> {
        self.leaves.iter().filter_map(|left| match left {
            Left::Function(path) => Some(path.as_str()),
            Left::Law { .. } => None,
        })
    }

    /// Whether it changes code alone, and no definition.
    pub fn of_code(&self) -> bool {
        self.changes
            .iter()
            .all(|change| change.file.starts_with("src/"))
    }
}

/// The wrong programs of a file, or its first line that has no place.
pub fn parse(text: &str) -> Result<Vec<Wrong>, String> {
    let mut found: Vec<Wrong> = Vec::new();
    let mut place = Place::default();
    let lines = text.lines().filter(|line| !line.starts_with('#'));
    for line in lines.filter(|line| !line.trim().is_empty()) {
        match (split(line)?, found.last_mut()) {
            (("wrong", name), _) => {
                let name = name.to_string();
                found.push(Wrong {
                    name,
                    ..Wrong::default()
                });
                place = Place::default();
            }
            ((word, rest), Some(wrong)) => place.read(word, rest, wrong)?,
            _ => return Err(format!("stands before a `wrong:` line: {line}")),
        }
    }
    found.iter().try_for_each(whole)?;
    match found.is_empty() {
        true => Err("no wrong program".to_string()),
        false => Ok(found),
    }
}

/// Where the next change is made: the file stays until another is named.
#[derive(Default)]
struct Place {
    file: Option<String>,
    old: Option<String>,
}

impl Place {
    /// Takes a line of a wrong program.
    fn read(&mut self, word: &str, rest: &str, wrong: &mut Wrong) -> Result<(), String> {
        match word {
            "leaves" => wrong.leaves.push(left(rest)?),
            "file" => self.file = Some(rest.to_string()),
            "old" => self.old = Some(rest.to_string()),
            "new" => wrong.changes.push(self.change(rest)?),
            _ => return Err(format!("not a line of an edit: {word}: {rest}")),
        }
        Ok(())
    }

    fn change(&mut self, new: &str) -> Result<Change, String> {
        let missing = |word: &str| format!("no `{word}:` before: new: {new}");
        Ok(Change {
            file: self.file.clone().ok_or_else(|| missing("file"))?,
            old: self.old.take().ok_or_else(|| missing("old"))?,
            new: new.to_string(),
        })
    }
}

fn split(line: &str) -> Result<(&str, &str), String> {
    let (word, rest) = line
        .split_once(':')
        .ok_or_else(|| format!("not a line of an edit: {line}"))?;
    Ok((word, rest.strip_prefix(' ').unwrap_or(rest)))
}

fn left(text: &str) -> Result<Left, String> {
    match text.split(' ').collect::<Vec<_>>()[..] {
        ["fn", path] => Ok(Left::Function(path.to_string())),
        ["law", file, name] => Ok(Left::Law {
            file: file.to_string(),
            name: name.to_string(),
        }),
        _ => Err(format!(
            "`leaves:` wants `fn PATH` or `law FILE NAME`: {text}"
        )),
    }
}

fn whole(wrong: &Wrong) -> Result<(), String> {
    if wrong.leaves.is_empty() {
        return Err(format!("{}: no `leaves:` line", wrong.name));
    }
    if wrong.changes.is_empty() {
        return Err(format!("{}: changes nothing", wrong.name));
    }
    Ok(())
}

#[cfg(test)]
mod tests {
    use super::*;

    const TWO: &str = "# why\nwrong: first_one\nleaves: fn a::b\nfile: src/lib.rt\nold: x: 1\nnew: x: 2\n\
                       wrong: second_one\nleaves: law proofs/L.antt fact\nfile: specs/S.antt\nold:  y\nnew:\n";

    #[test]
    fn reads_what_each_leaves_and_changes() {
        let found = parse(TWO).unwrap();
        assert_eq!(found[0].name, "first_one");
        assert_eq!(found[0].leaves, [Left::Function("a::b".into())]);
        assert_eq!(found[0].changes[0].old, "x: 1");
        assert_eq!(found[1].changes[0].old, " y");
        assert_eq!(found[1].changes[0].new, "");
        assert!(found[0].of_code() && !found[1].of_code());
    }

    #[test]
    fn a_line_without_its_place_is_a_fault() {
        for text in [
            "# nothing\n",
            "file: src/lib.rt\n",
            "wrong: w\nleaves: fn a::b\nold: x\nnew: y\n",
            "wrong: w\nleaves: fn a::b\nfile: src/lib.rt\nnew: y\n",
            "wrong: w\nleaves: a::b\n",
            "wrong: w\nleave: fn a::b\n",
            "wrong: w\nfile: src/lib.rt\nold: x\nnew: y\n",
            "wrong: w\nleaves: fn a::b\n",
        ] {
            assert!(parse(text).is_err(), "{text}");
        }
    }
}
