//! A difference that was found, as it is told, written and read again.

use crate::case::Case;
use crate::text::Words;
use std::fmt;

/// A case on which the two differ.
#[derive(Debug, PartialEq)]
pub struct Difference {
    /// The comparison's name.
    pub name: String,
    /// The smallest case that was found to differ, as text.
    pub case: String,
    /// What the two answer.
    pub library: String,
    pub original: String,
}

impl fmt::Display for Difference {
    fn fmt(&self, f: &mut fmt::Formatter<'_>) -> fmt::Result {
        writeln!(f, "comparison {}", self.name)?;
        writeln!(f, "{}", self.case)?;
        writeln!(f, "# library  {}", self.library)?;
        writeln!(f, "# original {}", self.original)
    }
}

/// A case that was written, and the name of its comparison.
#[derive(Debug, PartialEq)]
pub struct Saved {
    pub name: String,
    words: String,
}

impl Saved {
    /// Reads what a difference was written to, or says in a sentence why it cannot be read.
    pub fn read(text: &str) -> Result<Self, String> {
        let mut lines = text.lines().filter(|line| !line.starts_with('#'));
        let name = lines
            .next()
            .and_then(|line| line.strip_prefix("comparison "));
        let name = name.ok_or("its first line is not `comparison` and a name")?;
        Ok(Self {
            name: name.trim_end().into(),
            words: lines.collect::<Vec<_>>().join("\n"),
        })
    }

    /// The case, or a sentence that says why it is none of its comparison.
    pub fn case<I: Case>(&self) -> Result<I, String> {
        let mut words = Words::new(&self.words);
        let case = I::read(&mut words)?;
        words.end().map(|()| case)
    }
}

#[cfg(test)]
mod tests {
    use super::*;

    #[test]
    fn what_is_written_is_read() {
        let difference = Difference {
            name: "get, any lists".into(),
            case: "points [ ]\nindex 3".into(),
            library: "1".into(),
            original: "2".into(),
        };
        let saved = Saved::read(&difference.to_string()).expect("it has a name");
        assert_eq!(
            (saved.name, saved.words),
            (difference.name, difference.case)
        );
    }

    #[test]
    fn a_file_without_a_name_is_refused() {
        let fault = Saved::read("# only a remark\nu_steps 1").expect_err("no name");
        assert_eq!(fault, "its first line is not `comparison` and a name");
    }
}
