//! The plain text of a case: words, the floats by their bits. A line that begins with `#` is a remark.

use std::fmt::Display;
use std::iter::Peekable;

/// Words that are written one after the other.
#[derive(Default)]
pub struct Text(String);

impl Text {
    /// A new line, which begins with the name of what follows.
    pub fn field(&mut self, name: &str) {
        if !self.0.is_empty() {
            self.0.push('\n');
        }
        self.0.push_str(name);
    }

    pub fn word(&mut self, word: impl Display) {
        if !self.0.is_empty() {
            self.0.push(' ');
        }
        self.0.push_str(&word.to_string());
    }

    pub fn into_string(self) -> String {
        self.0
    }
}

/// The words of a text that is read.
pub struct Words<'a>(Peekable<Box<dyn Iterator<Item = &'a str> + 'a>>);

impl<'a> Words<'a> {
    pub fn new(text: &'a str) -> Self {
        let lines = text.lines().filter(|line| !line.starts_with('#'));
        let words: Box<dyn Iterator<Item = _>> = Box::new(lines.flat_map(str::split_whitespace));
        Self(words.peekable())
    }

    /// The next word, which is to be `wanted`.
    pub fn next(&mut self, wanted: &str) -> Result<&'a str, String> {
        self.0
            .next()
            .ok_or_else(|| format!("it ends where {wanted} should stand"))
    }

    /// The next word read as `wanted`.
    pub fn parse<T>(
        &mut self,
        wanted: &str,
        parse: impl FnOnce(&str) -> Option<T>,
    ) -> Result<T, String> {
        let word = self.next(wanted)?;
        parse(word).ok_or_else(|| format!("{word} stands where {wanted} should"))
    }

    /// This very word.
    pub fn expect(&mut self, name: &str) -> Result<(), String> {
        self.parse(name, |word| (word == name).then_some(()))
    }

    /// Whether the next word is this one, which is then taken.
    pub fn take(&mut self, word: &str) -> bool {
        self.0.next_if_eq(&word).is_some()
    }

    /// No further word.
    pub fn end(&mut self) -> Result<(), String> {
        match self.0.next() {
            None => Ok(()),
            Some(word) => Err(format!("{word} stands where it should end")),
        }
    }
}
