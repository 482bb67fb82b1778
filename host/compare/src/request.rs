//! What the command line asks for.

use crate::layers::{LAYERS, Layer};
use std::time::Duration;

/// The seed where none is asked for.
pub const SEED: u64 = 20_260_526;

/// Which inputs are compared.
pub enum Asked {
    /// Each comparison's own number of random ones.
    Own,
    /// So many for each comparison.
    Cases(u64),
    /// So many for all together.
    Total(u64),
    /// The one that this file has.
    Replay(String),
    /// The one that the bytes of this file choose.
    Bytes(String),
    /// None: those of `crates/replay` are written to this file.
    Record(String),
}

pub struct Request {
    pub asked: Asked,
    pub seed: u64,
    /// How long a difference is made smaller.
    pub shrinking: Duration,
    /// Where a difference is written.
    pub file: String,
    pub layers: Vec<Layer>,
}

impl Request {
    /// Reads the words of a command line, or says in a sentence what is wrong with them.
    pub fn read(mut words: impl Iterator<Item = String>) -> Result<Self, String> {
        let mut request = Self {
            asked: Asked::Own,
            seed: SEED,
            shrinking: Duration::from_secs(20),
            file: "difference.txt".into(),
            layers: Vec::new(),
        };
        while let Some(word) = words.next() {
            request.take(&word, &mut words)?;
        }
        if request.layers.is_empty() {
            request.layers = LAYERS.to_vec();
        }
        Ok(request)
    }

    fn take(&mut self, word: &str, words: &mut impl Iterator<Item = String>) -> Result<(), String> {
        let mut value = || {
            let value = words.next();
            value.ok_or_else(|| format!("{word} wants a value; {}", usage()))
        };
        match word {
            "--seed" => self.seed = number(word, value()?)?,
            "--cases" => self.asked = Asked::Cases(number(word, value()?)?),
            "--total" => self.asked = Asked::Total(number(word, value()?)?),
            "--shrink" => self.shrinking = Duration::from_secs(number(word, value()?)?),
            "--write" => self.file = value()?,
            "--replay" => self.asked = Asked::Replay(value()?),
            "--bytes" => self.asked = Asked::Bytes(value()?),
            "--record" => self.asked = Asked::Record(value()?),
            _ => match LAYERS.into_iter().find(|layer| layer.name == word) {
                Some(layer) => self.layers.push(layer),
                None => return Err(format!("there is no option or layer {word}; {}", usage())),
            },
        }
        Ok(())
    }
}

fn number(flag: &str, word: String) -> Result<u64, String> {
    word.parse()
        .map_err(|_| format!("{flag} wants a whole number, not {word}; {}", usage()))
}

fn usage() -> String {
    let layers = LAYERS.map(|layer| layer.name).join(" ");
    format!(
        "usage: compare [--seed NUMBER] [--cases NUMBER | --total NUMBER | --replay FILE | --bytes FILE | \
         --record FILE] [--shrink SECONDS] [--write FILE] [LAYER..], of {layers}"
    )
}
