//! The layers in order: each holds the library to the original on inputs of its own.

pub mod floats;
pub mod lines;
pub mod meshes;
pub mod records;
pub mod seams;
pub mod textures;
pub mod traces;
pub mod vectors;

use crate::driver::{Compared, Driver};

/// Comparisons that belong together.
#[derive(Clone, Copy)]
pub struct Layer {
    pub name: &'static str,
    /// How many of a hundred inputs it takes where the number of all is given. Its comparisons share
    /// them in the proportion of their own numbers.
    pub share: u64,
    pub compare: fn(&mut Driver) -> Compared,
}

pub const LAYERS: [Layer; 8] = [
    Layer {
        name: "float",
        share: 15,
        compare: floats::compare,
    },
    Layer {
        name: "vector",
        share: 10,
        compare: vectors::compare,
    },
    Layer {
        name: "path",
        share: 10,
        compare: lines::compare,
    },
    Layer {
        name: "cyclic",
        share: 30,
        compare: seams::compare,
    },
    Layer {
        name: "mesh",
        share: 10,
        compare: meshes::compare,
    },
    Layer {
        name: "trace",
        share: 18,
        compare: traces::compare,
    },
    Layer {
        name: "records",
        share: 2,
        compare: records::compare,
    },
    Layer {
        name: "texture",
        share: 5,
        compare: textures::compare,
    },
];

#[cfg(test)]
mod tests {
    use super::*;

    #[test]
    fn shares_are_of_a_hundred() {
        assert_eq!(LAYERS.iter().map(|layer| layer.share).sum::<u64>(), 100);
    }
}
