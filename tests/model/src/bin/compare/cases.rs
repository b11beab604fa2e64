//! The cases of a run: sessions by their seeds, saved texts by their numbers.

use std::fmt::{self, Display};

use crate::texts::Texts;

/// The sessions of a run: seeds 1 to this; two of three are whole.
pub const SEEDS: u64 = 9_000;

#[derive(Clone, Copy, PartialEq, Eq, PartialOrd, Ord)]
pub enum Case {
    Seed(u64),
    Text(u64),
}

impl Case {
    pub fn all(texts: &Texts) -> Vec<Case> {
        (1..=SEEDS).map(Case::Seed).chain((1..=texts.count()).map(Case::Text)).collect()
    }

    /// `seed 4` or `Text 17`.
    pub fn read(text: &str) -> Option<Case> {
        let (word, number) = text.split_once(' ')?;
        let number = number.parse().ok()?;
        match word.to_lowercase().as_str() {
            "seed" => Some(Case::Seed(number)),
            "text" => Some(Case::Text(number)),
            _ => None,
        }
    }
}

impl Display for Case {
    fn fmt(&self, f: &mut fmt::Formatter) -> fmt::Result {
        match self {
            Case::Seed(number) => write!(f, "seed {number}"),
            Case::Text(number) => write!(f, "text {number}"),
        }
    }
}
