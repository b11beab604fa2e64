//! The saved texts of a run, by their numbers: the kinds of `STATES` in turn; then three legal ones, each byte changed in
//! three ways.

use crate::random::Random;
use crate::records::{edition_1, Saved};
use crate::states::{legal, STATES};

/// The texts of the kinds.
const OF_KINDS: u64 = 4_000;
const WAYS: usize = 3;

/// The legal texts whose bytes are changed: every block is there; one from a session; and one of edition 1.
pub const SWEPT: [&str; 3] = ["a byte of a full text", "a byte of a session's text", "a byte of a text of edition 1"];

pub struct Texts {
    swept: [Vec<u8>; 3],
}

pub struct Text {
    /// A kind's name, or of `SWEPT`.
    pub name: &'static str,
    /// What reading has to answer, where the kind says it.
    pub answer: Option<u8>,
    /// The first of its kind.
    pub first: bool,
    pub bytes: Vec<u8>,
}

impl Texts {
    pub fn new() -> Texts {
        let random = &mut Random::new(0);
        let mut full = Saved::of(&legal(random));
        full.full(random);
        Texts { swept: [full.text(), legal(random), edition_1(&legal(random))] }
    }

    pub fn count(&self) -> u64 {
        OF_KINDS + (WAYS * self.swept.concat().len()) as u64
    }

    pub fn text(&self, number: u64) -> Text {
        if number > OF_KINDS {
            return self.with_another_byte((number - OF_KINDS - 1) as usize);
        }
        let place = number as usize - 1;
        let (kind, round) = (&STATES[place % STATES.len()], place / STATES.len());
        let legal = legal(&mut Random::new(number));
        let bytes = kind.apply(&legal, &mut Random::with_first(number, round as u64));
        Text { name: kind.name, answer: kind.answer, first: round == 0, bytes }
    }

    fn with_another_byte(&self, number: usize) -> Text {
        let (place, way) = (number / WAYS, number % WAYS);
        let (mut which, mut at) = (0, place);
        while at >= self.swept[which].len() {
            at -= self.swept[which].len();
            which += 1;
        }
        let mut bytes = self.swept[which].clone();
        bytes[at] = others(bytes[at], &mut Random::new(place as u64))[way];
        Text { name: SWEPT[which], answer: None, first: false, bytes }
    }
}

/// A digit, a byte with one bit changed, and any byte; no two are the same.
fn others(byte: u8, random: &mut Random) -> [u8; WAYS] {
    let mut taken = vec![byte];
    while taken.len() <= WAYS {
        let other = match taken.len() {
            1 => random.pick(b"0123456789ABCDEF"),
            2 => byte ^ 1 << random.below(8),
            _ => random.next() as u8,
        };
        if !taken.contains(&other) {
            taken.push(other);
        }
    }
    [taken[1], taken[2], taken[3]]
}
