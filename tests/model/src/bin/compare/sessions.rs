//! A session for each seed: whole ones, and ones with a damaged table or script or with values at the limits.

use model::{set_up, LIMIT};

use crate::damage::{SCRIPTS, TABLES};
use crate::platform::Platform;
use crate::random::Random;
use crate::steps::steps;
use crate::text::{join, lines, platform_line};

pub struct Session {
    pub kind: Kind,
    pub table: Vec<u8>,
    pub script: Vec<u8>,
}

pub enum Kind {
    /// Some 300 steps on a platform that setting up accepts; it is cut after so many of them.
    Whole { cut: usize },
    /// A row of `TABLES`; the number is setting up's answer, known where nothing else is damaged.
    Table { name: &'static str, answer: Option<u8> },
    /// A table with few different numbers, so that its blocks meet and fail in many ways.
    Narrow,
    /// A row of `SCRIPTS`, and whether it reads.
    Script { name: &'static str, reads: bool },
}

impl Session {
    /// Two of three are whole.
    pub fn of(seed: u64) -> Session {
        let random = &mut Random::new(seed);
        match seed % 9 {
            0 => damaged_table(seed, random),
            3 => damaged_script(seed, random),
            6 => narrow(random),
            _ => whole(random),
        }
    }
}

fn whole(random: &mut Random) -> Session {
    let platform = Platform::any(random);
    let table = platform.table(random);
    let length = 180 + random.below(200) as usize;
    let machine = set_up(&table, &platform.settings).expect("a whole platform");
    let steps = steps(random, machine, length);
    let cut = match random.below(20) {
        0 => 0,
        1 => steps.len(),
        _ => random.below(steps.len() as u64 + 1) as usize,
    };
    let lines = lines(&platform.settings, &steps);
    Session { kind: Kind::Whole { cut }, table, script: join(&lines) }
}

/// A few steps where setting up accepts; the platform line and a firmware step where it does not.
fn short_script(random: &mut Random, platform: &Platform, table: &[u8]) -> Vec<u8> {
    let lent = &table[..table.len().min(LIMIT)];
    match set_up(lent, &platform.settings) {
        Ok(machine) => join(&lines(&platform.settings, &steps(random, machine, 8))),
        Err(_) => join(&[platform_line(&platform.settings).into_bytes(), b"drop".to_vec()]),
    }
}

fn damaged_table(seed: u64, random: &mut Random) -> Session {
    let damage = &TABLES[(seed / 9) as usize % TABLES.len()];
    let mut platform = Platform::full(random);
    // Apart from each other, so that a block can be moved.
    platform.spread(random);
    (damage.platform)(&mut platform, random);
    let further = random.once_in(3);
    if further {
        let at = random.below(TABLES.len() as u64) as usize;
        (TABLES[at].platform)(&mut platform, random);
    }
    let mut table = platform.table(random);
    (damage.bytes)(&mut table, random);
    let answer = (!further).then_some(damage.answer);
    let script = short_script(random, &platform, &table);
    Session { kind: Kind::Table { name: damage.name, answer }, table, script }
}

fn narrow(random: &mut Random) -> Session {
    let platform = Platform::narrow(random);
    let table = platform.table(random);
    let script = short_script(random, &platform, &table);
    Session { kind: Kind::Narrow, table, script }
}

fn damaged_script(seed: u64, random: &mut Random) -> Session {
    let damage = &SCRIPTS[(seed / 9) as usize % SCRIPTS.len()];
    let platform = Platform::any(random);
    let table = platform.table(random);
    let machine = set_up(&table, &platform.settings).expect("a whole platform");
    let length = 1 + random.below(30) as usize;
    let lines = lines(&platform.settings, &steps(random, machine, length));
    let script = damage.apply(lines, random);
    let kind = Kind::Script { name: damage.name, reads: damage.reads };
    Session { kind, table, script }
}
