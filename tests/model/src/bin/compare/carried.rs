//! Request W2 on the whole sessions: each is cut at a step, saved there, read back and resumed.

use std::path::Path;

use model::{saved, session_end, Machine};

use crate::programs::{same, Outcome, Programs};
use crate::records::edition_1;
use crate::sessions::{Kind, Session};

pub struct Cut {
    /// The steps before it, and how many there are.
    pub at: usize,
    pub steps: usize,
    /// The script up to it, and the steps after it.
    pub first: Vec<u8>,
    pub rest: Vec<u8>,
    pub machine: Machine,
}

impl Cut {
    /// Of a whole session.
    pub fn of(session: &Session) -> Option<Cut> {
        let Kind::Whole { cut: at } = session.kind else {
            return None;
        };
        let lines: Vec<&[u8]> = session.script.split_inclusive(|byte| *byte == b'\n').collect();
        // The platform line is the first.
        let (first, rest) = lines.split_at(1 + at);
        let first = first.concat();
        let machine = session_end(&session.table, &first)?;
        Some(Cut { at, steps: lines.len() - 1, first, rest: rest.concat(), machine })
    }

    /// The lines of the uncut listing that are left, counted from 1, after its header.
    pub fn listing(&self, uncut: &[u8]) -> Vec<u8> {
        let uncut = String::from_utf8_lossy(uncut);
        let mut lines = uncut.split_inclusive('\n');
        let mut listing = lines.next().unwrap_or_default().to_string();
        for (i, line) in lines.skip(self.at).enumerate() {
            let fields = line.split_once('\t').map_or("", |(_, fields)| fields);
            listing += &format!("{}\t{fields}", i + 1);
        }
        listing.into_bytes()
    }

    /// One in four is saved at its end too.
    pub fn saved_again(&self) -> bool {
        self.at.is_multiple_of(4)
    }

    /// One in four is resumed from its text of edition 1, where the pin is inactive.
    pub fn from_edition_1(&self) -> bool {
        self.at % 4 == 1 && !self.machine.pin
    }

    /// The programs carry the session over the cut to what it comes to uncut.
    pub fn check(&self, programs: &Programs, folder: &Path, table: &[u8], uncut: &Outcome) -> Result<(), String> {
        let by = |reason: String| format!("cut after step {}: {reason}", self.at);
        let state = programs.save(&folder.join("first"), table, &self.first)?;
        same("saved text", &saved::write(&self.machine), &state).map_err(by)?;
        let state = if self.from_edition_1() { edition_1(&state) } else { state };
        let folder = &folder.join("rest");
        let listing = programs.resume(folder, &state, &self.rest)?;
        same("resumed listing", &self.listing(&uncut.listing), &listing).map_err(by)?;
        if !self.saved_again() {
            return Ok(());
        }
        let end = programs.resume_save(folder, &state, &self.rest)?;
        same("saved text of the resumed end", &uncut.end, &end).map_err(by)
    }
}
