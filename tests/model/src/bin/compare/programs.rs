//! Runs the built programs, and the model's in their place, on sessions and saved texts; and compares what they print.

use std::fs::{self, File};
use std::path::{Path, PathBuf};
use std::process::Command;

use model::saved;

/// What the programs make of a session.
pub struct Outcome {
    /// Empty where nothing is printed.
    pub listing: Vec<u8>,
    /// Setting up's number, where the script reads.
    pub set_up: Option<u8>,
    /// The saved text of the end; empty where nothing is printed.
    pub end: Vec<u8>,
    /// The table's port map; empty where nothing is printed.
    pub map: Vec<u8>,
}

impl Outcome {
    pub fn of_model(table: &[u8], script: &[u8]) -> Outcome {
        Outcome {
            listing: model::session(table, script).unwrap_or_default(),
            set_up: model::set_up_answer(table, script),
            end: model::session_end(table, script).map_or(Vec::new(), |machine| saved::write(&machine)),
            map: model::port_map(table),
        }
    }

    /// An error with the first difference; `self` is what is expected.
    pub fn same_as(&self, got: &Outcome) -> Result<(), String> {
        same("listing", &self.listing, &got.listing)?;
        if self.set_up != got.set_up {
            return Err(format!("setting up: expected {:?}, got {:?}", self.set_up, got.set_up));
        }
        same("saved text of the end", &self.end, &got.end)?;
        same("port map", &self.map, &got.map)
    }
}

/// What reading a saved text comes to.
pub struct Reading {
    /// 0 where it is accepted.
    pub answer: Option<u8>,
    /// The text of the machine that was read; empty where nothing is printed.
    pub again: Vec<u8>,
}

impl Reading {
    pub fn of_model(text: &[u8]) -> Reading {
        match saved::read(text) {
            Ok(machine) => Reading { answer: Some(0), again: saved::write(&machine) },
            Err(answer) => Reading { answer: Some(answer), again: Vec::new() },
        }
    }

    /// An error with the first difference; `self` is what is expected.
    pub fn same_as(&self, got: &Reading) -> Result<(), String> {
        if self.answer != got.answer {
            return Err(format!("reading: expected {:?}, got {:?}", self.answer, got.answer));
        }
        same("written again", &self.again, &got.again)
    }
}

/// An error with the first line that differs.
pub fn same(what: &str, expected: &[u8], got: &[u8]) -> Result<(), String> {
    if expected == got {
        return Ok(());
    }
    let lines = |text: &[u8]| text.split_inclusive(|byte| *byte == b'\n').map(<[u8]>::to_vec).collect::<Vec<_>>();
    let (expected, got) = (lines(expected), lines(got));
    let most = expected.len().max(got.len());
    let at = (0..most).find(|at| expected.get(*at) != got.get(*at)).unwrap_or(0);
    let show = |line: Option<&Vec<u8>>| {
        line.map_or("nothing".to_string(), |line| format!("{:?}", String::from_utf8_lossy(line)))
    };
    Err(format!("{what}, line {}: expected {}, got {}", at + 1, show(expected.get(at)), show(got.get(at))))
}

/// The programs under test. All but `resume` and `port_map` run a session where the folder has a `platform.fadt`, and
/// `why` and `save` go on from the saved text `state` where it has none.
pub struct Programs {
    /// The listing of a session, and of steps from a saved text.
    bench: PathBuf,
    resume: PathBuf,
    /// What setting up or reading is refused with.
    why: PathBuf,
    /// The saved text of the end.
    save: PathBuf,
    /// The ports of the table's blocks.
    port_map: PathBuf,
}

impl Programs {
    /// Those of the repository, or where BENCH says: then the others stand beside that `bench`.
    pub fn of(root: &Path) -> Programs {
        let other = std::env::var_os("BENCH").map(PathBuf::from);
        let named = |name: &str| match &other {
            Some(bench) if name == "bench" => bench.clone(),
            Some(bench) => bench.with_file_name(name),
            None => root.join(format!("crates/{name}/out/{name}")),
        };
        Programs {
            bench: named("bench"),
            resume: named("resume"),
            why: named("why"),
            save: named("save"),
            port_map: named("port_map"),
        }
    }

    pub fn present(&self) -> Result<(), String> {
        for program in [&self.bench, &self.resume, &self.why, &self.save, &self.port_map] {
            if !program.is_file() {
                return Err(format!("{} is missing: build it with rt", program.display()));
            }
        }
        Ok(())
    }

    pub fn outcome(&self, folder: &Path, table: &[u8], script: &[u8]) -> Result<Outcome, String> {
        let listing = self.listing(folder, table, script)?;
        let why = self.why(folder)?;
        let set_up = if why.starts_with("all is well") {
            Some(0)
        } else {
            why.strip_prefix("setting up is refused: ").and_then(|rest| rest.split(',').next()?.trim().parse().ok())
        };
        let (end, map) = (run(&self.save, &[], folder)?, run(&self.port_map, &[], folder)?);
        Ok(Outcome { listing, set_up, end, map })
    }

    pub fn listing(&self, folder: &Path, table: &[u8], script: &[u8]) -> Result<Vec<u8>, String> {
        lay(folder, [("platform.fadt", table), ("script", script)])?;
        run(&self.bench, &[], folder)
    }

    pub fn save(&self, folder: &Path, table: &[u8], script: &[u8]) -> Result<Vec<u8>, String> {
        lay(folder, [("platform.fadt", table), ("script", script)])?;
        run(&self.save, &[], folder)
    }

    // From a saved text, in a folder without a table.

    pub fn resume(&self, folder: &Path, state: &[u8], steps: &[u8]) -> Result<Vec<u8>, String> {
        lay(folder, [("state", state), ("script", steps)])?;
        run(&self.resume, &[], folder)
    }

    pub fn resume_save(&self, folder: &Path, state: &[u8], steps: &[u8]) -> Result<Vec<u8>, String> {
        lay(folder, [("state", state), ("script", steps)])?;
        run(&self.save, &[], folder)
    }

    /// The number, and, where it is 0, the text written again.
    pub fn read_back(&self, folder: &Path, state: &[u8]) -> Result<Reading, String> {
        lay(folder, [("state", state), ("script", b"")])?;
        let why = self.why(folder)?;
        match why.split(':').next() {
            Some("all is well") => Ok(Reading { answer: Some(0), again: run(&self.save, &[], folder)? }),
            number => Ok(Reading { answer: number.and_then(|number| number.parse().ok()), again: Vec::new() }),
        }
    }

    fn why(&self, folder: &Path) -> Result<String, String> {
        Ok(String::from_utf8_lossy(&run(&self.why, &[], folder)?).into_owned())
    }
}

/// A built copy of the model's own program.
pub struct ModelProgram(pub PathBuf);

impl ModelProgram {
    pub fn outcome(&self, folder: &Path, table: &[u8], script: &[u8]) -> Result<Outcome, String> {
        lay(folder, [("platform.fadt", table), ("script", script)])?;
        Ok(Outcome {
            listing: run(&self.0, &[], folder)?,
            set_up: String::from_utf8_lossy(&run(&self.0, &["--answer"], folder)?).trim().parse().ok(),
            end: run(&self.0, &["--save"], folder)?,
            map: run(&self.0, &["--map"], folder)?,
        })
    }

    pub fn read_back(&self, folder: &Path, state: &[u8]) -> Result<Reading, String> {
        lay(folder, [("script", state)])?;
        let printed = run(&self.0, &["--read"], folder)?;
        let mut parts = printed.splitn(2, |byte| *byte == b'\n');
        let answer = parts.next().and_then(|number| String::from_utf8_lossy(number).parse().ok());
        Ok(Reading { answer, again: parts.next().unwrap_or_default().to_vec() })
    }
}

fn lay<const N: usize>(folder: &Path, files: [(&str, &[u8]); N]) -> Result<(), String> {
    let write = || {
        fs::create_dir_all(folder)?;
        files.iter().try_for_each(|(name, bytes)| fs::write(folder.join(name), bytes))
    };
    write().map_err(|error| format!("{}: {error}", folder.display()))
}

/// What the program prints in the folder, with its file `script` as input; it has to end well.
fn run(program: &Path, arguments: &[&str], folder: &Path) -> Result<Vec<u8>, String> {
    let start = || {
        let script = File::open(folder.join("script"))?;
        Command::new(program).args(arguments).current_dir(folder).stdin(script).output()
    };
    let output = start().map_err(|error| format!("{}: {error}", program.display()))?;
    if !output.status.success() {
        return Err(format!("{} ends with {}", program.display(), output.status));
    }
    Ok(output.stdout)
}
