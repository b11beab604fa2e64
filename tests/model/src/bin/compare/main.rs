//! Compares the built programs with the model: random sessions, saved texts, the examples, and the model's faults. Run by
//! `tests/compare`.

mod carried;
mod cases;
mod coverage;
mod damage;
mod faults;
mod halves;
mod platform;
mod programs;
mod random;
mod records;
mod sessions;
mod states;
#[cfg(test)]
mod states_tests;
mod steps;
mod text;
mod texts;

use std::fs;
use std::path::{Path, PathBuf};
use std::process::ExitCode;
use std::sync::atomic::{AtomicU64, Ordering};
use std::sync::Mutex;

use carried::Cut;
use cases::{Case, SEEDS};
use coverage::Coverage;
use programs::{same, Outcome, Programs, Reading};
use records::newest;
use sessions::Session;
use texts::{Text, Texts};

const WORKERS: usize = 2;

const USAGE: &str =
    "usage: tests/compare             random sessions, saved texts and the examples, the programs against the model
       tests/compare --seed N    one session, and its folder
       tests/compare --text N    one saved text, and its folder
       tests/compare --faults    each fault of tests/FAULTS.md is found by its seed or text
       tests/compare --find      the first seed or text that finds each fault
       tests/compare --states SEED N [FOLDER]
                                 N saved texts, damaged or not, and what the model answers to each
BENCH names another bench than crates/bench/out/bench; why, save, resume and port_map stand beside it.";

/// The project's folder, the programs, a run's saved texts, and a temporary folder for each worker.
pub struct Places {
    pub root: PathBuf,
    pub programs: Programs,
    pub texts: Texts,
    pub work: PathBuf,
}

fn main() -> ExitCode {
    let arguments: Vec<String> = std::env::args().skip(1).collect();
    let words: Vec<&str> = arguments.iter().map(String::as_str).collect();
    let Some((root, words)) = words.split_first() else {
        return usage();
    };
    let places = Places {
        root: PathBuf::from(root),
        programs: Programs::of(Path::new(root)),
        texts: Texts::new(),
        work: std::env::temp_dir().join(format!("compare-{}", std::process::id())),
    };
    let run: fn(&Places) -> Result<(), String> = match words {
        [] => compare,
        ["--faults"] => faults::check,
        ["--find"] => faults::find,
        [word @ ("--seed" | "--text"), number] => match Case::read(&format!("{} {number}", &word[2..])) {
            Some(case) => return end(places.programs.present().and_then(|()| again(&places, case))),
            None => return usage(),
        },
        ["--states", seed, count, folder @ ..] if folder.len() < 2 => match (seed.parse(), count.parse()) {
            (Ok(seed), Ok(count)) => return end(states::print(seed, count, folder.first().map(Path::new))),
            _ => return usage(),
        },
        ["--help"] => {
            println!("{USAGE}");
            return ExitCode::SUCCESS;
        }
        _ => return usage(),
    };
    let result = places.programs.present().and_then(|()| run(&places));
    let _ = fs::remove_dir_all(&places.work);
    end(result)
}

fn usage() -> ExitCode {
    eprintln!("{USAGE}");
    ExitCode::from(2)
}

fn end(result: Result<(), String>) -> ExitCode {
    match result {
        Ok(()) => ExitCode::SUCCESS,
        Err(reason) => {
            println!("compare: FAILED: {reason}");
            ExitCode::FAILURE
        }
    }
}

/// Does the work for 1 to `last`, each number once, in two threads; gives what each thread made.
pub fn in_parallel<T: Send>(last: u64, make: impl Fn(usize) -> T + Sync, work: impl Fn(&mut T, u64) + Sync) -> Vec<T> {
    let next = AtomicU64::new(1);
    let worker = |number: usize| {
        let mut made = make(number);
        loop {
            let item = next.fetch_add(1, Ordering::Relaxed);
            if item > last {
                return made;
            }
            work(&mut made, item);
        }
    };
    std::thread::scope(|scope| {
        let threads: Vec<_> = (0..WORKERS).map(|number| scope.spawn(move || worker(number))).collect();
        threads.into_iter().map(|thread| thread.join().expect("a worker ends")).collect()
    })
}

fn compare(places: &Places) -> Result<(), String> {
    let cases = Case::all(&places.texts);
    let differences = Mutex::new(Vec::new());
    let make = |worker: usize| (places.work.join(worker.to_string()), Coverage::new());
    let workers = in_parallel(cases.len() as u64, make, |(folder, coverage), number| {
        let case = cases[number as usize - 1];
        if let Err(reason) = one_case(places, folder, coverage, case) {
            differences.lock().expect("no worker fails").push((case, reason));
        }
    });
    let mut coverage = Coverage::new();
    for (_, part) in &workers {
        coverage.add(part);
    }
    println!("reached\ttimes");
    for (name, times) in &coverage.rows {
        println!("{name}\t{times}");
    }

    let mut differences = differences.into_inner().expect("no worker fails");
    differences.sort();
    for (case, reason) in differences.iter().take(10) {
        println!("{case}: {reason}\n    again: tests/compare --{case}");
    }
    let examples = examples(places)?;
    let missing: Vec<&str> = coverage.rows.iter().filter(|row| row.1 == 0).map(|row| row.0.as_str()).collect();
    for name in &missing {
        println!("not reached: {name}");
    }
    println!(
        "{examples} examples; {} whole sessions with a mean of {} steps, each cut, saved and resumed; {} with damage or at a \
         limit",
        grouped(coverage.whole_sessions),
        coverage.whole_steps / coverage.whole_sessions.max(1),
        grouped(SEEDS - coverage.whole_sessions),
    );
    println!("{} saved texts refused, {} accepted", grouped(coverage.refused), grouped(coverage.accepted));
    let count = format!(
        "{} sessions, {} steps, {} saved texts, {} differences",
        grouped(SEEDS),
        grouped(coverage.steps),
        grouped(places.texts.count()),
        grouped(differences.len() as u64)
    );
    if !differences.is_empty() || !missing.is_empty() {
        return Err(format!("{count}, {} rows not reached", missing.len()));
    }
    println!("compare: {count}");
    Ok(())
}

fn one_case(places: &Places, folder: &Path, coverage: &mut Coverage, case: Case) -> Result<(), String> {
    match case {
        Case::Seed(seed) => one_session(places, folder, coverage, &Session::of(seed)),
        Case::Text(number) => one_text(places, &folder.join("text"), coverage, &places.texts.text(number)),
    }
}

/// The programs print what the model does, for the session, for its moved list, and over its cut.
fn one_session(places: &Places, folder: &Path, coverage: &mut Coverage, session: &Session) -> Result<(), String> {
    coverage.session(session)?;
    let expected = Outcome::of_model(&session.table, &session.script);
    expected.same_as(&places.programs.outcome(folder, &session.table, &session.script)?)?;
    if let Some(moved) = coverage.halves(session)? {
        let expected = model::session(&session.table, &moved).unwrap_or_default();
        same("moved list", &expected, &places.programs.listing(folder, &session.table, &moved)?)?;
    }
    match Cut::of(session) {
        Some(cut) => {
            coverage.cut(&cut);
            cut.check(&places.programs, folder, &session.table, &expected)
        }
        None => Ok(()),
    }
}

/// Reading answers the model's number, an accepted text is written again as it was, one of edition 1 in edition 2, and a
/// refused one gives nothing.
fn one_text(places: &Places, folder: &Path, coverage: &mut Coverage, text: &Text) -> Result<(), String> {
    coverage.text(text)?;
    let expected = Reading::of_model(&text.bytes);
    expected.same_as(&places.programs.read_back(folder, &text.bytes)?)?;
    if expected.answer == Some(0) {
        return same("written again", &newest(&text.bytes), &expected.again);
    }
    if text.first {
        same("resumed", b"", &places.programs.resume(folder, &text.bytes, b"")?)?;
        same("resumed and saved", b"", &places.programs.resume_save(folder, &text.bytes, b"")?)?;
    }
    Ok(())
}

/// Every folder of examples/: its listing is what the model prints, and bench.
fn examples(places: &Places) -> Result<usize, String> {
    let folder = places.root.join("examples");
    let entries = fs::read_dir(&folder).map_err(|error| format!("{}: {error}", folder.display()))?;
    let mut folders: Vec<PathBuf> = entries.flatten().map(|entry| entry.path()).filter(|path| path.is_dir()).collect();
    folders.sort();
    for folder in &folders {
        let file =
            |name: &str| fs::read(folder.join(name)).map_err(|error| format!("{}/{name}: {error}", folder.display()));
        let (table, script) = (file("platform.fadt")?, file("script")?);
        let by = |reason: String| format!("{}: {reason}", folder.display());
        let expected = Outcome::of_model(&table, &script);
        same("listing of the model", &file("listing")?, &expected.listing).map_err(by)?;
        let got = places.programs.outcome(&places.work.join("0"), &table, &script)?;
        expected.same_as(&got).map_err(by)?;
    }
    if folders.is_empty() {
        return Err(format!("{}: no example", folder.display()));
    }
    Ok(folders.len())
}

fn again(places: &Places, case: Case) -> Result<(), String> {
    let result = match case {
        Case::Seed(seed) => one_seed(places, seed),
        Case::Text(number) if (1..=places.texts.count()).contains(&number) => text_again(places, number),
        Case::Text(_) => Err(format!("there are {} texts", places.texts.count())),
    };
    result.map_err(|reason| format!("{case}: {reason}"))?;
    println!("compare: {case}, 0 differences");
    Ok(())
}

/// One session, left in a folder with both listings, saved texts and port maps; its moved list and what stands on both
/// sides of the cut beside.
fn one_seed(places: &Places, seed: u64) -> Result<(), String> {
    let session = Session::of(seed);
    let folder = places.root.join(format!("target/tests/seed-{seed}"));
    let mut coverage = Coverage::new();
    let mut scripts = vec![(folder.clone(), session.script.clone())];
    let halves = coverage.halves(&session);
    if let Ok(Some(moved)) = &halves {
        scripts.push((folder.join("moved"), moved.clone()));
    }
    let cut = Cut::of(&session);
    if let Some(cut) = &cut {
        scripts.push((folder.join("first"), cut.first.clone()));
    }
    let mut result = coverage.session(&session).and(halves.map(|_| ()));
    for (folder, script) in &scripts {
        let expected = Outcome::of_model(&session.table, script);
        let got = places.programs.outcome(folder, &session.table, script)?;
        for (name, outcome) in [("expected", &expected), ("got", &got)] {
            leave(folder, name, &outcome.listing)?;
            leave(folder, &format!("{name}.saved"), &outcome.end)?;
            leave(folder, &format!("{name}.map"), &outcome.map)?;
        }
        println!(
            "{}: platform.fadt, script; expected (the model's), got (the programs'), both saved and mapped",
            folder.display()
        );
        result = result.and(expected.same_as(&got));
    }
    if let Some(cut) = &cut {
        let uncut = Outcome::of_model(&session.table, &session.script);
        result = result.and(cut.check(&places.programs, &folder, &session.table, &uncut));
        println!("{}: state (saved after step {}), script (the steps left)", folder.join("rest").display(), cut.at);
    }
    result
}

/// One saved text, left in a folder.
fn text_again(places: &Places, number: u64) -> Result<(), String> {
    let text = places.texts.text(number);
    let folder = places.root.join(format!("target/tests/text-{number}"));
    let result = one_text(places, &folder, &mut Coverage::new(), &text);
    println!("{}: state ({})", folder.display(), text.name);
    result
}

fn leave(folder: &Path, name: &str, bytes: &[u8]) -> Result<(), String> {
    fs::write(folder.join(name), bytes).map_err(|error| error.to_string())
}

/// 12345 as 12,345.
fn grouped(number: u64) -> String {
    let digits = number.to_string();
    let mut grouped = String::new();
    for (i, digit) in digits.chars().enumerate() {
        if i > 0 && (digits.len() - i).is_multiple_of(3) {
            grouped.push(',');
        }
        grouped.push(digit);
    }
    grouped
}
