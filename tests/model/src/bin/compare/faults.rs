//! The faults of tests/FAULTS.md: each is an edit of the model, built apart, that the session of its seed, or its saved
//! text, tells from the programs.

use std::fs;
use std::path::Path;
use std::process::Command;
use std::sync::Mutex;

use crate::carried::Cut;
use crate::cases::Case;
use crate::programs::{ModelProgram, Outcome, Reading};
use crate::sessions::Session;
use crate::{in_parallel, Places};

struct Fault {
    name: String,
    case: Option<Case>,
    file: String,
    /// The lines as they stand, and as the fault has them.
    old: String,
    new: String,
}

/// Reads `## name`, `Seed N.` or `Text N.` at a line's end, and the diff: a file's name, then lines after ` `, `-` or `+`.
fn read(text: &str) -> Result<Vec<Fault>, String> {
    let mut faults = Vec::new();
    for part in text.split("\n## ").skip(1) {
        let (name, rest) = part.split_once('\n').unwrap_or((part, ""));
        let wrong = |what: &str| format!("tests/FAULTS.md: {name}: {what}");
        let (sentence, rest) = rest.split_once("```diff\n").ok_or_else(|| wrong("no diff"))?;
        let (diff, _) = rest.split_once("\n```").ok_or_else(|| wrong("no end of the diff"))?;
        let (file, diff) = diff.split_once('\n').ok_or_else(|| wrong("no lines in the diff"))?;
        let case = sentence.trim_end().strip_suffix('.').and_then(|text| Case::read(text.rsplit_once(". ")?.1));
        let (mut old, mut new) = (String::new(), String::new());
        for line in diff.lines() {
            let text = line.get(1..).unwrap_or("");
            if !line.starts_with('+') {
                old += &format!("{text}\n");
            }
            if !line.starts_with('-') {
                new += &format!("{text}\n");
            }
        }
        faults.push(Fault { name: name.to_string(), case, file: file.to_string(), old, new });
    }
    Ok(faults)
}

impl Fault {
    /// Builds the model's program with this edit.
    fn build(&self, model: &Path, folder: &Path) -> Result<ModelProgram, String> {
        let wrong = |what: String| format!("{}: {what}", self.name);
        let made = fs::create_dir_all(folder).and_then(|()| {
            for entry in fs::read_dir(model)?.flatten().filter(|entry| entry.path().is_file()) {
                fs::copy(entry.path(), folder.join(entry.file_name()))?;
            }
            fs::read_to_string(folder.join(&self.file))
        });
        let source = made.map_err(|error| wrong(format!("{}: {error}", self.file)))?;
        let times = source.matches(&self.old).count();
        if times != 1 {
            return Err(wrong(format!("its old lines stand {times} times in {}", self.file)));
        }
        let edited = source.replace(&self.old, &self.new);
        fs::write(folder.join(&self.file), edited).map_err(|error| wrong(error.to_string()))?;
        rustc(folder, &["--crate-type=rlib", "--crate-name=model", "lib.rs"]).map_err(wrong)?;
        rustc(folder, &["--crate-name=faulty", "--extern=model=libmodel.rlib", "main.rs"]).map_err(wrong)?;
        Ok(ModelProgram(folder.join("faulty")))
    }
}

fn rustc(folder: &Path, arguments: &[&str]) -> Result<(), String> {
    let rustc = std::env::var_os("RUSTC").unwrap_or_else(|| "rustc".into());
    let output = Command::new(rustc)
        .args(["--edition=2021", "--cap-lints=allow", "-Cdebug-assertions=off"])
        .args(arguments)
        .current_dir(folder)
        .output()
        .map_err(|error| format!("rustc: {error}"))?;
    if output.status.success() {
        Ok(())
    } else {
        Err(format!("does not build:\n{}", String::from_utf8_lossy(&output.stderr)))
    }
}

/// Some(difference) where this case tells the faulty program from the built ones.
fn differs(places: &Places, folder: &Path, faulty: &ModelProgram, case: Case) -> Result<Option<String>, String> {
    match case {
        Case::Seed(seed) => {
            let session = Session::of(seed);
            let difference = session_differs(places, folder, faulty, &session.table, &session.script)?;
            match (difference, Cut::of(&session)) {
                (None, Some(cut)) => session_differs(places, folder, faulty, &session.table, &cut.first),
                (difference, _) => Ok(difference),
            }
        }
        Case::Text(number) => text_differs(places, &folder.join("text"), faulty, &places.texts.text(number).bytes),
    }
}

fn session_differs(
    places: &Places,
    folder: &Path,
    faulty: &ModelProgram,
    table: &[u8],
    script: &[u8],
) -> Result<Option<String>, String> {
    let built = places.programs.outcome(folder, table, script)?;
    Outcome::of_model(table, script).same_as(&built).map_err(without_a_fault)?;
    Ok(built.same_as(&faulty.outcome(folder, table, script)?).err())
}

fn text_differs(places: &Places, folder: &Path, faulty: &ModelProgram, text: &[u8]) -> Result<Option<String>, String> {
    let built = places.programs.read_back(folder, text)?;
    Reading::of_model(text).same_as(&built).map_err(without_a_fault)?;
    Ok(built.same_as(&faulty.read_back(folder, text)?).err())
}

fn without_a_fault(reason: String) -> String {
    format!("the model without a fault differs: {reason}")
}

/// Each fault is found by its seed or text.
pub fn check(places: &Places) -> Result<(), String> {
    each(places, |fault, folder, faulty| {
        let case = fault.case.ok_or_else(|| format!("{}: no seed or text", fault.name))?;
        match differs(places, folder, faulty, case)? {
            Some(difference) => Ok(format!("{}\t{case}\t{difference}", fault.name)),
            None => Err(format!("{}: not found by {case}", fault.name)),
        }
    })
}

/// The first seed that finds each fault; of the saved text's faults, the first text or else the first seed.
pub fn find(places: &Places) -> Result<(), String> {
    let (mut texts, seeds) =
        Case::all(&places.texts).into_iter().partition::<Vec<_>, _>(|case| matches!(case, Case::Text(_)));
    texts.extend(&seeds);
    each(places, |fault, folder, faulty| {
        for case in if fault.file == "saved.rs" { &texts } else { &seeds } {
            if let Some(difference) = differs(places, folder, faulty, *case)? {
                return Ok(format!("{}\t{case}\t{difference}", fault.name));
            }
        }
        Err(format!("{}: found by no case", fault.name))
    })
}

/// Builds every fault and judges it; prints a line for each, in the list's order.
fn each(
    places: &Places,
    judge: impl Fn(&Fault, &Path, &ModelProgram) -> Result<String, String> + Sync,
) -> Result<(), String> {
    let list = places.root.join("tests/FAULTS.md");
    let text = fs::read_to_string(&list).map_err(|error| format!("{}: {error}", list.display()))?;
    let faults = read(&text)?;
    let model = places.root.join("tests/model/src");
    let results = Mutex::new(Vec::new());
    in_parallel(
        faults.len() as u64,
        |_| (),
        |(), number| {
            let fault = &faults[number as usize - 1];
            let folder = places.work.join(&fault.name);
            let result = fault.build(&model, &folder).and_then(|faulty| judge(fault, &folder, &faulty));
            results.lock().expect("no worker fails").push((number, result));
        },
    );
    let mut results = results.into_inner().expect("no worker fails");
    results.sort_by_key(|result| result.0);
    let mut failed = 0;
    for (_, result) in results {
        match result {
            Ok(line) => println!("{line}"),
            Err(reason) => {
                println!("FAILED: {reason}");
                failed += 1;
            }
        }
    }
    if failed > 0 || faults.is_empty() {
        return Err(format!("{failed} of {} faults", faults.len()));
    }
    println!("compare: {} faults, all found", faults.len());
    Ok(())
}
