//! The proved library and a plain model side by side, the same work each: one table.
//!
//!     benches              measures every row
//!     benches ROW SIDE N   runs one row on one side, N turns, for a counter of instructions

mod ours;
mod plain;
mod saved;

use std::hint::black_box;
use std::process::{exit, Command};
use std::time::Instant;

const TABLE: &[u8] = include_bytes!("../../examples/ward/platform.fadt");

/// Where the table's PM1a event block begins.
const BASE: u64 = 0x400;

/// No general event is enabled: none is pending whatever the status bytes are, and a search for one goes to its end.
const ENABLES: u8 = 0;

const LIMIT: usize = 65_536;
const ROOM: usize = 1 << 20;
const REPEATS: usize = 15;

enum Work {
    Steps(u32),
    General,
    Called(u32),
    CalledGeneral,
    Lines,
    SetUp,
    Session,
    Write,
    Read,
}

struct Row {
    name: &'static str,
    work: Work,
    /// The table's numbers are of a unit: so many of them in a turn. A round has four or five steps.
    units: f64,
    turns: u64,
    counted: u64,
}

#[derive(Clone, Copy)]
enum Side {
    Ours,
    Plain,
}

struct Given {
    script: Vec<u8>,
    text: Vec<u8>,
    buffer: Vec<u8>,
}

fn rows(lines: usize) -> Vec<Row> {
    let short = |name, work, units| Row {
        name,
        work,
        units,
        turns: 210_000,
        counted: 2100,
    };
    let steps = |name, row, units| short(name, Work::Steps(row), units);
    let text = |name, work| Row {
        name,
        work,
        units: 1.0,
        turns: 1_000,
        counted: 1000,
    };
    let mut rows = vec![
        steps("status read", 0, 1.0),
        steps("write-back", 1, 1.0),
        steps("event", 2, 1.0),
        steps("tick(1)", 3, 1.0),
        steps("tick(2^32 - 1)", 4, 1.0),
        steps("interrupt round, whole", 5, 0.2),
        steps("sleep and wake round, whole", 6, 0.2),
        short("general event round, whole", Work::General, 0.25),
        short("status read, called", Work::Called(0), 1.0),
        short("write-back, called", Work::Called(1), 1.0),
        short("event, called", Work::Called(2), 1.0),
        short("tick(1), called", Work::Called(3), 1.0),
        short("tick(2^32 - 1), called", Work::Called(4), 1.0),
        short("interrupt round, called", Work::Called(5), 0.2),
        short("sleep and wake round, called", Work::Called(6), 0.2),
        short("general event round, called", Work::CalledGeneral, 0.25),
        short("SCI and SMI", Work::Lines, 1.0),
        Row {
            name: "setting up",
            work: Work::SetUp,
            units: 1.0,
            turns: 20_000,
            counted: 1000,
        },
        Row {
            name: "session of 65,536 bytes, a line",
            work: Work::Session,
            units: lines as f64,
            turns: 2,
            counted: 1,
        },
    ];
    if cfg!(feature = "saved") {
        rows.push(text("write a saved text", Work::Write));
        rows.push(text("read a saved text", Work::Read));
    }
    rows
}

/// A script of the limit's length: interrupt rounds, general events, sleeps and ticks. The last two lines fill it up.
fn script() -> Vec<u8> {
    const ROUND: &[&str] = &[
        "alarm", "r\t400\t2", "r\t440\t2", "w\t400\t2\t0", "w\t440\t2\t400", "tick\t3E8", "event\t3", "r\t420\t1",
        "w\t420\t1\t8", "w\t404\t2\t3400", "w\t444\t2\t2800", "press", "release", "w\t400\t2\t8100", "r\t408\t4",
    ];
    let mut script =
        b"platform\t0400\t0000\t0\t00\t-\t-\t52\t-\t70\nw\tB2\t1\tE1\ntake\nw\t402\t2\t100\nw\t442\t2\t400\n".to_vec();
    for line in ROUND.iter().cycle() {
        if LIMIT - script.len() <= 44 {
            break;
        }
        script.extend_from_slice(line.as_bytes());
        script.push(b'\n');
    }
    // "tick", a tab, 1 to 16 digits and LF: 7 to 22 bytes
    let rest = LIMIT - script.len();
    for long in [rest / 2, rest - rest / 2] {
        let digits = long - 6;
        script.extend_from_slice(format!("tick\t{:0digits$X}\n", 1).as_bytes());
    }
    script
}

/// The row's number for so many turns, and what the plain side wrote, where it writes.
fn run(row: &Row, side: Side, turns: u64, given: &mut Given) -> (u64, Vec<u8>) {
    let (table, base, turns) = (black_box(TABLE), black_box(BASE), black_box(turns));
    match (&row.work, side) {
        (Work::Steps(number), Side::Ours) => (ours::steps(table, base, black_box(*number), turns), Vec::new()),
        (Work::Steps(number), Side::Plain) => (plain::steps(table, base, black_box(*number), turns), Vec::new()),
        (Work::General, Side::Ours) => (ours::general(table, base, turns), Vec::new()),
        (Work::General, Side::Plain) => (plain::general(table, base, turns), Vec::new()),
        (Work::Called(number), Side::Ours) => (ours::called_steps(table, base, black_box(*number), turns), Vec::new()),
        (Work::Called(number), Side::Plain) => (plain::called_steps(table, base, black_box(*number), turns), Vec::new()),
        (Work::CalledGeneral, Side::Ours) => (ours::called_general(table, base, turns), Vec::new()),
        (Work::CalledGeneral, Side::Plain) => (plain::called_general(table, base, turns), Vec::new()),
        (Work::Lines, Side::Ours) => (ours::lines(table, black_box(ENABLES), turns), Vec::new()),
        (Work::Lines, Side::Plain) => (plain::lines(table, black_box(ENABLES), turns), Vec::new()),
        (Work::SetUp, Side::Ours) => (ours::set_up(table, turns), Vec::new()),
        (Work::SetUp, Side::Plain) => (plain::set_up(table, turns), Vec::new()),
        (Work::Session, Side::Ours) => (ours::session(table, &given.script, &mut given.buffer, turns), Vec::new()),
        (Work::Session, Side::Plain) => {
            let (listing, sum) = plain::session(table, &given.script, turns);
            (sum, listing)
        }
        (Work::Write, Side::Ours) => (ours::writes(&given.text, &mut given.buffer, turns), Vec::new()),
        (Work::Write, Side::Plain) => {
            let (text, sum) = plain::writes(&given.text, turns);
            (sum, text)
        }
        (Work::Read, Side::Ours) => (ours::reads(&given.text, turns), Vec::new()),
        (Work::Read, Side::Plain) => (plain::reads(&given.text, turns), Vec::new()),
    }
}

/// The best time of a turn on each side, in nanoseconds, and the two results, which must be equal.
fn timed(row: &Row, given: &mut Given) -> [f64; 2] {
    let mut best = [f64::INFINITY; 2];
    for _ in 0..REPEATS {
        let mut results = [0, 0];
        for side in [Side::Ours, Side::Plain] {
            let start = Instant::now();
            let (number, written) = run(row, side, row.turns, given);
            let spent = start.elapsed().as_nanos() as f64 / row.turns as f64;
            best[side as usize] = best[side as usize].min(spent);
            results[side as usize] = number;
            if given.buffer[..written.len()] != written[..] {
                eprintln!("{}: what the two write differs", row.name);
                exit(1);
            }
        }
        if results[0] != results[1] {
            eprintln!("{}: ours gives {}, the plain model {}", row.name, results[0], results[1]);
            exit(1);
        }
    }
    best
}

/// The instructions of a turn: two runs under callgrind that differ in the number of turns.
fn counted(row: &Row, number: usize, side: Side) -> Option<f64> {
    let collected = |turns: u64| {
        let output = Command::new("valgrind")
            .args(["--tool=callgrind", "--callgrind-out-file=/dev/null"])
            .arg(std::env::current_exe().ok()?)
            .args([number.to_string(), (side as usize).to_string(), turns.to_string()])
            .output()
            .ok()?;
        let text = String::from_utf8_lossy(&output.stderr).into_owned();
        let line = text.lines().find(|line| line.contains("Collected :"))?;
        line.rsplit(' ').next()?.parse::<f64>().ok()
    };
    Some((collected(2 * row.counted)? - collected(row.counted)?) / row.counted as f64)
}

fn column(value: Option<f64>, places: usize) -> String {
    value.map_or("-".to_string(), |value| format!("{value:.places$}"))
}

fn main() {
    let script = script();
    let lines = script.iter().filter(|byte| **byte == b'\n').count() - 1;
    let rows = rows(lines);
    let mut given = Given {
        script,
        text: plain::saved_text(TABLE),
        buffer: vec![0; ROOM],
    };

    let words: Vec<String> = std::env::args().skip(1).collect();
    if let [row, side, turns] = &words[..] {
        let side = if side == "0" { Side::Ours } else { Side::Plain };
        let row = &rows[row.parse::<usize>().expect("a row's number")];
        black_box(run(row, side, turns.parse().expect("a number of turns"), &mut given));
        return;
    }

    println!("row\tns ours\tns plain\tratio\tinstructions ours\tinstructions plain\tratio");
    for (number, row) in rows.iter().enumerate() {
        let ns = timed(row, &mut given).map(|spent| spent / row.units);
        let count = |side| counted(row, number, side).map(|count| count / row.units);
        let (ours, plain) = (count(Side::Ours), count(Side::Plain));
        let ratio = ours.zip(plain).map(|(ours, plain)| ours / plain);
        println!(
            "{}\t{:.1}\t{:.1}\t{:.2}\t{}\t{}\t{}",
            row.name,
            ns[0],
            ns[1],
            ns[0] / ns[1],
            column(ours, 1),
            column(plain, 1),
            column(ratio, 2)
        );
    }
}
