//! The saved text on the sessions' machines, and the kinds of damaged texts.

use std::collections::BTreeMap;

use model::{saved, set_up, Machine};

use crate::platform::Platform;
use crate::random::Random;
use crate::records::newest;
use crate::states::{damaged, legal, STATES};
use crate::steps::steps;

/// Writing and reading back gives the same machine.
fn round_trip(machine: &Machine) {
    let text = saved::write(machine);
    assert_eq!(saved::read(&text).as_ref(), Ok(machine), "{}", String::from_utf8_lossy(&text));
}

/// After setting up and after each step of a session; a machine read back goes on as the other does.
#[test]
fn round_trip_of_sessions() {
    let mut reached = BTreeMap::new();
    for seed in 1..=400 {
        let random = &mut Random::new(seed);
        let platform = Platform::any(random);
        let table = platform.table(random);
        let mut machine = set_up(&table, &platform.settings).expect("a whole platform");
        round_trip(&machine);
        let session = steps(random, machine.clone(), 150);
        let half = session.len() / 2;
        let mut carried = machine.clone();
        for (i, step) in session.iter().enumerate() {
            if i == half {
                carried = saved::read(&saved::write(&carried)).expect("a legal machine");
            }
            assert_eq!(machine.step(step), carried.step(step));
            assert_eq!(machine, carried);
            round_trip(&machine);
            let mut reach = |name: String, holds: bool| *reached.entry(name).or_insert(0) += u64::from(holds);
            for state in 0..=5 {
                reach(format!("S{state}"), machine.state == state);
            }
            reach("armed".to_string(), machine.armed);
            reach("command".to_string(), machine.command.is_some());
            reach("release flag".to_string(), machine.release);
            reach("button down".to_string(), machine.down);
            reach("hold at its limit".to_string(), machine.hold == model::HOLD_LIMIT);
            reach("ARB_DIS".to_string(), machine.arb_dis);
            reach("BM_RLD".to_string(), machine.bm_rld);
            reach("wake pin active".to_string(), machine.pin);
        }
    }
    for (name, times) in reached {
        println!("{name}\t{times}");
        assert!(times > 0, "{name}");
    }
}

/// Every kind on many texts: reading answers what its row says; an accepted text is written again as it was, one of
/// edition 1 in edition 2; and what steps make of its machine is legal.
#[test]
fn kinds_of_states() {
    let mut answers = BTreeMap::new();
    for seed in 1..=60 {
        let random = &mut Random::new(seed);
        for kind in STATES {
            let text = kind.apply(&legal(random), random);
            let read = saved::read(&text);
            let answer = *read.as_ref().err().unwrap_or(&0);
            let shown = || format!("{}, seed {seed}:\n{}", kind.name, String::from_utf8_lossy(&text));
            assert!(kind.answer.is_none_or(|expected| expected == answer), "{answer}: {}", shown());
            *answers.entry((kind.name, answer)).or_insert(0u64) += 1;
            let Ok(mut machine) = read else {
                continue;
            };
            assert_eq!(saved::write(&machine), newest(&text), "{}", shown());
            for step in steps(random, machine.clone(), 20) {
                machine.step(&step);
                round_trip(&machine);
            }
        }
    }
    // The kinds without a number of their own give every number.
    for kind in STATES.iter().filter(|kind| kind.answer.is_none()) {
        let given: Vec<u8> = answers.keys().filter(|row| row.0 == kind.name).map(|row| row.1).collect();
        println!("{}: {given:?}", kind.name);
    }
    let count = |answer: u8| STATES.iter().filter(|kind| kind.answer == Some(answer)).count();
    println!(
        "{} kinds: {} of 0, {} of 40, {} of 41, {} of 42",
        STATES.len(),
        count(0),
        count(40),
        count(41),
        count(42)
    );
}

#[test]
fn names_are_apart() {
    for (i, kind) in STATES.iter().enumerate() {
        assert!(STATES[..i].iter().all(|other| other.name != kind.name), "{}", kind.name);
    }
}

/// `damaged` reaches every kind.
#[test]
fn damaged_reaches_all() {
    let random = &mut Random::new(1);
    let text = legal(random);
    let mut left: Vec<&str> = STATES.iter().map(|kind| kind.name).collect();
    for _ in 0..40 * STATES.len() {
        let (kind, text) = damaged(&text, random);
        assert!(kind.answer.is_none_or(|answer| answer == saved::read(&text).err().unwrap_or(0)), "{}", kind.name);
        left.retain(|name| *name != kind.name);
    }
    assert!(left.is_empty(), "{left:?}");
}
