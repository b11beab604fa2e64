//! The saved text: that of a known machine, each clause of W2's list on both sides, each form of a value, and the
//! editions.

use std::fs;
use std::path::Path;

use crate::saved::{read, write};
use crate::{Machine, Step};

/// Every block there and every event fitted; RTC and BM at B, and so are BM_RLD and GBL_RLS; S2 absent; the pin active.
/// Spaces stand for tabs.
const FULL: &str = "edition 2
SMI_CMD 00000000000000B2
ACPI_ENABLE E1
ACPI_DISABLE 1E
PM1a_EVT_BLK 0000000000000400
PM1b_EVT_BLK 0000000000000440
PM1a_CNT_BLK 0000000000000404
PM1b_CNT_BLK 0000000000000444
PM2_CNT_BLK 0000000000000450
PM_TMR_BLK 0000000000000408
GPE0_BLK 0000000000000420
GPE1_BLK 0000000000000460
PM1_EVT_LEN 04
PM1_CNT_LEN 02
PM2_CNT_LEN 01
PM_TMR_LEN 04
GPE0_BLK_LEN 04
GPE1_BLK_LEN 08
GPE1_BASE 30
FLAGS 00004000
EVENT_HOMES 0410
CONTROL_HOMES 0006
OVERRIDE 1
S0 0000
S1 0101
S2 FFFF
S3 0502
S4 0103
S5 0700
PM1a_STS 8120
PM1b_STS 0410
PM1a_EN 4321
PM1b_EN 0400
PM1a_CNT 1401
PM1b_CNT 0802
PM2_CNT 01
PM_TMR 00ABCDEF
HOLD 00DA7A63
BUTTON 1
COMMAND 1E1
RELEASE 1
ARMED 0
STATE 0
WAKE_PIN 1
GPE0_STS 01A0
GPE0_EN 8002
GPE1_STS 0123456F
GPE1_EN 89ABCDEF
";

/// As little as there can be: PM1a alone, nothing fitted that can be left out.
const LEAST: &str = "edition 2
SMI_CMD 0000000000000000
ACPI_ENABLE 00
ACPI_DISABLE 00
PM1a_EVT_BLK 0000000000000004
PM1b_EVT_BLK 0000000000000000
PM1a_CNT_BLK 0000000000000002
PM1b_CNT_BLK 0000000000000000
PM2_CNT_BLK 0000000000000000
PM_TMR_BLK 0000000000000000
GPE0_BLK 0000000000000000
GPE1_BLK 0000000000000000
PM1_EVT_LEN 04
PM1_CNT_LEN 02
PM2_CNT_LEN 00
PM_TMR_LEN 00
GPE0_BLK_LEN 00
GPE1_BLK_LEN 00
GPE1_BASE 00
FLAGS 00000070
EVENT_HOMES 0000
CONTROL_HOMES 0000
OVERRIDE 0
S0 FFFF
S1 FFFF
S2 FFFF
S3 FFFF
S4 FFFF
S5 FFFF
PM1a_STS 0000
PM1b_STS 0000
PM1a_EN 0000
PM1b_EN 0000
PM1a_CNT 0001
PM1b_CNT 0000
PM2_CNT 00
PM_TMR 00000000
HOLD 00000000
BUTTON 0
COMMAND 000
RELEASE 0
ARMED 0
STATE 0
WAKE_PIN 0
GPE0_STS \nGPE0_EN \nGPE1_STS \nGPE1_EN \n";

const RECORDS: usize = 47;

fn tabbed(text: &str) -> Vec<u8> {
    text.replace(' ', "\t").into_bytes()
}

/// The text with these records' values in place of its own.
fn with(text: &str, records: &[(&str, &str)]) -> Vec<u8> {
    let mut lines: Vec<String> = text.lines().map(str::to_string).collect();
    for (name, value) in records {
        let at = lines.iter().position(|line| line.split(' ').next() == Some(name)).expect("a record");
        lines[at] = format!("{name} {value}");
    }
    tabbed(&(lines.join("\n") + "\n"))
}

/// Reading's number; an accepted text is written again as it was.
fn answer(text: &[u8]) -> u8 {
    match read(text) {
        Ok(machine) => {
            assert_eq!(String::from_utf8_lossy(&write(&machine)), String::from_utf8_lossy(text));
            0
        }
        Err(number) => number,
    }
}

fn full() -> Machine {
    read(&tabbed(FULL)).expect("a legal text")
}

/// Each row: the number, and the records that are not the text's own.
fn check(text: &str, rows: &[(u8, &[(&str, &str)])]) {
    assert_eq!(answer(&tabbed(text)), 0);
    for (number, records) in rows {
        assert_eq!(answer(&with(text, records)), *number, "{records:?}");
    }
}

#[test]
fn worked_session_saved() {
    let mut table = vec![0; 116];
    table[..4].copy_from_slice(b"FACP");
    (table[4], table[8], table[52], table[53]) = (116, 1, 0xE1, 0x1E);
    for (at, low, high) in
        [(48, 0xB2, 0), (56, 0, 4), (60, 0x40, 4), (64, 4, 4), (68, 0x44, 4), (76, 8, 4), (80, 0x20, 4)]
    {
        (table[at], table[at + 1]) = (low, high);
    }
    table[88..93].copy_from_slice(&[4, 2, 0, 4, 4]);
    table[9] = table.iter().fold(0u8, |sum, byte| sum.wrapping_sub(*byte));
    let script = "platform 0400 0000 0 00 - - 52 - 70\nw B2 1 E1\ntake\nw 402 2 100\nw 442 2 400\nalarm\nr 400 2\n\
                  r 440 2\nw 404 2 3400\nw 444 2 2800\nr 400 2\n";
    let (settings, steps) = crate::read_script(&tabbed(script)).unwrap();
    let mut machine = crate::set_up(&table, &settings).unwrap();
    let expected = |records: &[(&str, &str)]| {
        let platform = [
            ("SMI_CMD", "00000000000000B2"),
            ("ACPI_ENABLE", "E1"),
            ("ACPI_DISABLE", "1E"),
            ("PM1a_EVT_BLK", "0000000000000400"),
            ("PM1b_EVT_BLK", "0000000000000440"),
            ("PM1a_CNT_BLK", "0000000000000404"),
            ("PM1b_CNT_BLK", "0000000000000444"),
            ("PM_TMR_BLK", "0000000000000408"),
            ("PM_TMR_LEN", "04"),
            ("GPE0_BLK", "0000000000000420"),
            ("GPE0_BLK_LEN", "04"),
            ("FLAGS", "00000000"),
            ("EVENT_HOMES", "0400"),
            ("S0", "0000"),
            ("S3", "0502"),
            ("S5", "0700"),
            ("GPE0_STS", "0000"),
            ("GPE0_EN", "0000"),
        ];
        String::from_utf8(with(LEAST, &[&platform, records].concat())).unwrap()
    };
    let saved = |machine: &Machine| String::from_utf8(write(machine)).unwrap();
    assert_eq!(saved(&machine), expected(&[("PM1a_CNT", "0000")]));
    for step in &steps {
        machine.step(step);
    }
    let end = [
        ("PM1a_STS", "8000"),
        ("PM1b_STS", "0400"),
        ("PM1a_EN", "0100"),
        ("PM1b_EN", "0400"),
        ("PM1a_CNT", "1401"),
        ("PM1b_CNT", "0800"),
    ];
    assert_eq!(saved(&machine), expected(&end));
    assert_eq!(read(&write(&machine)), Ok(machine));
}

/// The machine that a text says, part by part.
#[test]
fn full_text_read() {
    let machine = full();
    assert_eq!((machine.status, machine.enable), (0x8530, 0x4721));
    assert_eq!((machine.sci_en, machine.bm_rld, machine.slp_typ, machine.arb_dis), (true, true, [5, 2], true));
    assert_eq!((machine.counter, machine.hold, machine.down), (0xABCDEF, 14_318_179, true));
    assert_eq!((machine.command, machine.release, machine.armed, machine.state), (Some(0xE1), true, false, 0));
    assert!(machine.pin);
    assert_eq!(machine.gpe[0].status, [0x01, 0xA0, 0, 0, 0, 0, 0, 0]);
    assert_eq!(machine.gpe[0].enable, [0x80, 0x02, 0, 0, 0, 0, 0, 0]);
    assert_eq!(machine.gpe[1].status, [0x01, 0x23, 0x45, 0x6F, 0, 0, 0, 0]);
    assert_eq!(machine.gpe[1].enable, [0x89, 0xAB, 0xCD, 0xEF, 0, 0, 0, 0]);
    let hardware = &machine.hardware;
    assert_eq!(hardware.states, [Some((0, 0)), Some((1, 1)), None, Some((5, 2)), Some((1, 3)), Some((7, 0))]);
    assert_eq!((hardware.event_homes, hardware.control_homes, hardware.power_override), (0x410, 6, true));
    assert_eq!((hardware.acpi_enable, hardware.acpi_disable, hardware.gpe_base), (0xE1, 0x1E, [0, 0x30]));
}

/// The registers of the text are what the guest reads.
#[test]
fn as_the_guest_reads() {
    let mut machine = full();
    let mut read = |port: u64, width: u32| machine.step(&Step::Read { port, width });
    for (port, shown) in
        [(0x400, 0x8120), (0x440, 0x0410), (0x402, 0x4321), (0x442, 0x0400), (0x404, 0x1401), (0x444, 0x0802)]
    {
        assert_eq!(read(port, 2), (0, shown));
    }
    for (port, shown) in [(0x450, 1), (0x420, 0x01), (0x421, 0xA0), (0x422, 0x80), (0x460, 0x01), (0x467, 0xEF)] {
        assert_eq!(read(port, 1), (0, shown));
    }
    assert_eq!(read(0x408, 4), (0, 0xABCDEF));
}

/// Any machine has a text, the most broken too.
#[test]
fn any_machine_has_a_text() {
    let mut machine = full();
    (machine.status, machine.enable, machine.slp_typ) = (0xFFFF, 0xFFFF, [0xFF, 0xFF]);
    (machine.state, machine.hold, machine.counter) = (0xFF, u32::MAX, u32::MAX);
    machine.hardware.gpe[0].length = 255;
    machine.hardware.states = [Some((0xFF, 0xFF)); 6];
    let text = String::from_utf8(write(&machine)).unwrap();
    assert_eq!(text.lines().count(), 1 + RECORDS);
}

#[test]
fn first_line() {
    let rest = &tabbed(FULL)["edition\t2".len()..];
    for (number, first) in [
        (0, "edition\t2"),
        (41, "edition\t1"),
        (40, "edition\t3"),
        (40, "edition\t0"),
        (40, "edition\t02"),
        (40, "edition\t01"),
        (40, "edition\t2 "),
        (40, "edition\t2\t"),
        (40, "edition\t2\r"),
        (40, "edition\t22"),
        (40, "edition\t12"),
        (40, "edition\t"),
        (40, "edition"),
        (40, "edition 2"),
        (40, "edition\t\t2"),
        (40, " edition\t2"),
        (40, "Edition\t2"),
        (40, "EDITION\t2"),
        (40, "\u{FEFF}edition\t2"),
        (40, "\0"),
        (40, ""),
        (40, "\nedition\t2"),
    ] {
        assert_eq!(answer(&[first.as_bytes(), rest].concat()), number, "{first:?}");
    }
    assert_eq!(answer(b""), 40);
    assert_eq!(answer(b"\n"), 40);
    // Without an LF the first line is the whole text.
    for edition in ["edition\t1", "edition\t2"] {
        assert_eq!(answer(edition.as_bytes()), 41);
        assert_eq!(answer(format!("{edition}\n").as_bytes()), 41);
        assert_eq!(answer(format!("{edition}\n\n").as_bytes()), 41);
    }
    assert_eq!(answer(b"edition\t3"), 40);
    assert_eq!(answer(FULL.replace(' ', "\t").replace('\n', "").as_bytes()), 40);
    assert_eq!(answer(FULL.replace(' ', "\t").replace('\n', "\r\n").as_bytes()), 40);
    assert_eq!(answer(FULL.as_bytes()), 40);
    assert_eq!(answer(&rest[1..]), 40);
}

#[test]
fn lines_missing_surplus_or_swapped() {
    let text = tabbed(FULL);
    let lines: Vec<&[u8]> = text.split_inclusive(|byte| *byte == b'\n').collect();
    assert_eq!(lines.len(), 1 + RECORDS);
    for at in 1..lines.len() {
        let mut changed = lines.clone();
        changed.remove(at);
        assert_eq!(answer(&changed.concat()), 41, "line {at} missing");
        changed.insert(at, lines[at]);
        assert_eq!(answer(&changed.concat()), 0);
        for surplus in [lines[at], b"\n", b"edition\t2\n", b"WAKE_PIN\t0\n", b"\t\n"] {
            changed.insert(at, surplus);
            assert_eq!(answer(&changed.concat()), 41, "a line before line {at}");
            changed.remove(at);
        }
        for other in 1..at {
            changed.swap(at, other);
            assert_eq!(answer(&changed.concat()), 41, "lines {other} and {at} swapped");
            changed.swap(at, other);
        }
        // Cut anywhere after the first line, and at this line's LF.
        assert_eq!(answer(&lines[..at].concat()), 41);
        let cut = lines[..=at].concat();
        assert_eq!(answer(&cut[..cut.len() - 1]), 41);
    }
    for surplus in [&b"\n"[..], b" ", b"\t", b"\0", b"\r\n", b"GPE2_STS\t\n", b"edition\t2\n", lines[RECORDS]] {
        assert_eq!(answer(&[&text, surplus].concat()), 41, "{surplus:?} at the end");
    }
    assert_eq!(answer(&[&text[..], &text].concat()), 41);
    for end in 10..text.len() {
        assert_eq!(answer(&text[..end]), 41, "cut to {end} bytes");
    }
    for end in 0..9 {
        assert_eq!(answer(&text[..end]), 40);
    }
    assert_eq!(answer(&text[..9]), 41);
}

/// Every record, whatever its form: another name, other characters, another width.
#[test]
fn malformed_records() {
    for text in [FULL, LEAST] {
        for line in text.lines().skip(1) {
            let (name, value) = line.split_once(' ').unwrap();
            let refused = |new: String| {
                let lines = text.replace(&format!("\n{line}\n"), &format!("\n{new}\n"));
                assert_eq!(answer(lines.replace(' ', "\t").as_bytes()), 41, "{new:?}");
            };
            refused(String::new());
            refused(name.to_string());
            refused(value.to_string());
            refused(format!("{name}{value}"));
            refused(format!("{name}  {value}"));
            refused(format!(" {name} {value}"));
            refused(format!("{name} {value} "));
            refused(format!("{name} {value}\r"));
            refused(format!("{name} {value}\0"));
            refused(format!("{name}\x0B{value}"));
            refused(format!("{name}: {value}"));
            refused(format!("x{name} {value}"));
            refused(format!("{} {value}", &name[1..]));
            refused(format!("{} {value}", name.to_lowercase()));
            refused(format!("{name} {value}0"));
            refused(format!("{name} 0{value}"));
            refused(format!("{name} {value}00"));
            refused(format!("{name} {value}{value}G"));
            refused(format!("{name} -"));
            refused(format!("{name} 0x{value}"));
            if value.is_empty() {
                continue;
            }
            refused(format!("{name} "));
            refused(format!("{name} {}", &value[1..]));
            for at in 0..value.len() {
                // Beside the digits and letters on each side, lower case, and others.
                for other in ["/", ":", "@", "G", "`", "a", "b", "f", "g", " ", "-", "+", "_", "\0", "\u{E9}", "x"] {
                    refused(format!("{name} {}{other}{}", &value[..at], &value[at + 1..]));
                }
            }
        }
    }
}

#[test]
fn malformed_flags_and_command() {
    for name in ["OVERRIDE", "BUTTON", "RELEASE", "ARMED", "WAKE_PIN"] {
        for value in ["2", "9", "A", "F", "00", "01", "10", "true"] {
            assert_eq!(answer(&with(FULL, &[(name, value)])), 41, "{name} {value}");
        }
    }
    for (number, value) in [
        (0, "000"),
        (0, "100"),
        (0, "101"),
        (0, "11E"),
        (0, "1FF"),
        (41, "001"),
        (41, "0E1"),
        (41, "010"),
        (41, "0FF"),
        (41, "200"),
        (41, "A00"),
        (41, "F00"),
        (41, "1e1"),
        (41, "1E"),
        (41, "1"),
        (41, "0"),
        (41, "00"),
        (41, "0000"),
        (41, "1000"),
        (41, "1E1E"),
        (41, "1EG"),
        (41, "1-1"),
    ] {
        assert_eq!(answer(&with(FULL, &[("COMMAND", value)])), number, "COMMAND {value}");
    }
}

/// A GPE record has the digits that its block's length record asks for, whatever else.
#[test]
fn gpe_digits() {
    let zeros = "0".repeat(40);
    for length in 0..=255 {
        let bytes = if length > 16 { 8 } else { length / 2 };
        let legal = length % 2 == 0 && (2..=16).contains(&length);
        for digits in 0..=36 {
            let (length, value) = (format!("{length:02X}"), &zeros[..digits]);
            let number = match digits == 2 * bytes {
                true if legal => 0,
                true => 42,
                false => 41,
            };
            // With this base any two legal lengths go together.
            for (block, len, sts, en) in [
                ("GPE0_BLK", "GPE0_BLK_LEN", "GPE0_STS", "GPE0_EN"),
                ("GPE1_BLK", "GPE1_BLK_LEN", "GPE1_STS", "GPE1_EN"),
            ] {
                let base = ("GPE1_BASE", "60");
                let text = with(FULL, &[base, (len, &length), (sts, value), (en, value)]);
                assert_eq!(answer(&text), number, "{len} {length}, {digits} digits");
                // The address does not count.
                let nowhere = (block, "0000000000000000");
                let text = with(FULL, &[base, nowhere, (len, &length), (sts, value), (en, value)]);
                let number = match number {
                    41 => 41,
                    _ if length == "00" => 0,
                    _ => 42,
                };
                assert_eq!(answer(&text), number, "{block} nowhere, {len} {length}, {digits} digits");
            }
        }
    }
    // Each of the four by itself; the other block's length does not count.
    for name in ["GPE0_STS", "GPE0_EN"] {
        for (number, value) in [(0, "00FF"), (41, "00"), (41, "000"), (41, "00000"), (41, "000000"), (41, "")] {
            assert_eq!(answer(&with(FULL, &[(name, value)])), number, "{name} {value}");
        }
    }
    for name in ["GPE1_STS", "GPE1_EN"] {
        for (number, value) in [(0, "00FF00FF"), (41, "0000"), (41, "0000000"), (41, "0000000000"), (41, "")] {
            assert_eq!(answer(&with(FULL, &[(name, value)])), number, "{name} {value}");
        }
    }
}

/// "Reading tests 40 to 42 in that order", and 41 over all lines before 42 over any.
#[test]
fn order_of_refusals() {
    let all = |edition: &str, flags: &str, state: &str| {
        let text = with(FULL, &[("edition", edition), ("FLAGS", flags), ("STATE", state)]);
        answer(&text)
    };
    assert_eq!(all("2", "00004000", "0"), 0);
    assert_eq!(all("2", "00104000", "0"), 42);
    assert_eq!(all("2", "00104000", "6"), 42);
    // Malformed after the illegal record, and before it.
    assert_eq!(all("2", "00104000", "x"), 41);
    assert_eq!(all("2", "0010400x", "6"), 41);
    assert_eq!(all("3", "00104000", "0"), 40);
    assert_eq!(all("3", "0000400x", "0"), 40);
    assert_eq!(all("3", "00104000", "x"), 40);
    // A surplus WAKE_PIN is malformed whatever it says.
    assert_eq!(all("1", "00000000", "0"), 41);
    let illegal = with(FULL, &[("STATE", "6")]);
    assert_eq!(answer(&illegal[..illegal.len() - 1]), 41);
    assert_eq!(answer(&[&illegal[..], b"\n"].concat()), 41);
}

#[test]
fn rules_5_and_6() {
    check(
        FULL,
        &[
            (42, &[("FLAGS", "00104000")]),
            // Every flag but 20 that takes nothing away: unlisted ones are kept.
            (0, &[("FLAGS", "FFEFFF8F")]),
            (42, &[("PM1_EVT_LEN", "00")]),
            (42, &[("PM1_EVT_LEN", "03")]),
            (42, &[("PM1_EVT_LEN", "05")]),
            (42, &[("PM1_CNT_LEN", "00")]),
            (42, &[("PM1_CNT_LEN", "01")]),
            (42, &[("PM1_CNT_LEN", "03")]),
            (42, &[("PM2_CNT_LEN", "00")]),
            (42, &[("PM2_CNT_LEN", "02")]),
            (42, &[("PM_TMR_LEN", "00")]),
            (42, &[("PM_TMR_LEN", "03")]),
            (42, &[("PM_TMR_LEN", "05")]),
            (42, &[("PM2_CNT_BLK", "0000000000000000")]),
            (42, &[("PM2_CNT_BLK", "0000000000000000"), ("PM2_CNT_LEN", "00")]),
            (0, &[("PM2_CNT_BLK", "0000000000000000"), ("PM2_CNT_LEN", "00"), ("PM2_CNT", "00")]),
            (42, &[("PM_TMR_BLK", "0000000000000000")]),
            (42, &[("PM_TMR_BLK", "0000000000000000"), ("PM_TMR_LEN", "00")]),
            (0, &[("PM_TMR_BLK", "0000000000000000"), ("PM_TMR_LEN", "00"), ("PM1a_EN", "4320")]),
            (42, &[("GPE0_BLK", "0000000000000000")]),
            (42, &[("GPE1_BLK", "0000000000000000")]),
        ],
    );
    check(
        LEAST,
        &[
            (42, &[("PM1_EVT_LEN", "00")]),
            (42, &[("PM1_CNT_LEN", "00")]),
            (42, &[("PM2_CNT_LEN", "01")]),
            (42, &[("PM2_CNT_BLK", "0000000000000008")]),
            (0, &[("PM2_CNT_BLK", "0000000000000008"), ("PM2_CNT_LEN", "01")]),
            (42, &[("PM_TMR_LEN", "04")]),
            (42, &[("PM_TMR_BLK", "0000000000000008")]),
            (0, &[("PM_TMR_BLK", "0000000000000008"), ("PM_TMR_LEN", "04")]),
            (42, &[("GPE0_BLK", "0000000000000008")]),
            (42, &[("GPE0_BLK_LEN", "01")]),
            (42, &[("GPE0_BLK_LEN", "02"), ("GPE0_STS", "00"), ("GPE0_EN", "00")]),
            (0, &[("GPE0_BLK", "0000000000000009"), ("GPE0_BLK_LEN", "02"), ("GPE0_STS", "80"), ("GPE0_EN", "01")]),
            // Fields that nothing uses.
            (0, &[("GPE1_BASE", "FF")]),
            (0, &[("ACPI_ENABLE", "E1")]),
            (0, &[("FLAGS", "FFEFFFFF")]),
        ],
    );
}

#[test]
fn rule_7() {
    check(
        FULL,
        &[
            (42, &[("PM1a_EVT_BLK", "0000000000000000")]),
            (42, &[("PM1a_CNT_BLK", "0000000000000000")]),
            (42, &[("PM1a_EVT_BLK", "0000000000000401")]),
            (42, &[("PM1a_EVT_BLK", "0000000000000402")]),
            (42, &[("PM1b_EVT_BLK", "0000000000000482")]),
            (0, &[("PM1b_EVT_BLK", "0000000000000480")]),
            (42, &[("PM1a_CNT_BLK", "0000000000000481")]),
            (0, &[("PM1a_CNT_BLK", "0000000000000482")]),
            (42, &[("PM1b_CNT_BLK", "0000000000000481")]),
            (42, &[("PM_TMR_BLK", "0000000000000482")]),
            (0, &[("PM_TMR_BLK", "0000000000000484")]),
            (0, &[("PM2_CNT_BLK", "0000000000000481"), ("GPE0_BLK", "0000000000000483")]),
            (0, &[("PM1b_EVT_BLK", "000000000000FFFC")]),
            (42, &[("PM1b_EVT_BLK", "0000000000010000")]),
            (0, &[("PM1b_CNT_BLK", "000000000000FFFE")]),
            (42, &[("PM1b_CNT_BLK", "0000000000010000")]),
            (0, &[("PM_TMR_BLK", "000000000000FFFC")]),
            (42, &[("PM_TMR_BLK", "0000000000010000")]),
            (0, &[("PM2_CNT_BLK", "000000000000FFFF")]),
            (42, &[("PM2_CNT_BLK", "0000000000010000")]),
            (0, &[("GPE0_BLK", "000000000000FFFC")]),
            (42, &[("GPE0_BLK", "000000000000FFFD")]),
            (0, &[("GPE1_BLK", "000000000000FFF8")]),
            (42, &[("GPE1_BLK", "000000000000FFF9")]),
            (0, &[("SMI_CMD", "000000000000FFFF")]),
            (42, &[("SMI_CMD", "0000000000010000")]),
            // Above 32 bits, with low bits that would do; and where an end wraps.
            (42, &[("SMI_CMD", "00000001000000B2")]),
            (42, &[("SMI_CMD", "0000000100000000")]),
            (42, &[("PM1a_EVT_BLK", "0000000100000400")]),
            (42, &[("PM1b_EVT_BLK", "0000000100000440")]),
            (42, &[("PM1a_CNT_BLK", "8000000000000404")]),
            (42, &[("PM1b_CNT_BLK", "0000000100000444")]),
            (42, &[("PM2_CNT_BLK", "0000000100000450")]),
            (42, &[("PM_TMR_BLK", "0000000100000408")]),
            (42, &[("GPE0_BLK", "0000000100000420")]),
            (42, &[("GPE1_BLK", "FFFFFFFF00000460")]),
            (42, &[("SMI_CMD", "FFFFFFFFFFFFFFFF")]),
            (42, &[("PM1b_EVT_BLK", "FFFFFFFFFFFFFFFC")]),
            (42, &[("PM1b_EVT_BLK", "00000000FFFFFFFC")]),
            (42, &[("GPE0_BLK", "FFFFFFFFFFFFFFFE")]),
        ],
    );
    // An absent block of a text has address zero in all 16 digits.
    check(
        LEAST,
        &[
            (42, &[("PM1b_EVT_BLK", "0000000100000000")]),
            (42, &[("PM1b_CNT_BLK", "0000000100000000")]),
            (42, &[("PM2_CNT_BLK", "0000000100000000")]),
            (42, &[("SMI_CMD", "0000000100000000"), ("ACPI_DISABLE", "01")]),
            (0, &[("PM1b_EVT_BLK", "0000000000000008")]),
            (0, &[("PM1b_CNT_BLK", "0000000000000008")]),
        ],
    );
}

#[test]
fn rules_8_to_10() {
    check(
        FULL,
        &[
            // A block of each kind moved into another; and touching it.
            (42, &[("PM1b_EVT_BLK", "0000000000000400")]),
            (42, &[("PM1b_CNT_BLK", "0000000000000402")]),
            (42, &[("PM1b_CNT_BLK", "000000000000040A")]),
            (0, &[("PM1b_CNT_BLK", "000000000000040C")]),
            (42, &[("GPE0_BLK", "000000000000040B")]),
            (0, &[("GPE0_BLK", "000000000000040C")]),
            (42, &[("GPE0_BLK", "000000000000043D")]),
            (0, &[("GPE0_BLK", "000000000000043C")]),
            (42, &[("GPE1_BLK", "0000000000000423")]),
            (0, &[("GPE1_BLK", "0000000000000424")]),
            (42, &[("GPE1_BLK", "0000000000000419")]),
            (0, &[("GPE1_BLK", "0000000000000418")]),
            (42, &[("PM2_CNT_BLK", "0000000000000445")]),
            (0, &[("PM2_CNT_BLK", "0000000000000446")]),
            (42, &[("PM_TMR_BLK", "0000000000000464")]),
            (0, &[("PM_TMR_BLK", "0000000000000468")]),
            (42, &[("SMI_CMD", "0000000000000450")]),
            (0, &[("SMI_CMD", "0000000000000451")]),
            (42, &[("SMI_CMD", "0000000000000467")]),
            (0, &[("SMI_CMD", "0000000000000468")]),
            (42, &[("SMI_CMD", "0000000000000405")]),
            (0, &[("SMI_CMD", "0000000000000406")]),
            // 16 events of GPE0, 32 of GPE1.
            (42, &[("GPE1_BASE", "0F")]),
            (0, &[("GPE1_BASE", "10")]),
            (0, &[("GPE1_BASE", "11")]),
            (0, &[("GPE1_BASE", "E0")]),
            (42, &[("GPE1_BASE", "E1")]),
            (42, &[("GPE1_BASE", "00")]),
            (42, &[("GPE1_BASE", "FF")]),
            (42, &[("ACPI_DISABLE", "E1")]),
            (42, &[("ACPI_ENABLE", "1E")]),
            (0, &[("ACPI_DISABLE", "E0")]),
            (0, &[("SMI_CMD", "0000000000000000"), ("ACPI_DISABLE", "E1"), ("COMMAND", "000")]),
        ],
    );
    let no_gpe0 = [("GPE0_BLK", "0000000000000000"), ("GPE0_BLK_LEN", "00"), ("GPE0_STS", ""), ("GPE0_EN", "")];
    assert_eq!(answer(&with(FULL, &[&no_gpe0[..], &[("GPE1_BASE", "00")]].concat())), 0);
    let no_gpe1 = [("GPE1_BLK", "0000000000000000"), ("GPE1_BLK_LEN", "00"), ("GPE1_STS", ""), ("GPE1_EN", "")];
    for base in ["00", "0F", "E1", "FF"] {
        assert_eq!(answer(&with(FULL, &[&no_gpe1[..], &[("GPE1_BASE", base)]].concat())), 0);
    }
}

#[test]
fn rules_11_and_12() {
    let no_cells = [("PM1a_STS", "0000"), ("PM1b_STS", "0000"), ("PM1a_EN", "0000"), ("PM1b_EN", "0000")];
    for bit in 0..16 {
        let homes = format!("{:04X}", 1 << bit);
        let event = with(FULL, &[&no_cells[..], &[("EVENT_HOMES", &homes)]].concat());
        assert_eq!(answer(&event), if 0xC731 >> bit & 1 == 1 { 0 } else { 42 }, "event home {bit}");
        let no_b = ("PM1b_EVT_BLK", "0000000000000000");
        let event = with(FULL, &[&no_cells[..], &[no_b, ("EVENT_HOMES", &homes)]].concat());
        assert_eq!(answer(&event), 42, "event home {bit} without B");
        let control =
            with(FULL, &[("CONTROL_HOMES", &homes), ("PM1a_CNT", "0000"), ("PM1b_CNT", "0000"), ("SMI_CMD", PORT)]);
        assert_eq!(answer(&control), if bit < 3 { 0 } else { 42 }, "control home {bit}");
        let control = with(
            FULL,
            &[&NO_CONTROL_B[..], &[("S4", "FFFF"), ("PM1a_CNT", "0001"), ("CONTROL_HOMES", &homes)]].concat(),
        );
        assert_eq!(answer(&control), 42, "control home {bit} without B");
    }
    // Homes of what is not fitted are allowed, and kept.
    let unfitted = [("FLAGS", "00000070"), ("EVENT_HOMES", "4700"), ("BUTTON", "0"), ("WAKE_PIN", "0")];
    assert_eq!(answer(&with(FULL, &[&no_cells[..], &unfitted].concat())), 0);
    assert_eq!(answer(&with(FULL, &[&no_cells[..], &[("EVENT_HOMES", "C731")]].concat())), 0);
    let no_event_b = [("PM1b_EVT_BLK", "0000000000000000"), ("EVENT_HOMES", "0000")];
    assert_eq!(answer(&with(FULL, &[&no_cells[..], &no_event_b].concat())), 0);

    check(
        FULL,
        &[
            (0, &[("S2", "0707")]),
            (42, &[("S2", "0800")]),
            (42, &[("S2", "0008")]),
            (42, &[("S2", "FF00")]),
            (42, &[("S2", "00FF")]),
            (42, &[("S2", "FFFE")]),
            (42, &[("S2", "FEFF")]),
            (42, &[("S0", "0807")]),
            (42, &[("S5", "0708")]),
            // A pair twice, S0's too; a or b alone may be shared.
            (42, &[("S2", "0000")]),
            (42, &[("S2", "0101")]),
            (42, &[("S5", "0502")]),
            (42, &[("S0", "0700")]),
            (0, &[("S2", "0001")]),
            (0, &[("S2", "0600")]),
            (0, &[("S1", "FFFF"), ("S2", "0101")]),
            (0, &[("S0", "FFFF"), ("S1", "FFFF"), ("S3", "FFFF"), ("S4", "FFFF"), ("S5", "FFFF")]),
        ],
    );
    // Without PM1b control only a counts; b is kept, and still at most 7.
    let without_b = |records: &[(&str, &str)]| answer(&with(FULL, &[&NO_CONTROL_B[..], records].concat()));
    assert_eq!(without_b(&[]), 42);
    assert_eq!(without_b(&[("S4", "0203")]), 0);
    assert_eq!(without_b(&[("S4", "0003")]), 42);
    assert_eq!(without_b(&[("S4", "0503")]), 42);
    assert_eq!(without_b(&[("S4", "0207")]), 0);
    assert_eq!(without_b(&[("S4", "0208")]), 42);
    assert_eq!(without_b(&[("S4", "FFFF")]), 0);
}

const PORT: &str = "00000000000000B2";

/// With S4's pair as it is, an a stands twice then.
const NO_CONTROL_B: [(&str, &str); 4] =
    [("PM1b_CNT_BLK", "0000000000000000"), ("CONTROL_HOMES", "0000"), ("PM1a_CNT", "1403"), ("PM1b_CNT", "0000")];

/// "no unfitted or reserved bit, bit outside its home, or ARB_DIS without PM2"
#[test]
fn bits() {
    // Of the full text: each register's bits.
    let registers: [(&str, u16); 7] = [
        ("PM1a_STS", 0xC321),
        ("PM1b_STS", 0x0410),
        ("PM1a_EN", 0x4321),
        ("PM1b_EN", 0x0400),
        ("PM1a_CNT", 0x1C01),
        ("PM1b_CNT", 0x1C02),
        ("PM2_CNT", 0x0001),
    ];
    for (name, bits) in registers {
        let width = if name == "PM2_CNT" { 2 } else { 4 };
        for bit in 0..4 * width {
            let value = format!("{:0width$X}", 1 << bit);
            let expected = if bits >> bit & 1 == 1 { 0 } else { 42 };
            assert_eq!(answer(&with(FULL, &[(name, &value)])), expected, "{name} {value}");
        }
        assert_eq!(answer(&with(FULL, &[(name, &format!("{bits:0width$X}"))])), 0, "{name} {bits:X}");
    }
    // The same bits with each event unfitted: the flag, the bit; and the timer.
    for (flags, bit) in [("00004010", 8), ("00004020", 9), ("00004040", 10), ("00000000", 14)] {
        let none = [("FLAGS", flags), ("BUTTON", "0"), ("PM1a_STS", "0000"), ("PM1b_STS", "0000"), ("PM1a_EN", "0000")];
        let none = [&none[..], &[("PM1b_EN", "0000"), ("WAKE_PIN", "0")]].concat();
        assert_eq!(answer(&with(FULL, &none)), 0);
        let (value, block) = (format!("{:04X}", 1 << bit), if bit == 10 { 'b' } else { 'a' });
        for register in ["STS", "EN"] {
            let name = format!("PM1{block}_{register}");
            assert_eq!(answer(&with(FULL, &[&none[..], &[(&name, &value)]].concat())), 42, "{name} {value} {flags}");
            let fitted = [&none[..], &[("FLAGS", "00004000"), (&name, &value)]].concat();
            assert_eq!(answer(&with(FULL, &fitted)), 0, "{name} {value}");
        }
    }
    let no_timer = [("PM_TMR_BLK", "0000000000000000"), ("PM_TMR_LEN", "00"), ("PM1a_EN", "0000")];
    for (number, name, value) in [(0, "PM1a_STS", "0000"), (42, "PM1a_STS", "0001"), (42, "PM1a_EN", "0001")] {
        assert_eq!(answer(&with(FULL, &[&no_timer[..], &[(name, value)]].concat())), number, "{name} {value}");
    }
    // Every bit of a GPE byte is fitted.
    assert_eq!(answer(&with(FULL, &[("GPE0_STS", "FFFF"), ("GPE0_EN", "FFFF"), ("GPE1_STS", "FFFFFFFF")])), 0);
    check(
        FULL,
        &[
            (0, &[("PM2_CNT", "00"), ("PM2_CNT_BLK", "0000000000000000"), ("PM2_CNT_LEN", "00")]),
            (42, &[("PM2_CNT", "01"), ("PM2_CNT_BLK", "0000000000000000"), ("PM2_CNT_LEN", "00")]),
            // Both blocks at once, and at the wrong one.
            (42, &[("PM1a_STS", "8520")]),
            (42, &[("PM1b_STS", "8410")]),
            (42, &[("PM1a_STS", "0410"), ("PM1b_STS", "8120")]),
            (42, &[("PM1a_CNT", "1403")]),
            (42, &[("PM1b_CNT", "0803")]),
            (42, &[("PM1a_CNT", "1400"), ("PM1b_CNT", "0801")]),
            // GBL_RLS and SLP_EN read zero, in their home too.
            (42, &[("PM1b_CNT", "0806")]),
            (42, &[("PM1a_CNT", "3401")]),
        ],
    );
}

/// "S0, S5 or a present state", "counter below its size", and hold.
#[test]
fn state_counter_and_hold() {
    for (number, state) in
        [(0, "0"), (0, "1"), (42, "2"), (0, "3"), (0, "4"), (0, "5"), (42, "6"), (42, "7"), (42, "8"), (42, "F")]
    {
        assert_eq!(answer(&with(FULL, &[("STATE", state)])), number, "STATE {state}");
    }
    check(
        FULL,
        &[
            (0, &[("STATE", "5"), ("S5", "FFFF")]),
            (0, &[("STATE", "0"), ("S0", "FFFF")]),
            (42, &[("STATE", "4"), ("S4", "FFFF")]),
            (0, &[("STATE", "2"), ("S2", "0707")]),
            (0, &[("PM_TMR", "00FFFFFF")]),
            (42, &[("PM_TMR", "01000000")]),
            (42, &[("PM_TMR", "FFFFFFFF")]),
            (0, &[("FLAGS", "00004100"), ("PM_TMR", "01000000")]),
            (0, &[("FLAGS", "00004100"), ("PM_TMR", "FFFFFFFF")]),
            // 14,318,179, 14,318,180 and 14,318,181, with the override and without.
            (0, &[("HOLD", "00DA7A63")]),
            (42, &[("HOLD", "00DA7A64")]),
            (42, &[("HOLD", "00DA7A64"), ("BUTTON", "0")]),
            (42, &[("HOLD", "00DA7A64"), ("STATE", "3")]),
            (42, &[("HOLD", "00DA7A64"), ("STATE", "4")]),
            (0, &[("HOLD", "00DA7A63"), ("STATE", "4")]),
            (0, &[("HOLD", "00DA7A64"), ("STATE", "5")]),
            (0, &[("HOLD", "00DA7A63"), ("STATE", "5")]),
            (0, &[("HOLD", "00000000"), ("STATE", "5")]),
            (42, &[("HOLD", "00DA7A65"), ("STATE", "5")]),
            (0, &[("OVERRIDE", "0"), ("HOLD", "00DA7A64")]),
            (0, &[("OVERRIDE", "0"), ("HOLD", "00DA7A64"), ("STATE", "1")]),
            (0, &[("OVERRIDE", "0"), ("HOLD", "00DA7A64"), ("STATE", "5")]),
            (42, &[("OVERRIDE", "0"), ("HOLD", "00DA7A65")]),
            (42, &[("OVERRIDE", "0"), ("HOLD", "00DA7A65"), ("STATE", "5")]),
            (42, &[("HOLD", "FFFFFFFF")]),
        ],
    );
}

/// "button down only where fitted", "no command, and SCI_EN set, without SMI_CMD", "armed only in S0 with B control"
/// and "B's SLP_TYP zero without B".
#[test]
fn button_command_arming_and_slp_typ() {
    let unfitted: [(&str, &str); 3] = [("FLAGS", "00004010"), ("PM1a_STS", "8020"), ("PM1a_EN", "4221")];
    for (number, button) in [(0, "0"), (42, "1")] {
        assert_eq!(answer(&with(FULL, &[&unfitted[..], &[("BUTTON", button)]].concat())), number);
    }
    let no_port = ("SMI_CMD", "0000000000000000");
    let mut no_control_b = NO_CONTROL_B.to_vec();
    no_control_b.push(("S4", "FFFF"));
    check(
        FULL,
        &[
            (0, &[no_port, ("COMMAND", "000")]),
            (42, &[no_port, ("COMMAND", "100")]),
            (42, &[no_port, ("COMMAND", "000"), ("PM1a_CNT", "1400")]),
            (42, &[no_port]),
            (0, &[("COMMAND", "1E1"), ("PM1a_CNT", "1400")]),
            (0, &[("COMMAND", "000"), ("PM1a_CNT", "1400")]),
            // SCI_EN set at B, its home.
            (0, &[no_port, ("COMMAND", "000"), ("CONTROL_HOMES", "0007"), ("PM1a_CNT", "1400"), ("PM1b_CNT", "0803")]),
            (42, &[no_port, ("COMMAND", "000"), ("CONTROL_HOMES", "0007"), ("PM1a_CNT", "1400"), ("PM1b_CNT", "0802")]),
            (0, &[("ARMED", "1")]),
            (42, &[("ARMED", "1"), ("STATE", "1")]),
            (42, &[("ARMED", "1"), ("STATE", "3")]),
            (42, &[("ARMED", "1"), ("STATE", "4")]),
            (42, &[("ARMED", "1"), ("STATE", "5")]),
            (0, &no_control_b),
            (42, &[&no_control_b[..], &[("ARMED", "1")]].concat()),
            (42, &[&no_control_b[..], &[("PM1b_CNT", "0400")]].concat()),
            (42, &[&no_control_b[..], &[("PM1b_CNT", "0800")]].concat()),
            (42, &[&no_control_b[..], &[("PM1b_CNT", "1000")]].concat()),
            (42, &[&no_control_b[..], &[("PM1b_CNT", "0001")]].concat()),
        ],
    );
    // The event block of B does not count for arming.
    let no_event_b = [("PM1b_EVT_BLK", "0000000000000000"), ("EVENT_HOMES", "0000"), ("PM1b_STS", "0000")];
    assert_eq!(answer(&with(FULL, &[&no_event_b[..], &[("PM1b_EN", "0000"), ("ARMED", "1")]].concat())), 0);
}

/// Request W3: "active only where fitted", in every state and whatever bit 14 is.
#[test]
fn wake_pin() {
    let unfitted = [("FLAGS", "00000000"), ("PM1a_EN", "0321")];
    for state in ["0", "1", "3", "4", "5"] {
        for pin in ["0", "1"] {
            let records = [("STATE", state), ("WAKE_PIN", pin)];
            assert_eq!(answer(&with(FULL, &records)), 0, "{records:?}");
            let number = if pin == "1" { 42 } else { 0 };
            assert_eq!(answer(&with(FULL, &[&unfitted[..], &records].concat())), number, "{records:?}, not fitted");
        }
    }
    check(
        FULL,
        &[
            (0, &[("PM1a_STS", "C120"), ("WAKE_PIN", "1")]),
            (0, &[("PM1a_STS", "C120"), ("WAKE_PIN", "0")]),
            (0, &[("PM1a_STS", "8120"), ("WAKE_PIN", "0")]),
            (0, &[("PM1a_EN", "0321"), ("WAKE_PIN", "1")]),
            (0, &[("PM1a_EN", "0321"), ("WAKE_PIN", "0")]),
        ],
    );
    check(LEAST, &[(42, &[("WAKE_PIN", "1")]), (0, &[("FLAGS", "00004070"), ("WAKE_PIN", "1")])]);
}

/// The text of edition 2 in edition 1.
fn edition_1(text: &[u8]) -> Vec<u8> {
    let text = String::from_utf8(text.to_vec()).unwrap();
    text.replace("edition\t2\n", "edition\t1\n").replace("WAKE_PIN\t0\n", "").replace("WAKE_PIN\t1\n", "").into_bytes()
}

/// Edition 1 has no WAKE_PIN: the pin is inactive, and the machine is written in edition 2.
#[test]
fn edition_1_read() {
    for text in [FULL, LEAST] {
        let inactive = with(text, &[("WAKE_PIN", "0")]);
        let machine = read(&edition_1(&inactive)).expect("a legal text");
        assert!(!machine.pin);
        assert_eq!(read(&inactive).as_ref(), Ok(&machine));
        assert_eq!(write(&machine), inactive);
    }
    // WAKE_PIN in edition 1, and none in edition 2.
    let text = edition_1(&tabbed(FULL));
    let lines: Vec<&[u8]> = text.split_inclusive(|byte| *byte == b'\n').collect();
    assert_eq!(lines.len(), RECORDS);
    for at in 1..=lines.len() {
        for pin in [&b"WAKE_PIN\t0\n"[..], b"WAKE_PIN\t1\n", b"WAKE_PIN\t\n"] {
            let mut changed = lines.clone();
            changed.insert(at, pin);
            assert_eq!(answer(&changed.concat()), 41, "WAKE_PIN before line {at}");
        }
        if at < lines.len() {
            let mut changed = lines.clone();
            changed.remove(at);
            assert_eq!(answer(&changed.concat()), 41, "line {at} missing");
        }
    }
    assert_eq!(answer(&[b"edition\t2\n", &lines[1..].concat()[..]].concat()), 41);
    assert_eq!(answer(&[b"edition\t3\n", &lines[1..].concat()[..]].concat()), 40);
    // The rest is judged as in edition 2.
    for (number, records) in [
        (41, [("STATE", "x"), ("WAKE_PIN", "0")]),
        (42, [("STATE", "2"), ("WAKE_PIN", "0")]),
        (42, [("FLAGS", "00000000"), ("WAKE_PIN", "0")]),
        (42, [("HOLD", "00DA7A64"), ("WAKE_PIN", "0")]),
    ] {
        assert_eq!(answer(&edition_1(&with(FULL, &records))), number, "{records:?}");
    }
}

/// `tests/texts`: the texts of older editions, each beside the text that it is written again as.
#[test]
fn kept_texts() {
    let folder = Path::new(env!("CARGO_MANIFEST_DIR")).join("../texts/edition-1");
    let mut names = Vec::new();
    for entry in fs::read_dir(&folder).unwrap().map(|entry| entry.unwrap().path()) {
        if entry.extension().is_some() {
            continue;
        }
        let text = fs::read(&entry).unwrap();
        assert!(text.starts_with(b"edition\t1\n"), "{}", entry.display());
        let machine = read(&text).unwrap_or_else(|number| panic!("{}: {number}", entry.display()));
        assert!(!machine.pin);
        let now = fs::read_to_string(entry.with_extension("now")).unwrap();
        assert_eq!(String::from_utf8(write(&machine)).unwrap(), now, "{}", entry.display());
        assert_eq!(answer(now.as_bytes()), 0);
        names.push(entry);
    }
    assert!(names.len() >= 4, "{names:?}");
}
