//! Saved texts (requests W2 and W3): legal ones, and kinds of damage with the number that reading answers.

use std::fs;
use std::io::{self, Write};
use std::path::Path;

use model::{saved, set_up, ENABLES, PCIEXP_WAKE, PWRBTN, RTC, SLPBTN};

use crate::platform::Platform;
use crate::random::Random;
use crate::records::{bytes, edition_1, Saved, ABSENT, ADDRESSES, FLAGS, GPES, HOLD, SLEEPS};
use crate::steps::steps;

/// The saved text of a machine somewhere in a session.
pub fn legal(random: &mut Random) -> Vec<u8> {
    let platform = Platform::any(random);
    let table = platform.table(random);
    let mut machine = set_up(&table, &platform.settings).expect("a whole platform");
    let session = steps(random, machine.clone(), 60);
    let run = random.below(session.len() as u64 + 1) as usize;
    for step in &session[..run] {
        machine.step(step);
    }
    saved::write(&machine)
}

/// A kind of saved text: what is done to a legal one, and reading's number, or 0, then; none where it may be any.
pub struct State {
    pub name: &'static str,
    pub answer: Option<u8>,
    how: How,
}

enum How {
    /// Records get other values.
    Records(fn(&mut Saved, &mut Random)),
    /// Anything else.
    Text(fn(Vec<u8>, &mut Random) -> Vec<u8>),
}

impl State {
    pub fn apply(&self, text: &[u8], random: &mut Random) -> Vec<u8> {
        match self.how {
            How::Records(how) => {
                let mut saved = Saved::of(text);
                how(&mut saved, random);
                saved.text()
            }
            How::Text(how) => how(text.to_vec(), random),
        }
    }
}

/// A legal text, damaged: its kind, and the text.
pub fn damaged(text: &[u8], random: &mut Random) -> (&'static State, Vec<u8>) {
    let kind = &STATES[random.below(STATES.len() as u64) as usize];
    (kind, kind.apply(text, random))
}

/// So many texts from this seed. A line for each: its number, the model's answer (0: it reads), its length in bytes,
/// its kind, parted by tabs; then the text, or, where a folder is given, the text as the file of that number there.
pub fn print(seed: u64, count: u64, folder: Option<&Path>) -> Result<(), String> {
    let wrong = |error: io::Error| error.to_string();
    if let Some(folder) = folder {
        fs::create_dir_all(folder).map_err(wrong)?;
    }
    let random = &mut Random::new(seed);
    let mut printed = Vec::new();
    for number in 1..=count {
        let legal = legal(random);
        // Every kind once, then any.
        let (kind, text) = match STATES.get(number as usize - 1) {
            Some(kind) => (kind, kind.apply(&legal, random)),
            None => damaged(&legal, random),
        };
        let answer = saved::read(&text).err().unwrap_or(0);
        if kind.answer.is_some_and(|expected| expected != answer) {
            return Err(format!("text {number}, {}: the model answers {answer}, against its row", kind.name));
        }
        writeln!(printed, "{number}\t{answer}\t{}\t{}", text.len(), kind.name).map_err(wrong)?;
        match folder {
            Some(folder) => fs::write(folder.join(number.to_string()), &text).map_err(wrong)?,
            None => printed.extend_from_slice(&text),
        }
    }
    io::stdout().write_all(&printed).map_err(wrong)
}

const fn legal_as(name: &'static str, how: fn(&mut Saved, &mut Random)) -> State {
    State { name, answer: Some(0), how: How::Records(how) }
}

const fn legal_text(name: &'static str, how: fn(Vec<u8>, &mut Random) -> Vec<u8>) -> State {
    State { name, answer: Some(0), how: How::Text(how) }
}

const fn illegal(name: &'static str, how: fn(&mut Saved, &mut Random)) -> State {
    State { name, answer: Some(42), how: How::Records(how) }
}

const fn illegal_text(name: &'static str, how: fn(Vec<u8>, &mut Random) -> Vec<u8>) -> State {
    State { name, answer: Some(42), how: How::Text(how) }
}

const fn malformed(name: &'static str, how: fn(&mut Saved, &mut Random)) -> State {
    State { name, answer: Some(41), how: How::Records(how) }
}

const fn bad_lines(name: &'static str, how: fn(Vec<u8>, &mut Random) -> Vec<u8>) -> State {
    State { name, answer: Some(41), how: How::Text(how) }
}

const fn no_edition(name: &'static str, how: fn(Vec<u8>, &mut Random) -> Vec<u8>) -> State {
    State { name, answer: Some(40), how: How::Text(how) }
}

const fn any(name: &'static str, how: fn(Vec<u8>, &mut Random) -> Vec<u8>) -> State {
    State { name, answer: None, how: How::Text(how) }
}

pub const STATES: &[State] = &[
    legal_as("as it was", |_, _| ()),
    legal_as("every block and event there", |s, r| s.full(r)),
    // 40: the first line.
    no_edition("another edition", |t, r| {
        let number = r.pick(&[
            "3", "0", "4", "9", "10", "11", "12", "20", "22", "01", "02", "1.0", "2.0", "001", "002", "A", "-1", "-2",
            "+2", "\u{B9}", "\u{B2}",
        ]);
        first_line(&t, &format!("edition\t{number}"))
    }),
    no_edition("no edition line", |t, r| {
        let number = r.pick(&["1", "2"]);
        let line = r.pick(&[
            "edition",
            "edition\t",
            "edition N",
            "edition\t\tN",
            " edition\tN",
            "Edition\tN",
            "EDITION\tN",
            "N",
        ]);
        first_line(&t, &line.replace('N', number))
    }),
    no_edition("more in the edition line", |t, r| {
        let more = r.pick(&["\r", " ", "\t", "\t1", "\0", ","]);
        let number = r.pick(&["1", "2"]);
        first_line(&t, &format!("edition\t{number}{more}"))
    }),
    no_edition("something before the edition line", |t, r| {
        [r.pick(&["\n", "\u{FEFF}", "\t", "\0", "# saved\n"]).as_bytes(), &t].concat()
    }),
    no_edition("the edition line left out", |t, _| t["edition\t2\n".len()..].to_vec()),
    no_edition("the edition line second", |t, _| {
        let mut lines = lines(&t);
        lines.swap(0, 1);
        lines.concat()
    }),
    no_edition("an empty text", |_, r| r.pick(&["", "\n", "\n\n", "\r\n"]).into()),
    no_edition("cut in the edition line", |t, r| t[..r.below(9) as usize].to_vec()),
    no_edition("no LF at all", |t, _| t.into_iter().filter(|byte| *byte != b'\n').collect()),
    no_edition("CR LF throughout", |t, _| {
        lines(&t).iter().flat_map(|line| [&line[..line.len() - 1], b"\r\n"].concat()).collect()
    }),
    no_edition("spaces for tabs throughout", |t, _| t.into_iter().map(|b| if b == b'\t' { b' ' } else { b }).collect()),
    // 41: lines.
    bad_lines("the edition line alone", |_, r| {
        let number = r.pick(&["1", "2"]);
        format!("edition\t{number}{}", r.pick(&["", "\n", "\n\n"])).into()
    }),
    bad_lines("the last LF missing", |t, _| t[..t.len() - 1].to_vec()),
    bad_lines("cut", |t, r| t[..t.len() - 1 - r.below(t.len() as u64 - 10) as usize].to_vec()),
    bad_lines("cut after a line", |t, r| {
        let lines = lines(&t);
        lines[..1 + r.below(lines.len() as u64 - 1) as usize].concat()
    }),
    bad_lines("a line missing", |t, r| {
        let mut lines = lines(&t);
        lines.remove(a_record(&lines, r));
        lines.concat()
    }),
    bad_lines("a line twice", |t, r| {
        let mut lines = lines(&t);
        let at = a_record(&lines, r);
        lines.insert(at, lines[at]);
        lines.concat()
    }),
    bad_lines("two records swapped", |t, r| {
        let mut lines = lines(&t);
        let (one, other) = (a_record(&lines, r), a_record(&lines, r));
        let neighbour = if one == 1 { 2 } else { one - 1 };
        lines.swap(one, if one == other || r.once_in(2) { neighbour } else { other });
        lines.concat()
    }),
    bad_lines("a surplus line", |t, r| {
        let mut lines = lines(&t);
        let surplus = [&b"\n"[..], b"edition\t2\n", b"WAKE_PIN\t0\n", b"# stuck\n", b"X\t0\n", b"\t\n", b"\r\n"];
        lines.insert(a_record(&lines, r), r.pick(&surplus));
        lines.concat()
    }),
    bad_lines("more at the end", |t, r| {
        let more =
            ["\n", "\n\n", " ", "\0", "\t", "\r\n", "GPE2_STS\t\n", "GPE1_EN\t", "0", "edition\t2\n", "WAKE_PIN\t0\n"];
        [&t, r.pick(&more).as_bytes()].concat()
    }),
    bad_lines("the text twice", |t, _| [&t[..], &t].concat()),
    bad_lines("65,536 bytes and more", |mut t, r| {
        t.resize(65_536 + r.below(3) as usize, r.pick(b"\n0\0"));
        t
    }),
    bad_lines("an LF missing", |t, r| {
        let lines = lines(&t);
        let at = a_record(&lines, r);
        [&lines[..at].concat(), &lines[at][..lines[at].len() - 1], &lines[at + 1..].concat()].concat()
    }),
    bad_lines("CR at a line's end", |t, r| another_line(&t, r, |line, _| [line, b"\r"].concat())),
    bad_lines("CR LF after the first line", |t, _| {
        let lines = lines(&t);
        let rest = lines[1..].iter().flat_map(|line| [&line[..line.len() - 1], b"\r\n"].concat());
        lines[0].iter().copied().chain(rest).collect()
    }),
    // 41: names and tabs.
    bad_lines("another name", |t, r| {
        another_line(&t, r, |line, r| match r.below(5) {
            0 => line[1..].to_vec(),
            1 => [b"_", line].concat(),
            2 => [&[line[0] ^ 0x20], &line[1..]].concat(),
            3 => [&line[..tab(line) - 1], &line[tab(line)..]].concat(),
            _ => [&line[..tab(line)], b"_", &line[tab(line)..]].concat(),
        })
    }),
    bad_lines("another record's name", |t, r| {
        let names: Vec<Vec<u8>> = lines(&t)[1..].iter().map(|line| line[..tab(line)].to_vec()).collect();
        another_line(&t, r, |line, r| {
            let others: Vec<&Vec<u8>> = names.iter().filter(|name| **name != line[..tab(line)]).collect();
            [r.pick(&others), &line[tab(line)..]].concat()
        })
    }),
    bad_lines("no tab", |t, r| another_line(&t, r, |line, _| [&line[..tab(line)], &line[tab(line) + 1..]].concat())),
    bad_lines("another space for a tab", |t, r| {
        another_line(&t, r, |line, r| {
            let space = r.pick(&[" ", "\t\t", " \t", "\t ", "=", ":\t", "\x0B", "\0", "\r"]);
            [&line[..tab(line)], space.as_bytes(), &line[tab(line) + 1..]].concat()
        })
    }),
    bad_lines("something before or after a line", |t, r| {
        another_line(&t, r, |line, r| {
            let more = r.pick(&[&b" "[..], b"\t", b"\0", b"\xFF", b"#"]);
            if r.once_in(2) {
                [line, more].concat()
            } else {
                [more, line].concat()
            }
        })
    }),
    // 41: the forms of a value.
    malformed("a lower case digit", |s, r| s.spoil(r, &["a", "b", "c", "d", "e", "f"])),
    malformed("the same in lower case", |s, r| s.lower(r)),
    malformed("no hex digit", |s, r| {
        s.spoil(r, &["/", ":", "@", "G", "`", "g", "x", "-", "+", " ", "\t", "\0", "\r", "."])
    }),
    malformed("a two-byte character", |s, r| s.spoil(r, &["\u{E9}", "\u{B2}", "\u{FF11}"])),
    malformed("h16 of 15 digits", |s, r| s.shorten(r, 16)),
    malformed("h16 of 17 digits", |s, r| s.lengthen(r, 16)),
    malformed("h8 of 7 digits", |s, r| s.shorten(r, 8)),
    malformed("h8 of 9 digits", |s, r| s.lengthen(r, 8)),
    malformed("h4 of 3 digits", |s, r| s.shorten(r, 4)),
    malformed("h4 of 5 digits", |s, r| s.lengthen(r, 4)),
    malformed("h2 of 1 digit", |s, r| s.shorten(r, 2)),
    malformed("h2 of 3 digits", |s, r| s.lengthen(r, 2)),
    malformed("STATE of 0 or 2 digits", |s, r| s.put("STATE", r.pick(&["", "00", "01", "05", "50"]))),
    malformed("a flag of 0 or 2 digits", |s, r| s.put(r.pick(&FLAGS), r.pick(&["", "00", "01", "10", "11"]))),
    malformed("a flag that is neither 0 nor 1", |s, r| {
        s.put(r.pick(&FLAGS), r.pick(&["2", "3", "9", "A", "F", "-", "x", "y"]));
    }),
    malformed("COMMAND of 0 and a byte", |s, r| {
        let byte = 1 + r.below(255);
        s.put("COMMAND", &format!("0{:02X}", r.pick(&[1, 0x10, 0xFF, byte])));
    }),
    malformed("COMMAND of 2 to F and a byte", |s, r| s.set("COMMAND", 0x200 + r.below(0xE00))),
    malformed("COMMAND of another width", |s, r| {
        s.put("COMMAND", r.pick(&["", "0", "1", "00", "10", "E1", "0000", "1000", "1E10", "01E1"]));
    }),
    malformed("a word for a value", |s, r| {
        let name = s.any_record(r);
        s.put(&name, r.pick(&["-", "none", "absent", "S0", "00h", "$00"]));
    }),
    malformed("GPE: a digit more", |s, r| {
        let name = r.pick(&GPES);
        s.put(name, &format!("{}{}", s.value(name), r.pick(&["0", "F"])));
    }),
    malformed("GPE: a digit less", |s, r| {
        s.full(r);
        let name = r.pick(&GPES);
        s.cut(name, 1);
    }),
    malformed("GPE: a byte more", |s, r| {
        let name = r.pick(&GPES);
        s.put(name, &format!("{}{}", s.value(name), r.pick(&["00", "A5"])));
    }),
    malformed("GPE: a byte less", |s, r| {
        s.full(r);
        let name = r.pick(&GPES);
        s.cut(name, 2);
    }),
    malformed("GPE: no digits", |s, r| {
        s.full(r);
        s.put(r.pick(&GPES), "");
    }),
    malformed("GPE: another length, the digits as they were", |s, r| {
        s.full(r);
        let name = r.pick(&["GPE0_BLK_LEN", "GPE1_BLK_LEN"]);
        let length = s.get(name);
        let others: Vec<u64> = (0..=255).filter(|other| bytes(*other) != bytes(length)).collect();
        s.set(name, r.pick(&others));
    }),
    malformed("GPE: digits of a length that is odd", |s, r| {
        let block = s.any_gpe(r);
        let length = 1 + 2 * r.below(8);
        s.set_gpe(block, length, bytes(length) + 1, r);
    }),
    malformed("GPE: digits of a length above 16, more than 16", |s, r| {
        let block = s.any_gpe(r);
        let length = r.pick(&[17, 18, 20, 32, 64, 255]);
        s.set_gpe(block, length, if length < 18 { 9 } else { length / 2 }, r);
    }),
    malformed("GPE: address zero, a length, and no digits", |s, r| {
        let block = s.any_gpe(r);
        s.set(&format!("GPE{block}_BLK"), 0);
        s.set_gpe(block, 2 + r.below(254), 0, r);
    }),
    malformed("GPE: an address, length zero, and digits", |s, r| {
        let block = s.any_gpe(r);
        s.set_gpe(block, 0, 1 + r.below(8), r);
    }),
    // 42 with the digits that the length asks for.
    illegal("GPE: an odd length, digits rounded down", |s, r| {
        let block = s.any_gpe(r);
        let length = 1 + 2 * r.below(8);
        s.set_gpe(block, length, bytes(length), r);
    }),
    illegal("GPE: a length above 16, 16 digits", |s, r| {
        let block = s.any_gpe(r);
        s.set_gpe(block, r.pick(&[17, 18, 20, 32, 64, 255]), 8, r);
    }),
    illegal("GPE: address zero, a length, and its digits", |s, r| {
        let block = s.any_gpe(r);
        let length = r.pick(&[1, 2, 4, 16, 17, 255]);
        s.set(&format!("GPE{block}_BLK"), 0);
        s.set_gpe(block, length, bytes(length), r);
    }),
    illegal("GPE: an address, length zero, no digits", |s, r| {
        let block = s.any_gpe(r);
        s.set_gpe(block, 0, 0, r);
    }),
    legal_as("GPE: lengths 2 to 16", |s, r| {
        s.full(r);
        for block in [0, 1] {
            let length = 2 + 2 * r.below(8);
            s.set_gpe(block, length, length / 2, r);
        }
        s.settle_base(r);
    }),
    legal_as("GPE: absent, no digits", |s, r| s.without_gpe(r.below(2))),
    // Rules 5 to 12.
    illegal("hardware-reduced", |s, _| s.set_bits("FLAGS", 1 << 20)),
    legal_as("every flag that takes nothing away", |s, r| {
        s.full(r);
        s.set("FLAGS", 0xFFFF_FFFF & !(1 << 20 | 1 << 4 | 1 << 5 | 1 << 6));
    }),
    legal_as("other unlisted flags", |s, r| {
        let unlisted = 0xFFFF_FFFF & !(1 << 20 | 1 << 4 | 1 << 5 | 1 << 6 | 1 << 8 | 1 << 14);
        s.set("FLAGS", s.get("FLAGS") ^ (r.next() & unlisted));
    }),
    illegal("PM1_EVT_LEN", |s, r| s.set("PM1_EVT_LEN", r.pick(&[0, 2, 3, 5, 8, 0xFF]))),
    illegal("PM1_CNT_LEN", |s, r| s.set("PM1_CNT_LEN", r.pick(&[0, 1, 3, 4, 0xFF]))),
    illegal("PM2_CNT_LEN", |s, r| {
        s.full(r);
        s.set("PM2_CNT_LEN", r.pick(&[0, 2, 0xFF]));
    }),
    illegal("PM_TMR_LEN", |s, r| {
        s.full(r);
        s.set("PM_TMR_LEN", r.pick(&[0, 3, 5, 0xFF]));
    }),
    illegal("a length without an address", |s, r| {
        s.without_pm2();
        s.without_timer();
        let (name, length) = r.pick(&[("PM2_CNT_LEN", 1), ("PM_TMR_LEN", 4), ("PM_TMR_LEN", 1)]);
        s.set(name, length);
    }),
    illegal("an address without a length", |s, r| {
        s.full(r);
        s.without_pm2();
        s.without_timer();
        let (name, address) = r.pick(&[("PM2_CNT_BLK", 0x8001), ("PM_TMR_BLK", 0x8000)]);
        s.set(name, address);
    }),
    legal_as("without PM2", |s, _| s.without_pm2()),
    legal_as("without a timer", |s, _| s.without_timer()),
    illegal("PM1a event absent", |s, _| s.set("PM1a_EVT_BLK", 0)),
    illegal("PM1a control absent", |s, _| s.set("PM1a_CNT_BLK", 0)),
    illegal("PM1 event or timer misaligned", |s, r| {
        s.full(r);
        let name = r.pick(&["PM1a_EVT_BLK", "PM1b_EVT_BLK", "PM_TMR_BLK"]);
        s.set(name, s.get(name) + r.pick(&[1, 2, 2, 3]));
    }),
    illegal("PM1 control misaligned", |s, r| {
        s.full(r);
        let name = r.pick(&["PM1a_CNT_BLK", "PM1b_CNT_BLK"]);
        s.set(name, s.get(name) + 1);
    }),
    legal_as("the others anywhere", |s, r| {
        s.full(r);
        for name in ["PM2_CNT_BLK", "GPE0_BLK", "GPE1_BLK", "SMI_CMD"] {
            s.set(name, s.get(name) + r.below(4));
        }
        s.set("PM1b_CNT_BLK", s.get("PM1b_CNT_BLK") + 2);
    }),
    illegal("past port 65,535", |s, r| {
        s.full(r);
        let (name, length) = s.any_block(r);
        let first = 65_536 - length + if name.starts_with("PM1") || name == "PM_TMR_BLK" { length } else { 1 };
        s.set(name, r.pick(&[first, 65_536, 1 << 31, 0xFFFF_FFFC]));
    }),
    legal_as("up to port 65,535", |s, r| {
        s.full(r);
        let (name, length) = s.any_block(r);
        s.set(name, 65_536 - length);
    }),
    illegal("an address above 32 bits", |s, r| {
        let name = r.pick(&ADDRESSES);
        s.set(name, s.get(name) | 1 << (32 + r.below(32)));
    }),
    illegal("an address at the end of 64 bits", |s, r| {
        s.full(r);
        let (name, length) = s.any_block(r);
        s.set(name, u64::MAX - length + 1);
    }),
    illegal("overlap by one port", |s, r| {
        s.full(r);
        let (start, end) = s.anchor(r);
        s.set("GPE0_BLK", r.pick(&[end - 1, start + 1 - s.get("GPE0_BLK_LEN")]));
    }),
    illegal("SMI_CMD or PM2 in a block", |s, r| {
        s.full(r);
        let (start, end) = s.anchor(r);
        s.set(r.pick(&["SMI_CMD", "PM2_CNT_BLK"]), r.pick(&[start, end - 1]));
    }),
    illegal("a block twice", |s, r| {
        s.full(r);
        let (one, other) =
            r.pick(&[("PM1a_EVT_BLK", "PM1b_EVT_BLK"), ("PM1a_CNT_BLK", "PM1b_CNT_BLK"), ("GPE0_BLK", "GPE1_BLK")]);
        s.set(one, s.get(other));
    }),
    legal_as("touching", |s, r| {
        s.full(r);
        let (start, end) = s.anchor(r);
        s.set("GPE0_BLK", r.pick(&[end, start - s.get("GPE0_BLK_LEN")]));
    }),
    illegal("GPE1_BASE below GPE0's count", |s, r| {
        s.full(r);
        s.set("GPE1_BASE", r.pick(&[0, 4 * s.get("GPE0_BLK_LEN") - 1]));
    }),
    illegal("GPE1 past 256", |s, r| {
        s.full(r);
        s.set("GPE1_BASE", r.pick(&[0xFF, 257 - 4 * s.get("GPE1_BLK_LEN")]));
    }),
    legal_as("GPE1_BASE at both ends", |s, r| {
        s.full(r);
        s.set("GPE1_BASE", r.pick(&[4 * s.get("GPE0_BLK_LEN"), 256 - 4 * s.get("GPE1_BLK_LEN")]));
    }),
    legal_as("any base without GPE1", |s, r| {
        s.without_gpe(1);
        s.set("GPE1_BASE", r.pick(&[0, 1, 0x80, 0xFF]));
    }),
    legal_as("base 0 without GPE0", |s, r| {
        s.full(r);
        s.without_gpe(0);
        s.set("GPE1_BASE", 0);
    }),
    illegal("ACPI_ENABLE equals ACPI_DISABLE", |s, r| {
        s.full(r);
        s.set("ACPI_DISABLE", s.get("ACPI_ENABLE"));
    }),
    legal_as("they are equal without SMI_CMD", |s, _| {
        s.without_smi_cmd();
        s.set("ACPI_DISABLE", s.get("ACPI_ENABLE"));
    }),
    illegal("an event home outside C731", |s, r| s.set_bits("EVENT_HOMES", 1 << r.pick(&[1, 2, 3, 6, 7, 11, 12, 13]))),
    illegal("a control home outside 0007", |s, r| s.set_bits("CONTROL_HOMES", 1 << (3 + r.below(13)))),
    illegal("an event home without B", |s, r| {
        s.without_event_b();
        let bit = 1 << r.pick(&[0, 4, 5, 8, 9, 10, 14, 15]);
        // The bit itself is zero, so that nothing else is wrong.
        s.clear_cells(bit);
        s.set("EVENT_HOMES", bit.into());
    }),
    illegal("a control home without B", |s, r| {
        s.without_control_b(r);
        s.set("CONTROL_HOMES", r.pick(&[2, 4, 6]));
        s.clear_bits("PM1a_CNT", 2);
    }),
    legal_as("without B", |s, r| {
        s.without_event_b();
        s.without_control_b(r);
    }),
    legal_as("all homes B", |s, r| {
        s.full(r);
        for register in ["STS", "EN"] {
            let (a, b) = (format!("PM1a_{register}"), format!("PM1b_{register}"));
            s.set_bits(&b, s.get(&a));
            s.set(&a, 0);
        }
        s.set_bits("PM1b_CNT", s.get("PM1a_CNT") & 3);
        s.clear_bits("PM1a_CNT", 3);
        s.set("EVENT_HOMES", 0xC731);
        s.set("CONTROL_HOMES", 7);
    }),
    legal_as("the home of an event that is not fitted", |s, r| {
        s.full(r);
        let bit = r.pick(&[PWRBTN, SLPBTN, RTC, PCIEXP_WAKE]);
        s.unfit(bit);
        s.set("EVENT_HOMES", s.get("EVENT_HOMES") ^ u64::from(bit));
    }),
    illegal("an a above 7", |s, r| s.set(r.pick(&SLEEPS), r.pick(&[0x0800, 0x0907, 0x1000, 0x8000, 0xFE00]))),
    illegal("a b above 7", |s, r| {
        s.full(r);
        s.in_state(0, r);
        s.set("S0", (s.get("S0") & 0xFF00) | r.pick(&[8, 9, 0x10, 0x80, 0xFF]));
    }),
    illegal("FF for an a or a b", |s, r| {
        s.set(r.pick(&SLEEPS), r.pick(&[0xFF00, 0xFF07, 0xFFFE, 0xFF08, 0x00FF, 0x07FF, 0xFEFF]));
    }),
    illegal("b above 7 without B", |s, r| {
        s.without_control_b(r);
        s.set("S4", r.pick(&[0x0408, 0x04FE, 0x0480]));
    }),
    illegal("a pair twice", |s, r| {
        s.full(r);
        let (one, other) = r.pick(&[("S0", "S1"), ("S0", "S5"), ("S2", "S3"), ("S4", "S5"), ("S1", "S4")]);
        let pair = s.get(one);
        let pair = if pair == ABSENT { 0x0304 } else { pair };
        s.set(one, pair);
        s.set(other, pair);
    }),
    illegal("an a twice without B", |s, r| {
        s.without_control_b(r);
        let (one, other) = r.pick(&[("S0", "S1"), ("S0", "S5"), ("S2", "S3"), ("S4", "S5")]);
        s.set(one, 0x0701);
        s.set(other, 0x0702);
    }),
    legal_as("an a or a b twice with B", |s, r| {
        s.full(r);
        let by_a = r.once_in(2);
        for (i, name) in SLEEPS.iter().enumerate() {
            s.set(name, if by_a { 0x0700 + i as u64 } else { 0x0007 + ((i as u64) << 8) });
        }
    }),
    legal_as("the highest b without B", |s, r| {
        s.without_control_b(r);
        s.set("S5", 0x0507);
    }),
    legal_as("no state", |s, r| {
        s.in_state(r.pick(&[0, 5]), r);
        for name in SLEEPS {
            s.set(name, ABSENT);
        }
    }),
    // Bits.
    illegal("a reserved status bit", |s, r| {
        s.set_bits(r.pick(&["PM1a_STS", "PM1b_STS"]), 1 << r.pick(&[1, 2, 3, 6, 7, 11, 12, 13]));
    }),
    illegal("a reserved enable bit", |s, r| {
        s.set_bits(r.pick(&["PM1a_EN", "PM1b_EN"]), 1 << r.pick(&[1, 2, 3, 6, 7, 11, 12, 13]));
    }),
    illegal("an enable of BM or WAK", |s, r| {
        let bit = r.pick(&[4, 15]);
        s.set_bits(&format!("PM1{}_EN", s.home(1 << bit)), 1 << bit);
    }),
    illegal("an unfitted event's status", |s, r| s.set_unfitted("STS", r)),
    illegal("an unfitted event's enable", |s, r| s.set_unfitted("EN", r)),
    illegal("a status bit outside its home", |s, r| s.set_away("STS", r)),
    illegal("an enable bit outside its home", |s, r| s.set_away("EN", r)),
    illegal("BM or WAK outside its home", |s, r| {
        let bit = r.pick(&[4, 15]);
        let other = if s.home(1 << bit) == 'a' { 'b' } else { 'a' };
        s.set_bits(&format!("PM1{other}_STS"), 1 << bit);
    }),
    legal_as("every status and enable bit in its home", |s, r| {
        s.full(r);
        for block in ['a', 'b'] {
            let bits = s.visible(block);
            s.set(&format!("PM1{block}_STS"), bits.into());
            s.set(&format!("PM1{block}_EN"), (bits & ENABLES).into());
        }
    }),
    legal_as("any fitted status and enable bits", |s, r| {
        for block in ['a', 'b'] {
            let bits = s.visible(block);
            s.set(&format!("PM1{block}_STS"), r.next() & u64::from(bits));
            s.set(&format!("PM1{block}_EN"), r.next() & u64::from(bits & ENABLES));
        }
    }),
    illegal("a reserved control bit", |s, r| {
        s.set_bits(r.pick(&["PM1a_CNT", "PM1b_CNT"]), 1 << r.pick(&[3, 4, 5, 6, 7, 8, 9, 14, 15]));
    }),
    illegal("GBL_RLS in its home", |s, r| {
        s.full(r);
        let home = if s.get("CONTROL_HOMES") & 4 == 0 { "PM1a_CNT" } else { "PM1b_CNT" };
        s.set_bits(home, 4);
    }),
    illegal("GBL_RLS outside its home", |s, r| {
        s.full(r);
        let away = if s.get("CONTROL_HOMES") & 4 == 0 { "PM1b_CNT" } else { "PM1a_CNT" };
        s.set_bits(away, 4);
    }),
    illegal("SLP_EN", |s, r| {
        s.full(r);
        s.set_bits(r.pick(&["PM1a_CNT", "PM1b_CNT"]), 1 << 13);
    }),
    illegal("SCI_EN or BM_RLD outside its home", |s, r| {
        s.full(r);
        let bit = 1 + r.below(2);
        let (home, other) =
            if s.get("CONTROL_HOMES") & bit == 0 { ("PM1a_CNT", "PM1b_CNT") } else { ("PM1b_CNT", "PM1a_CNT") };
        if r.once_in(2) {
            s.clear_bits(home, bit);
        }
        s.set_bits(other, bit);
    }),
    legal_as("any control bits", |s, r| {
        s.full(r);
        let homes = s.get("CONTROL_HOMES");
        s.set("PM1a_CNT", r.next() & (0x1C00 | 3 & !homes));
        s.set("PM1b_CNT", r.next() & (0x1C00 | 3 & homes));
    }),
    illegal("a reserved bit of PM2", |s, r| {
        s.full(r);
        s.set_bits("PM2_CNT", 1 << (1 + r.below(7)));
    }),
    illegal("ARB_DIS without PM2", |s, _| {
        s.without_pm2();
        s.set("PM2_CNT", 1);
    }),
    legal_as("ARB_DIS with PM2", |s, r| {
        s.full(r);
        s.set("PM2_CNT", r.below(2));
    }),
    legal_as("every GPE bit", |s, r| {
        s.full(r);
        for name in GPES {
            let digits = s.value(name).len();
            s.put(name, &"F".repeat(digits));
        }
    }),
    // State, counter and hold.
    illegal("an absent state", |s, r| {
        let state = 1 + r.below(4);
        s.in_state(0, r);
        s.set(SLEEPS[state as usize], ABSENT);
        s.set("STATE", state);
        s.set("ARMED", 0);
    }),
    illegal("no such state", |s, r| {
        s.in_state(0, r);
        s.set("STATE", 6 + r.below(10));
    }),
    legal_as("any state that is there", |s, r| s.in_state(r.below(6), r)),
    legal_as("S0 or S5, absent", |s, r| {
        let state = r.pick(&[0, 5]);
        s.in_state(state, r);
        s.set(SLEEPS[state as usize], ABSENT);
    }),
    illegal("counter one past 24 bits", |s, _| {
        s.clear_bits("FLAGS", 1 << 8);
        s.set("PM_TMR", 1 << 24);
    }),
    illegal("counter far past 24 bits", |s, r| {
        s.clear_bits("FLAGS", 1 << 8);
        let above = 1 << 24 | r.next() & 0xFFFF_FFFF;
        s.set("PM_TMR", r.pick(&[1 << 31, 0xFFFF_FFFF, above]));
    }),
    legal_as("counter at the end of 24 bits", |s, _| {
        s.clear_bits("FLAGS", 1 << 8);
        s.set("PM_TMR", (1 << 24) - 1);
    }),
    legal_as("counter above 24 bits, of 32", |s, r| {
        s.set_bits("FLAGS", 1 << 8);
        s.set("PM_TMR", r.pick(&[1 << 24, 0xFFFF_FFFF, 1 << 31]));
    }),
    illegal("hold 14,318,181", |s, r| {
        s.in_state(r.below(5), r);
        s.set("OVERRIDE", r.below(2));
        s.set("HOLD", HOLD + 1);
    }),
    illegal("hold 14,318,181 in S5", |s, r| {
        s.in_state(5, r);
        s.set("OVERRIDE", r.below(2));
        s.set("HOLD", HOLD + 1);
    }),
    illegal("hold far above", |s, r| s.set("HOLD", r.pick(&[HOLD + 2, 1 << 24, 1 << 31, 0xFFFF_FFFF]))),
    illegal("hold 14,318,180 outside S5, override fitted", |s, r| {
        s.in_state(r.below(5), r);
        s.set("OVERRIDE", 1);
        s.set("HOLD", HOLD);
    }),
    legal_as("hold 14,318,179 outside S5, override fitted", |s, r| {
        s.in_state(r.below(5), r);
        s.set("OVERRIDE", 1);
        s.set("HOLD", HOLD - 1);
    }),
    legal_as("hold 14,318,180 in S5, override fitted", |s, r| {
        s.in_state(5, r);
        s.set("OVERRIDE", 1);
        s.set("HOLD", HOLD);
    }),
    legal_as("hold 14,318,180, no override", |s, r| {
        s.in_state(r.below(6), r);
        s.set("OVERRIDE", 0);
        s.set("HOLD", HOLD);
    }),
    legal_as("any hold below, button up or down", |s, r| {
        s.full(r);
        s.set("HOLD", r.below(HOLD));
        s.set("BUTTON", r.below(2));
    }),
    // Button, command, SCI_EN, arming, SLP_TYP.
    illegal("button down, not fitted", |s, _| {
        s.unfit(PWRBTN);
        s.set("BUTTON", 1);
    }),
    legal_as("button up, not fitted", |s, _| s.unfit(PWRBTN)),
    illegal("a command without SMI_CMD", |s, r| {
        s.without_smi_cmd();
        s.set("COMMAND", 0x100 + r.below(256));
    }),
    illegal("SCI_EN clear without SMI_CMD", |s, _| {
        s.without_smi_cmd();
        s.clear_bits("PM1a_CNT", 1);
        s.clear_bits("PM1b_CNT", 1);
    }),
    legal_as("SCI_EN and no command without SMI_CMD", |s, _| s.without_smi_cmd()),
    legal_as("any command and SCI_EN with SMI_CMD", |s, r| {
        s.full(r);
        s.set("COMMAND", r.pick(&[0, 0x100, 0x1E1, 0x1FF]));
        s.clear_bits("PM1a_CNT", 1);
        s.clear_bits("PM1b_CNT", 1);
    }),
    illegal("armed outside S0", |s, r| {
        s.full(r);
        s.in_state(1 + r.below(5), r);
        s.set("ARMED", 1);
    }),
    illegal("armed without B control", |s, r| {
        s.in_state(0, r);
        s.without_control_b(r);
        s.set("ARMED", 1);
    }),
    legal_as("armed in S0 with B control", |s, r| {
        s.full(r);
        s.in_state(0, r);
        if r.once_in(2) {
            s.without_event_b();
        }
        s.set("ARMED", 1);
    }),
    illegal("B's SLP_TYP without B", |s, r| {
        s.without_control_b(r);
        s.set("PM1b_CNT", (1 + r.below(7)) << 10);
    }),
    illegal("B's SCI_EN or BM_RLD without B", |s, r| {
        s.without_control_b(r);
        s.set("PM1b_CNT", 1 + r.below(3));
    }),
    legal_as("any SLP_TYP of A without B", |s, r| {
        s.without_control_b(r);
        s.set("PM1a_CNT", s.get("PM1a_CNT") & 3 | r.below(8) << 10);
    }),
    // The wake pin.
    legal_as("WAKE_PIN active, fitted", |s, r| {
        s.set_bits("FLAGS", 1 << 14);
        s.in_state(r.below(6), r);
        s.set("WAKE_PIN", 1);
    }),
    illegal("WAKE_PIN active, not fitted", |s, r| {
        s.unfit(PCIEXP_WAKE);
        s.in_state(r.below(6), r);
        s.set("WAKE_PIN", 1);
    }),
    legal_as("WAKE_PIN inactive, fitted", |s, _| {
        s.set_bits("FLAGS", 1 << 14);
        s.set("WAKE_PIN", 0);
    }),
    legal_as("WAKE_PIN inactive, not fitted", |s, _| s.unfit(PCIEXP_WAKE)),
    legal_as("WAKE_PIN beside any bit 14", |s, r| {
        s.full(r);
        s.set("WAKE_PIN", r.pick(&[1, 0]));
        s.clear_cells(PCIEXP_WAKE);
        for register in ["STS", "EN"] {
            let bit = u64::from(PCIEXP_WAKE) * r.below(2);
            s.set_bits(&format!("PM1{}_{register}", s.home(PCIEXP_WAKE)), bit);
        }
    }),
    malformed("WAKE_PIN malformed", |s, r| {
        s.put("WAKE_PIN", r.pick(&["2", "00", "", "01", "10", "11", "3", "9", "A", "F", "-", "x", " 1", "1 ", "0\t"]));
    }),
    // The editions.
    malformed("WAKE_PIN left out", |s, _| s.remove("WAKE_PIN")),
    malformed("WAKE_PIN in another place", |s, r| {
        let pin = s.value("WAKE_PIN").to_string();
        s.remove("WAKE_PIN");
        let before = loop {
            let name = s.any_record(r);
            if name != "STATE" {
                break name;
            }
        };
        s.insert_after(&before, "WAKE_PIN", &pin);
    }),
    legal_text("edition 1", |t, _| edition_1(&t)),
    legal_text("edition 1, another legal one", |t, r| in_edition_1(&t, r, 0)),
    malformed("edition 1 with WAKE_PIN", |s, r| {
        s.put("edition", "1");
        s.set("WAKE_PIN", r.pick(&[0, 1]));
    }),
    bad_lines("edition 1 with WAKE_PIN in another place", |t, r| {
        let text = edition_1(&t);
        let mut lines = lines(&text);
        let pin = r.pick(&[&b"WAKE_PIN\t0\n"[..], b"WAKE_PIN\t1\n"]);
        lines.insert(1 + r.below(lines.len() as u64) as usize, pin);
        lines.concat()
    }),
    bad_lines("edition 1, a line missing", |t, r| {
        let text = edition_1(&t);
        let mut lines = lines(&text);
        lines.remove(a_record(&lines, r));
        lines.concat()
    }),
    bad_lines("edition 1, malformed", |t, r| {
        let mut saved = Saved::of(&edition_1(&t));
        saved.spoil(r, &["a", "f", "G", "-", "\r"]);
        saved.text()
    }),
    illegal_text("edition 1, illegal", |t, r| in_edition_1(&t, r, 42)),
    // The order of the refusals.
    bad_lines("illegal and malformed", |t, r| {
        let mut saved = Saved::of(&some(r, 42).apply(&t, r));
        saved.spoil(r, &["a", "f", "G", "-"]);
        saved.text()
    }),
    no_edition("illegal and another edition", |t, r| first_line(&some(r, 42).apply(&t, r), "edition\t3")),
    no_edition("malformed and another edition", |t, r| {
        let mut saved = Saved::of(&t);
        saved.spoil(r, &["a", "f", "G", "-"]);
        first_line(&saved.text(), "edition\t3")
    }),
    // Anything.
    any("one byte changed", |mut t, r| {
        let at = r.below(t.len() as u64) as usize;
        t[at] = match r.below(4) {
            0 => r.next() as u8,
            1 => t[at] ^ 1 << r.below(8),
            _ => r.pick(b"0123456789ABCDEF"),
        };
        t
    }),
    any("one byte more or less", |mut t, r| {
        let at = r.below(t.len() as u64) as usize;
        if r.once_in(2) {
            t.remove(at);
        } else {
            t.insert(at, r.pick(b"00FF\t\n\r \0"));
        }
        t
    }),
    any("records with other values of their form", |t, r| {
        let mut saved = Saved::of(&t);
        for _ in 0..r.pick(&[1, 1, 2, 3, 8]) {
            saved.any_value(r);
        }
        saved.text()
    }),
    any("records of another text", |t, r| {
        let (mut saved, other) = (Saved::of(&t), Saved::of(&legal(r)));
        for _ in 0..r.pick(&[1, 2, 4]) {
            let name = saved.any_record(r);
            saved.put(&name, other.value(&name));
        }
        saved.text()
    }),
];

/// A kind of records whose answer this is.
fn some(random: &mut Random, answer: u8) -> &'static State {
    let of_records = |kind: &&State| matches!(kind.how, How::Records(_));
    let kinds: Vec<&State> = STATES.iter().filter(|kind| kind.answer == Some(answer)).filter(of_records).collect();
    random.pick(&kinds)
}

/// A kind whose answer this is, in edition 1; one that is not of the pin.
fn in_edition_1(text: &[u8], random: &mut Random, answer: u8) -> Vec<u8> {
    loop {
        let kind = some(random, answer);
        if !kind.name.starts_with("WAKE_PIN") {
            return edition_1(&kind.apply(text, random));
        }
    }
}

/// With the LF of each.
fn lines(text: &[u8]) -> Vec<&[u8]> {
    text.split_inclusive(|byte| *byte == b'\n').collect()
}

/// The number of a line after the first.
fn a_record(lines: &[&[u8]], random: &mut Random) -> usize {
    1 + random.below(lines.len() as u64 - 1) as usize
}

fn first_line(text: &[u8], first: &str) -> Vec<u8> {
    let end = text.iter().position(|byte| *byte == b'\n').unwrap_or(text.len());
    [first.as_bytes(), &text[end..]].concat()
}

fn tab(line: &[u8]) -> usize {
    line.iter().position(|byte| *byte == b'\t').expect("a record")
}

/// A line after the first is changed; it is handed without its LF.
fn another_line(text: &[u8], random: &mut Random, how: impl Fn(&[u8], &mut Random) -> Vec<u8>) -> Vec<u8> {
    let lines = lines(text);
    let at = a_record(&lines, random);
    let line = &lines[at][..lines[at].len() - 1];
    [&lines[..at].concat(), &how(line, random)[..], b"\n", &lines[at + 1..].concat()].concat()
}
