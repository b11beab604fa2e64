//! "A session, whole": the script's lines, and the listing.

use std::io::Write;

use crate::{set_up, Machine, Settings, Step};

/// No line past this byte of a script reads, and no more of a table is lent.
pub const LIMIT: usize = 65_536;

/// The listing, or nothing where setting up is refused or a line does not read.
pub fn session(table: &[u8], script: &[u8]) -> Option<Vec<u8>> {
    let (settings, steps) = read_script(script)?;
    let mut machine = set_up(lent(table), &settings).ok()?;
    let mut listing = b"step\tanswer\tvalue\tsci\tsmi\tstate\n".to_vec();
    for (i, step) in steps.iter().enumerate() {
        let (answer, value) = machine.step(step);
        let (number, sci, smi) = (i + 1, u8::from(machine.sci()), u8::from(machine.smi()));
        let state = machine.state();
        writeln!(listing, "{number}\t{answer}\t{value:08X}\t{sci}\t{smi}\tS{state}").ok()?;
    }
    Some(listing)
}

/// The machine at the session's end, where there is a listing.
pub fn session_end(table: &[u8], script: &[u8]) -> Option<Machine> {
    let (settings, steps) = read_script(script)?;
    let mut machine = set_up(lent(table), &settings).ok()?;
    for step in &steps {
        machine.step(step);
    }
    Some(machine)
}

/// Setting up's number, 0 to 12, where the script reads.
pub fn set_up_answer(table: &[u8], script: &[u8]) -> Option<u8> {
    let (settings, _) = read_script(script)?;
    Some(set_up(lent(table), &settings).err().unwrap_or(0))
}

/// The bytes of a table that count.
pub(crate) fn lent(table: &[u8]) -> &[u8] {
    &table[..table.len().min(LIMIT)]
}

pub fn read_script(script: &[u8]) -> Option<(Settings, Vec<Step>)> {
    if script.len() > LIMIT {
        return None;
    }
    // The last line may lack its LF.
    let script = script.strip_suffix(b"\n").unwrap_or(script);
    let mut lines = script.split(|byte| *byte == b'\n');
    let settings = read_platform(lines.next()?)?;
    let steps = lines.map(read_step).collect::<Option<Vec<Step>>>()?;
    Some((settings, steps))
}

fn read_platform(line: &[u8]) -> Option<Settings> {
    let mut fields = line.split(|byte| *byte == b'\t');
    if fields.next()? != b"platform" {
        return None;
    }
    let event_homes = u16::try_from(number(fields.next()?)?).ok()?;
    let control_homes = u16::try_from(number(fields.next()?)?).ok()?;
    let power_override = match fields.next()? {
        b"0" => false,
        b"1" => true,
        _ => return None,
    };
    let mut states = [None; 6];
    for state in &mut states {
        *state = match fields.next()? {
            b"-" => None,
            [a, b] => Some((digit(*a)?, digit(*b)?)),
            _ => return None,
        };
    }
    if fields.next().is_some() {
        return None;
    }
    Some(Settings { event_homes, control_homes, power_override, states })
}

fn read_step(line: &[u8]) -> Option<Step> {
    let mut fields = line.split(|byte| *byte == b'\t');
    let step = match fields.next()? {
        b"r" => Step::Read { port: number(fields.next()?)?, width: number32(fields.next()?)? },
        b"w" => Step::Write {
            port: number(fields.next()?)?,
            width: number32(fields.next()?)?,
            data: number(fields.next()?)?,
        },
        b"press" => Step::Press,
        b"release" => Step::Release,
        b"sleep" => Step::Sleep,
        b"alarm" => Step::Alarm,
        b"pin" => match fields.next()? {
            b"0" => Step::PinInactive,
            b"1" => Step::PinActive,
            _ => return None,
        },
        b"master" => Step::Master,
        b"unlock" => Step::Unlock,
        b"event" => Step::Event(number32(fields.next()?)?),
        b"tick" => Step::Tick(number32(fields.next()?)?),
        b"take" => Step::Take,
        b"drop" => Step::Drop,
        _ => return None,
    };
    fields.next().is_none().then_some(step)
}

/// 1 to 16 hex digits.
fn number(field: &[u8]) -> Option<u64> {
    if field.is_empty() || field.len() > 16 {
        return None;
    }
    field.iter().try_fold(0, |sum, byte| Some(sum << 4 | u64::from(digit(*byte)?)))
}

fn number32(field: &[u8]) -> Option<u32> {
    u32::try_from(number(field)?).ok()
}

fn digit(byte: u8) -> Option<u8> {
    match byte {
        b'0'..=b'9' => Some(byte - b'0'),
        b'A'..=b'F' => Some(byte - b'A' + 10),
        b'a'..=b'f' => Some(byte - b'a' + 10),
        _ => None,
    }
}
