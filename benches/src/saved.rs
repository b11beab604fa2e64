//! The saved text once more, as a plain program that allocates nothing: a table of the records, one loop over it, a lent
//! buffer. `tests/model` has the cells of a register and what is legal.

use model::saved::{control, Records, MALFORMED, NO_EDITION};
use model::{Gpe, Machine, A, B, GPE_BYTES};

const FIRST: &[u8] = b"edition\t2";
/// Edition 1 is still read; it has no WAKE_PIN, the last of `RECORDS`.
const OLDER: &[u8] = b"edition\t1";

#[derive(Clone, Copy)]
enum Form {
    Hex,
    Flag,
    Command,
}

struct Record {
    /// With the tab.
    name: &'static str,
    form: Form,
    digits: usize,
}

const fn hex(name: &'static str, digits: usize) -> Record {
    Record {
        name,
        form: Form::Hex,
        digits,
    }
}

const fn flag(name: &'static str) -> Record {
    Record {
        name,
        form: Form::Flag,
        digits: 1,
    }
}

const COUNT: usize = 43;

const RECORDS: [Record; COUNT] = [
    hex("SMI_CMD\t", 16),
    hex("ACPI_ENABLE\t", 2),
    hex("ACPI_DISABLE\t", 2),
    hex("PM1a_EVT_BLK\t", 16),
    hex("PM1b_EVT_BLK\t", 16),
    hex("PM1a_CNT_BLK\t", 16),
    hex("PM1b_CNT_BLK\t", 16),
    hex("PM2_CNT_BLK\t", 16),
    hex("PM_TMR_BLK\t", 16),
    hex("GPE0_BLK\t", 16),
    hex("GPE1_BLK\t", 16),
    hex("PM1_EVT_LEN\t", 2),
    hex("PM1_CNT_LEN\t", 2),
    hex("PM2_CNT_LEN\t", 2),
    hex("PM_TMR_LEN\t", 2),
    hex("GPE0_BLK_LEN\t", 2),
    hex("GPE1_BLK_LEN\t", 2),
    hex("GPE1_BASE\t", 2),
    hex("FLAGS\t", 8),
    hex("EVENT_HOMES\t", 4),
    hex("CONTROL_HOMES\t", 4),
    flag("OVERRIDE\t"),
    hex("S0\t", 4),
    hex("S1\t", 4),
    hex("S2\t", 4),
    hex("S3\t", 4),
    hex("S4\t", 4),
    hex("S5\t", 4),
    hex("PM1a_STS\t", 4),
    hex("PM1b_STS\t", 4),
    hex("PM1a_EN\t", 4),
    hex("PM1b_EN\t", 4),
    hex("PM1a_CNT\t", 4),
    hex("PM1b_CNT\t", 4),
    hex("PM2_CNT\t", 2),
    hex("PM_TMR\t", 8),
    hex("HOLD\t", 8),
    flag("BUTTON\t"),
    Record {
        name: "COMMAND\t",
        form: Form::Command,
        digits: 3,
    },
    flag("RELEASE\t"),
    flag("ARMED\t"),
    hex("STATE\t", 1),
    flag("WAKE_PIN\t"),
];

const GPE_STS: [&str; 2] = ["GPE0_STS\t", "GPE1_STS\t"];
const GPE_EN: [&str; 2] = ["GPE0_EN\t", "GPE1_EN\t"];

/// The text's length without the digits of the general event bytes.
const FIXED: usize = {
    let mut length = FIRST.len() + 1;
    let mut i = 0;
    while i < COUNT {
        length += RECORDS[i].name.len() + RECORDS[i].digits + 1;
        i += 1;
    }
    length + 2 * (GPE_STS[0].len() + GPE_EN[0].len() + 2)
};

/// Half as many bytes as the block's length says, and at most 8.
fn own(length: u32) -> usize {
    (length as usize / 2).min(8)
}

// ---- writing

fn values(machine: &Machine) -> [u64; COUNT] {
    let hardware = &machine.hardware;
    let pair = |state: usize| hardware.states[state].map_or(0xFFFF, |(a, b)| u64::from(a) << 8 | u64::from(b));
    [
        hardware.smi_cmd.start.into(),
        hardware.acpi_enable.into(),
        hardware.acpi_disable.into(),
        hardware.event[A].start.into(),
        hardware.event[B].start.into(),
        hardware.control[A].start.into(),
        hardware.control[B].start.into(),
        hardware.pm2.start.into(),
        hardware.timer.start.into(),
        hardware.gpe[0].start.into(),
        hardware.gpe[1].start.into(),
        hardware.event[A].length.into(),
        hardware.control[A].length.into(),
        hardware.pm2.length.into(),
        hardware.timer.length.into(),
        hardware.gpe[0].length.into(),
        hardware.gpe[1].length.into(),
        hardware.gpe_base[1].into(),
        hardware.flags.into(),
        hardware.event_homes.into(),
        hardware.control_homes.into(),
        hardware.power_override.into(),
        pair(0),
        pair(1),
        pair(2),
        pair(3),
        pair(4),
        pair(5),
        (machine.status & hardware.visible[A]).into(),
        (machine.status & hardware.visible[B]).into(),
        (machine.enable & hardware.visible[A]).into(),
        (machine.enable & hardware.visible[B]).into(),
        control(machine, A).into(),
        control(machine, B).into(),
        machine.arb_dis.into(),
        machine.counter.into(),
        machine.hold.into(),
        machine.down.into(),
        machine.command.map_or(0, |byte| 0x100 | u64::from(byte)),
        machine.release.into(),
        machine.armed.into(),
        machine.state.into(),
        machine.pin.into(),
    ]
}

struct Writer<'a> {
    buffer: &'a mut [u8],
    at: usize,
}

impl Writer<'_> {
    fn text(&mut self, text: &[u8]) {
        self.buffer[self.at..self.at + text.len()].copy_from_slice(text);
        self.at += text.len();
    }

    fn hex(&mut self, value: u64, digits: usize) {
        let mut rest = value;
        for byte in self.buffer[self.at..self.at + digits].iter_mut().rev() {
            *byte = b"0123456789ABCDEF"[(rest & 15) as usize];
            rest >>= 4;
        }
        self.at += digits;
    }

    fn bytes(&mut self, name: &str, bytes: &[u8]) {
        self.text(name.as_bytes());
        for byte in bytes {
            self.hex((*byte).into(), 2);
        }
        self.text(b"\n");
    }
}

/// The text's length; nothing where it is longer than the buffer.
#[inline(never)]
pub fn write(machine: &Machine, buffer: &mut [u8]) -> Option<usize> {
    let own = machine.hardware.gpe.map(|block| own(block.length));
    if buffer.len() < FIXED + 4 * (own[0] + own[1]) {
        return None;
    }
    let mut text = Writer { buffer, at: 0 };
    text.text(FIRST);
    text.text(b"\n");
    for (record, value) in RECORDS.iter().zip(values(machine)) {
        text.text(record.name.as_bytes());
        text.hex(value, record.digits);
        text.text(b"\n");
    }
    for block in [0, 1] {
        text.bytes(GPE_STS[block], &machine.gpe[block].status[..own[block]]);
        text.bytes(GPE_EN[block], &machine.gpe[block].enable[..own[block]]);
    }
    Some(text.at)
}

// ---- reading

/// What is left of the text.
struct Reader<'a>(&'a [u8]);

impl<'a> Reader<'a> {
    fn text(&mut self, text: &[u8]) -> Result<(), u8> {
        self.0 = self.0.strip_prefix(text).ok_or(MALFORMED)?;
        Ok(())
    }

    fn hex(&mut self, digits: usize) -> Result<u64, u8> {
        let (value, rest) = self.0.split_at_checked(digits).ok_or(MALFORMED)?;
        self.0 = rest;
        let mut number = 0;
        for byte in value {
            let digit = match byte {
                b'0'..=b'9' => byte - b'0',
                b'A'..=b'F' => byte - b'A' + 10,
                _ => return Err(MALFORMED),
            };
            number = number << 4 | u64::from(digit);
        }
        Ok(number)
    }

    fn value(&mut self, record: &Record) -> Result<u64, u8> {
        self.text(record.name.as_bytes())?;
        let value = self.hex(record.digits)?;
        let formed = match record.form {
            Form::Hex => true,
            Form::Flag => value < 2,
            Form::Command => value == 0 || value >> 8 == 1,
        };
        if !formed {
            return Err(MALFORMED);
        }
        self.text(b"\n")?;
        Ok(value)
    }

    fn bytes(&mut self, name: &str, own: usize) -> Result<[u8; GPE_BYTES], u8> {
        self.text(name.as_bytes())?;
        let mut bytes = [0; GPE_BYTES];
        for byte in &mut bytes[..own] {
            *byte = self.hex(2)? as u8;
        }
        self.text(b"\n")?;
        Ok(bytes)
    }
}

#[inline(never)]
pub fn read(text: &[u8]) -> Result<Machine, u8> {
    let end = text.iter().position(|byte| *byte == b'\n').unwrap_or(text.len());
    let count = match &text[..end] {
        FIRST => COUNT,
        OLDER => COUNT - 1,
        _ => return Err(NO_EDITION),
    };
    let mut left = Reader(&text[end..]);
    left.text(b"\n")?;
    let mut values = [0; COUNT];
    for (record, value) in RECORDS[..count].iter().zip(&mut values) {
        *value = left.value(record)?;
    }
    let mut gpe = [Gpe::default(); 2];
    for (block, length) in [values[15], values[16]].into_iter().enumerate() {
        gpe[block].status = left.bytes(GPE_STS[block], own(length as u32))?;
        gpe[block].enable = left.bytes(GPE_EN[block], own(length as u32))?;
    }
    if !left.0.is_empty() {
        return Err(MALFORMED);
    }
    records(&values, gpe).machine()
}

fn records(v: &[u64; COUNT], gpe: [Gpe; 2]) -> Records {
    let pair = |value: u64| match value {
        0xFFFF => None,
        _ => Some(((value >> 8) as u8, value as u8)),
    };
    Records {
        smi_cmd: v[0],
        acpi_enable: v[1] as u8,
        acpi_disable: v[2] as u8,
        event_blk: [v[3], v[4]],
        control_blk: [v[5], v[6]],
        pm2_blk: v[7],
        timer_blk: v[8],
        gpe_blk: [v[9], v[10]],
        event_len: v[11] as u8,
        control_len: v[12] as u8,
        pm2_len: v[13] as u8,
        timer_len: v[14] as u8,
        gpe_len: [v[15] as u8, v[16] as u8],
        gpe1_base: v[17] as u8,
        flags: v[18] as u32,
        event_homes: v[19] as u16,
        control_homes: v[20] as u16,
        power_override: v[21] == 1,
        states: [pair(v[22]), pair(v[23]), pair(v[24]), pair(v[25]), pair(v[26]), pair(v[27])],
        status: [v[28] as u16, v[29] as u16],
        enable: [v[30] as u16, v[31] as u16],
        control: [v[32] as u16, v[33] as u16],
        pm2: v[34] as u8,
        counter: v[35] as u32,
        hold: v[36] as u32,
        button: v[37] == 1,
        command: if v[38] == 0 { None } else { Some(v[38] as u8) },
        release: v[39] == 1,
        armed: v[40] == 1,
        state: v[41] as u8,
        pin: v[42] == 1,
        gpe,
    }
}
