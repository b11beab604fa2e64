//! Request W2: the machine and its settings as text. The first line names the edition; then a record a line, `NAME` tab
//! `VALUE`, in a fixed order. Numbers are in upper case hex of a fixed width, and every line ends in LF. Edition 2, that of
//! request W3, has WAKE_PIN; it is what is written, and edition 1 is still read.

use crate::cells::{BM_RLD, ENABLES, PCIEXP_WAKE, PWRBTN, SCI_EN};
use crate::set_up::{rules_5_to_12, Fadt};
use crate::{Block, Gpe, Hardware, Machine, Settings, A, B, GPE_BYTES, HOLD_LIMIT};

/// Reading's refusals, tried in this order: first line no known edition,
pub const NO_EDITION: u8 = 40;
/// malformed, missing or surplus line,
pub const MALFORMED: u8 = 41;
/// illegal setting or cell.
pub const ILLEGAL: u8 = 42;

/// What breaks each clause of W2's list after its settings, and W3's.
pub const CLAUSES: [&str; 16] = [
    "a status bit that is not the register's",
    "an enable bit that is not the register's",
    "a control bit that is not the register's",
    "a reserved bit of PM2",
    "ARB_DIS without PM2",
    "a state that is not there",
    "a counter past its size",
    "hold above its limit",
    "hold at its limit outside S5 with the override",
    "button down, not fitted",
    "a command without SMI_CMD",
    "SCI_EN clear without SMI_CMD",
    "armed outside S0",
    "armed without B control",
    "B's SLP_TYP without B",
    "wake pin active, not fitted",
];

const SLP_TYP: u16 = 7 << 10;
const ARB_DIS: u8 = 1;

/// The text of any machine.
pub fn write(machine: &Machine) -> Vec<u8> {
    let hardware = &machine.hardware;
    let mut text = String::from("edition\t2\n");

    text += &format!("SMI_CMD\t{:016X}\n", hardware.smi_cmd.start);
    text += &format!("ACPI_ENABLE\t{:02X}\n", hardware.acpi_enable);
    text += &format!("ACPI_DISABLE\t{:02X}\n", hardware.acpi_disable);
    text += &format!("PM1a_EVT_BLK\t{:016X}\n", hardware.event[A].start);
    text += &format!("PM1b_EVT_BLK\t{:016X}\n", hardware.event[B].start);
    text += &format!("PM1a_CNT_BLK\t{:016X}\n", hardware.control[A].start);
    text += &format!("PM1b_CNT_BLK\t{:016X}\n", hardware.control[B].start);
    text += &format!("PM2_CNT_BLK\t{:016X}\n", hardware.pm2.start);
    text += &format!("PM_TMR_BLK\t{:016X}\n", hardware.timer.start);
    text += &format!("GPE0_BLK\t{:016X}\n", hardware.gpe[0].start);
    text += &format!("GPE1_BLK\t{:016X}\n", hardware.gpe[1].start);
    text += &format!("PM1_EVT_LEN\t{:02X}\n", hardware.event[A].length);
    text += &format!("PM1_CNT_LEN\t{:02X}\n", hardware.control[A].length);
    text += &format!("PM2_CNT_LEN\t{:02X}\n", hardware.pm2.length);
    text += &format!("PM_TMR_LEN\t{:02X}\n", hardware.timer.length);
    text += &format!("GPE0_BLK_LEN\t{:02X}\n", hardware.gpe[0].length);
    text += &format!("GPE1_BLK_LEN\t{:02X}\n", hardware.gpe[1].length);
    text += &format!("GPE1_BASE\t{:02X}\n", hardware.gpe_base[1]);
    text += &format!("FLAGS\t{:08X}\n", hardware.flags);
    text += &format!("EVENT_HOMES\t{:04X}\n", hardware.event_homes);
    text += &format!("CONTROL_HOMES\t{:04X}\n", hardware.control_homes);
    text += &format!("OVERRIDE\t{}\n", u8::from(hardware.power_override));
    for (state, pair) in hardware.states.iter().enumerate() {
        match pair {
            Some((a, b)) => text += &format!("S{state}\t{a:02X}{b:02X}\n"),
            None => text += &format!("S{state}\tFFFF\n"),
        }
    }

    text += &format!("PM1a_STS\t{:04X}\n", machine.status & hardware.visible[A]);
    text += &format!("PM1b_STS\t{:04X}\n", machine.status & hardware.visible[B]);
    text += &format!("PM1a_EN\t{:04X}\n", machine.enable & hardware.visible[A]);
    text += &format!("PM1b_EN\t{:04X}\n", machine.enable & hardware.visible[B]);
    text += &format!("PM1a_CNT\t{:04X}\n", control(machine, A));
    text += &format!("PM1b_CNT\t{:04X}\n", control(machine, B));
    text += &format!("PM2_CNT\t{:02X}\n", if machine.arb_dis { ARB_DIS } else { 0 });
    text += &format!("PM_TMR\t{:08X}\n", machine.counter);
    text += &format!("HOLD\t{:08X}\n", machine.hold);
    text += &format!("BUTTON\t{}\n", u8::from(machine.down));
    match machine.command {
        Some(byte) => text += &format!("COMMAND\t1{byte:02X}\n"),
        None => text += "COMMAND\t000\n",
    }
    text += &format!("RELEASE\t{}\n", u8::from(machine.release));
    text += &format!("ARMED\t{}\n", u8::from(machine.armed));
    text += &format!("STATE\t{:X}\n", machine.state);
    text += &format!("WAKE_PIN\t{}\n", u8::from(machine.pin));
    text += &format!("GPE0_STS\t{}\n", gpe_digits(&machine.gpe[0].status, hardware.gpe[0].length));
    text += &format!("GPE0_EN\t{}\n", gpe_digits(&machine.gpe[0].enable, hardware.gpe[0].length));
    text += &format!("GPE1_STS\t{}\n", gpe_digits(&machine.gpe[1].status, hardware.gpe[1].length));
    text += &format!("GPE1_EN\t{}\n", gpe_digits(&machine.gpe[1].enable, hardware.gpe[1].length));
    text.into_bytes()
}

/// A control register as the guest reads it: SCI_EN and BM_RLD in their homes, and the block's own SLP_TYP.
pub fn control(machine: &Machine, block: usize) -> u16 {
    let home = machine.hardware.control_visible[block];
    let mut register = u16::from(machine.slp_typ[block]) << 10;
    if machine.sci_en {
        register |= home & SCI_EN;
    }
    if machine.bm_rld {
        register |= home & BM_RLD;
    }
    register
}

/// Half as many bytes as the block's length says, rounded down, and at most 8.
fn gpe_bytes(length: u32) -> usize {
    (length as usize / 2).min(8)
}

/// Two digits a byte, byte 0 first.
fn gpe_digits(bytes: &[u8; GPE_BYTES], length: u32) -> String {
    bytes[..gpe_bytes(length)].iter().map(|byte| format!("{byte:02X}")).collect()
}

/// The machine of an accepted text: one that is well formed and legal.
pub fn read(text: &[u8]) -> Result<Machine, u8> {
    records(text)?.machine()
}

fn records(text: &[u8]) -> Result<Records, u8> {
    // The first line ends before the first LF, or is the whole text.
    let mut parts = text.splitn(2, |byte| *byte == b'\n');
    let edition = match parts.next() {
        Some(b"edition\t1") => 1,
        Some(b"edition\t2") => 2,
        _ => return Err(NO_EDITION),
    };
    Records::read(edition, parts.next().ok_or(MALFORMED)?)
}

/// What a well formed text breaks: the first of rules 5 to 12, or else all of `CLAUSES`.
pub enum Broken {
    Rule(u8),
    Clauses(Vec<&'static str>),
}

pub fn broken(text: &[u8]) -> Option<Broken> {
    let records = records(text).ok()?;
    let hardware = match records.hardware() {
        Ok(hardware) => hardware,
        Err(rule) => return Some(Broken::Rule(rule)),
    };
    let kept = records.kept(&hardware);
    Some(Broken::Clauses((0..CLAUSES.len()).filter(|clause| !kept[*clause]).map(|clause| CLAUSES[clause]).collect()))
}

/// What the records say, legal or not.
pub struct Records {
    pub smi_cmd: u64,
    pub acpi_enable: u8,
    pub acpi_disable: u8,
    pub event_blk: [u64; 2],
    pub control_blk: [u64; 2],
    pub pm2_blk: u64,
    pub timer_blk: u64,
    pub gpe_blk: [u64; 2],
    pub event_len: u8,
    pub control_len: u8,
    pub pm2_len: u8,
    pub timer_len: u8,
    pub gpe_len: [u8; 2],
    pub gpe1_base: u8,
    pub flags: u32,
    pub event_homes: u16,
    pub control_homes: u16,
    pub power_override: bool,
    pub states: [Option<(u8, u8)>; 6],

    pub status: [u16; 2],
    pub enable: [u16; 2],
    pub control: [u16; 2],
    pub pm2: u8,
    pub counter: u32,
    pub hold: u32,
    pub button: bool,
    pub command: Option<u8>,
    pub release: bool,
    pub armed: bool,
    pub state: u8,
    pub pin: bool,
    pub gpe: [Gpe; 2],
}

impl Records {
    /// The lines after the first, each with its LF.
    fn read(edition: u8, text: &[u8]) -> Result<Records, u8> {
        let text = text.strip_suffix(b"\n").ok_or(MALFORMED)?;
        let mut lines = Lines(text.split(|byte| *byte == b'\n').collect::<Vec<_>>().into_iter());
        // In the order of the text.
        let mut records = Records {
            smi_cmd: lines.h16("SMI_CMD")?,
            acpi_enable: lines.h2("ACPI_ENABLE")?,
            acpi_disable: lines.h2("ACPI_DISABLE")?,
            event_blk: [lines.h16("PM1a_EVT_BLK")?, lines.h16("PM1b_EVT_BLK")?],
            control_blk: [lines.h16("PM1a_CNT_BLK")?, lines.h16("PM1b_CNT_BLK")?],
            pm2_blk: lines.h16("PM2_CNT_BLK")?,
            timer_blk: lines.h16("PM_TMR_BLK")?,
            gpe_blk: [lines.h16("GPE0_BLK")?, lines.h16("GPE1_BLK")?],
            event_len: lines.h2("PM1_EVT_LEN")?,
            control_len: lines.h2("PM1_CNT_LEN")?,
            pm2_len: lines.h2("PM2_CNT_LEN")?,
            timer_len: lines.h2("PM_TMR_LEN")?,
            gpe_len: [lines.h2("GPE0_BLK_LEN")?, lines.h2("GPE1_BLK_LEN")?],
            gpe1_base: lines.h2("GPE1_BASE")?,
            flags: lines.h8("FLAGS")?,
            event_homes: lines.h4("EVENT_HOMES")?,
            control_homes: lines.h4("CONTROL_HOMES")?,
            power_override: lines.flag("OVERRIDE")?,
            states: [
                lines.pair("S0")?,
                lines.pair("S1")?,
                lines.pair("S2")?,
                lines.pair("S3")?,
                lines.pair("S4")?,
                lines.pair("S5")?,
            ],
            status: [lines.h4("PM1a_STS")?, lines.h4("PM1b_STS")?],
            enable: [lines.h4("PM1a_EN")?, lines.h4("PM1b_EN")?],
            control: [lines.h4("PM1a_CNT")?, lines.h4("PM1b_CNT")?],
            pm2: lines.h2("PM2_CNT")?,
            counter: lines.h8("PM_TMR")?,
            hold: lines.h8("HOLD")?,
            button: lines.flag("BUTTON")?,
            command: lines.command("COMMAND")?,
            release: lines.flag("RELEASE")?,
            armed: lines.flag("ARMED")?,
            state: lines.h1("STATE")?,
            // "an older text reads with the added record at its power-on setting"
            pin: if edition < 2 { false } else { lines.flag("WAKE_PIN")? },
            gpe: [Gpe::default(); 2],
        };
        records.gpe[0].status = lines.gpe("GPE0_STS", records.gpe_len[0])?;
        records.gpe[0].enable = lines.gpe("GPE0_EN", records.gpe_len[0])?;
        records.gpe[1].status = lines.gpe("GPE1_STS", records.gpe_len[1])?;
        records.gpe[1].enable = lines.gpe("GPE1_EN", records.gpe_len[1])?;
        lines.end()?;
        Ok(records)
    }

    pub fn machine(&self) -> Result<Machine, u8> {
        let hardware = self.hardware().map_err(|_| ILLEGAL)?;
        if self.kept(&hardware).contains(&false) {
            return Err(ILLEGAL);
        }
        Ok(Machine {
            hardware,
            status: self.status[A] | self.status[B],
            enable: self.enable[A] | self.enable[B],
            gpe: self.gpe,
            sci_en: self.sci_en(),
            bm_rld: (self.control[A] | self.control[B]) & BM_RLD != 0,
            slp_typ: [self.slp_typ(A), self.slp_typ(B)],
            arb_dis: self.pm2 & ARB_DIS != 0,
            armed: self.armed,
            state: self.state,
            pin: self.pin,
            counter: self.counter,
            down: self.button,
            hold: self.hold,
            command: self.command,
            release: self.release,
        })
    }

    /// "settings pass rules 5 to 12", or the first that they break. Rule 7 where a FADT's 32 bits do not hold an address:
    /// it passes port 65,535.
    fn hardware(&self) -> Result<Hardware, u8> {
        let settings = Settings {
            event_homes: self.event_homes,
            control_homes: self.control_homes,
            power_override: self.power_override,
            states: self.states,
        };
        let fadt = self.fadt().ok_or(7)?;
        rules_5_to_12(&fadt, &settings)?;
        Ok(fadt.hardware(&settings))
    }

    fn fadt(&self) -> Option<Fadt> {
        let block = |address: u64, length: u8| {
            let start = u32::try_from(address).ok()?;
            Some(Block { start, length: length.into() })
        };
        // Absent when the address is zero; PM1's lengths serve A and B.
        let by_address = |address: u64, length: u8| match address {
            0 => Some(Block::default()),
            _ => block(address, length),
        };
        Some(Fadt {
            smi_cmd: by_address(self.smi_cmd, 1)?,
            acpi_enable: self.acpi_enable,
            acpi_disable: self.acpi_disable,
            event: [by_address(self.event_blk[A], self.event_len)?, by_address(self.event_blk[B], self.event_len)?],
            control: [
                by_address(self.control_blk[A], self.control_len)?,
                by_address(self.control_blk[B], self.control_len)?,
            ],
            pm2: block(self.pm2_blk, self.pm2_len)?,
            timer: block(self.timer_blk, self.timer_len)?,
            gpe: [block(self.gpe_blk[0], self.gpe_len[0])?, block(self.gpe_blk[1], self.gpe_len[1])?],
            gpe1_base: self.gpe1_base.into(),
            flags: self.flags,
        })
    }

    fn sci_en(&self) -> bool {
        (self.control[A] | self.control[B]) & SCI_EN != 0
    }

    fn slp_typ(&self, block: usize) -> u8 {
        ((self.control[block] & SLP_TYP) >> 10) as u8
    }

    /// W2's list after its settings and W3's clause, in the order of `CLAUSES`: whether each is kept.
    fn kept(&self, hardware: &Hardware) -> [bool; CLAUSES.len()] {
        // "no unfitted or reserved bit, bit outside its home": a GPE record has just its block's bytes, and every bit
        // of these is fitted.
        let status = [A, B].iter().all(|block| self.status[*block] & !hardware.visible[*block] == 0);
        let enable = [A, B].iter().all(|block| self.enable[*block] & !(hardware.visible[*block] & ENABLES) == 0);
        // GBL_RLS and SLP_EN read zero.
        let in_home = |block: usize| hardware.control_visible[block] & (SCI_EN | BM_RLD);
        let control = [A, B].iter().all(|block| self.control[*block] & !(in_home(*block) | SLP_TYP) == 0);
        let pm2 = self.pm2 & !ARB_DIS == 0;
        // "or ARB_DIS without PM2"
        let arb_dis = self.pm2 & ARB_DIS == 0 || hardware.pm2.present();
        // "S0, S5 or a present state"
        let state = match self.state {
            0 | 5 => true,
            1..=4 => hardware.states[usize::from(self.state)].is_some(),
            _ => false,
        };
        // "counter below its size"
        let counter = u64::from(self.counter) < 1u64 << hardware.counter_bits;
        // "hold at most 14,318,180,
        let hold = self.hold <= HOLD_LIMIT;
        // and below it outside S5 with the override fitted"
        let hold_outside_s5 = self.hold != HOLD_LIMIT || self.state == 5 || !hardware.power_override;
        // "button down only where fitted"
        let button = !self.button || hardware.fitted & PWRBTN != 0;
        // "no command, and SCI_EN set, without SMI_CMD"
        let command = self.command.is_none() || hardware.smi_cmd.present();
        let sci_en = self.sci_en() || hardware.smi_cmd.present();
        // "armed only in S0 with B control"
        let armed_in_s0 = !self.armed || self.state == 0;
        let armed_with_b = !self.armed || hardware.control[B].present();
        // "B's SLP_TYP zero without B"
        let slp_typ_b = self.slp_typ(B) == 0 || hardware.control[B].present();
        // Request W3: "active only where fitted"
        let pin = !self.pin || hardware.fitted & PCIEXP_WAKE != 0;
        [
            status,
            enable,
            control,
            pm2,
            arb_dis,
            state,
            counter,
            hold,
            hold_outside_s5,
            button,
            command,
            sci_en,
            armed_in_s0,
            armed_with_b,
            slp_typ_b,
            pin,
        ]
    }
}

/// The lines that are left; each is asked for by its record's name.
struct Lines<'a>(std::vec::IntoIter<&'a [u8]>);

impl<'a> Lines<'a> {
    fn value(&mut self, name: &str) -> Result<&'a [u8], u8> {
        let line = self.0.next().ok_or(MALFORMED)?;
        let rest = line.strip_prefix(name.as_bytes()).ok_or(MALFORMED)?;
        rest.strip_prefix(b"\t").ok_or(MALFORMED)
    }

    fn end(&mut self) -> Result<(), u8> {
        match self.0.next() {
            None => Ok(()),
            Some(_) => Err(MALFORMED),
        }
    }

    fn h1(&mut self, name: &str) -> Result<u8, u8> {
        Ok(number(self.value(name)?, 1)? as u8)
    }

    fn h2(&mut self, name: &str) -> Result<u8, u8> {
        Ok(number(self.value(name)?, 2)? as u8)
    }

    fn h4(&mut self, name: &str) -> Result<u16, u8> {
        Ok(number(self.value(name)?, 4)? as u16)
    }

    fn h8(&mut self, name: &str) -> Result<u32, u8> {
        Ok(number(self.value(name)?, 8)? as u32)
    }

    fn h16(&mut self, name: &str) -> Result<u64, u8> {
        number(self.value(name)?, 16)
    }

    fn flag(&mut self, name: &str) -> Result<bool, u8> {
        match self.value(name)? {
            b"0" => Ok(false),
            b"1" => Ok(true),
            _ => Err(MALFORMED),
        }
    }

    /// A's byte, then b's; FFFF is absent.
    fn pair(&mut self, name: &str) -> Result<Option<(u8, u8)>, u8> {
        match self.h4(name)? {
            0xFFFF => Ok(None),
            pair => Ok(Some(((pair >> 8) as u8, (pair & 0xFF) as u8))),
        }
    }

    /// `000`, or `1` and the byte.
    fn command(&mut self, name: &str) -> Result<Option<u8>, u8> {
        match self.value(name)? {
            b"000" => Ok(None),
            [b'1', byte @ ..] => Ok(Some(number(byte, 2)? as u8)),
            _ => Err(MALFORMED),
        }
    }

    /// Two digits a byte, as many bytes as the block's length record asks for.
    fn gpe(&mut self, name: &str, length: u8) -> Result<[u8; GPE_BYTES], u8> {
        let value = self.value(name)?;
        let bytes = gpe_bytes(length.into());
        if value.len() != 2 * bytes {
            return Err(MALFORMED);
        }
        let mut gpe = [0; GPE_BYTES];
        for at in 0..bytes {
            gpe[at] = number(&value[2 * at..2 * at + 2], 2)? as u8;
        }
        Ok(gpe)
    }
}

/// Exactly so many upper case hex digits.
fn number(value: &[u8], digits: usize) -> Result<u64, u8> {
    if value.len() != digits {
        return Err(MALFORMED);
    }
    let mut number = 0;
    for byte in value {
        let digit = match byte {
            b'0'..=b'9' => byte - b'0',
            b'A'..=b'F' => byte - b'A' + 10,
            _ => return Err(MALFORMED),
        };
        number = number << 4 | u64::from(digit);
    }
    Ok(number)
}
