//! "Setting up": the FADT's fields, rules 1 to 12 in their order, and power-on.

use crate::cells::{fitted, CONTROLS, EVENTS};
use crate::{Gpe, Machine, A, B};

/// What is given beside the table.
#[derive(Clone, Debug, PartialEq, Eq)]
pub struct Settings {
    /// A bit set: that event or control bit lives in block B.
    pub event_homes: u16,
    pub control_homes: u16,
    pub power_override: bool,
    /// The sleep type pair (a, b) of S0 to S5, where present.
    pub states: [Option<(u8, u8)>; 6],
}

/// A range of ports; length 0 is an absent block.
#[derive(Clone, Copy, Debug, Default, PartialEq, Eq)]
pub struct Block {
    pub start: u32,
    pub length: u32,
}

impl Block {
    pub fn present(self) -> bool {
        self.length != 0
    }

    fn end(self) -> u64 {
        u64::from(self.start) + u64::from(self.length)
    }

    /// General events: a status and an enable bit each, so 4 for each byte.
    pub fn events(self) -> u32 {
        4 * self.length
    }
}

/// The platform as setting up leaves it.
#[derive(Clone, Debug, PartialEq, Eq)]
pub struct Hardware {
    pub smi_cmd: Block,
    pub acpi_enable: u8,
    pub acpi_disable: u8,
    pub event: [Block; 2],
    pub control: [Block; 2],
    pub pm2: Block,
    pub timer: Block,
    pub gpe: [Block; 2],
    /// The first general event of each GPE block.
    pub gpe_base: [u32; 2],
    /// As given, with the bits that nothing uses.
    pub flags: u32,
    pub event_homes: u16,
    pub control_homes: u16,
    /// Event bits that are fitted, and those of them that A and B reach.
    pub fitted: u16,
    pub visible: [u16; 2],
    /// Control bits that A and B reach.
    pub control_visible: [u16; 2],
    /// Flag 7: the alarm wakes from S4 too.
    pub rtc_s4: bool,
    /// Flag 8: the counter has 32 bits, not 24.
    pub counter_bits: u32,
    pub power_override: bool,
    pub states: [Option<(u8, u8)>; 6],
}

pub fn set_up(table: &[u8], settings: &Settings) -> Result<Machine, u8> {
    check_bytes(table)?;
    let fadt = Fadt::read(table);
    rules_5_to_12(&fadt, settings)?;
    Ok(power_on(fadt.hardware(settings)))
}

/// The first that fails.
pub(crate) fn rules_5_to_12(fadt: &Fadt, settings: &Settings) -> Result<(), u8> {
    let rules = [
        (5, fadt.flag(20)),
        (6, !fadt.lengths_allowed()),
        (7, !fadt.ports_allowed()),
        (8, fadt.blocks_overlap()),
        (9, !fadt.gpe1_numbers_fit()),
        (10, fadt.smi_cmd.present() && fadt.acpi_enable == fadt.acpi_disable),
        (11, !fadt.homes_allowed(settings)),
        (12, !fadt.states_allowed(settings)),
    ];
    match rules.iter().find(|(_, refused)| *refused) {
        Some((number, _)) => Err(*number),
        None => Ok(()),
    }
}

/// Rules 1 to 4.
fn check_bytes(table: &[u8]) -> Result<(), u8> {
    if table.len() < 116 {
        return Err(1);
    }
    if !table.starts_with(b"FACP") {
        return Err(2);
    }
    let length = dword(table, 4) as usize;
    if length < 116 || length > table.len() {
        return Err(3);
    }
    let summed = &table[..length];
    if summed.iter().fold(0u8, |sum, byte| sum.wrapping_add(*byte)) != 0 {
        return Err(4);
    }
    Ok(())
}

/// The fields that are read.
pub(crate) struct Fadt {
    pub smi_cmd: Block,
    pub acpi_enable: u8,
    pub acpi_disable: u8,
    pub event: [Block; 2],
    pub control: [Block; 2],
    pub pm2: Block,
    pub timer: Block,
    pub gpe: [Block; 2],
    pub gpe1_base: u32,
    pub flags: u32,
}

impl Fadt {
    fn read(table: &[u8]) -> Fadt {
        let block = |address: usize, length: u8| Block { start: dword(table, address), length: length.into() };
        // Absent when the address is zero, whatever the length.
        let by_address = |address: usize, length: u8| match dword(table, address) {
            0 => Block::default(),
            _ => block(address, length),
        };
        Fadt {
            smi_cmd: by_address(48, 1),
            acpi_enable: table[52],
            acpi_disable: table[53],
            event: [by_address(56, table[88]), by_address(60, table[88])],
            control: [by_address(64, table[89]), by_address(68, table[89])],
            pm2: block(72, table[90]),
            timer: block(76, table[91]),
            gpe: [block(80, table[92]), block(84, table[93])],
            gpe1_base: table[94].into(),
            flags: dword(table, 112),
        }
    }

    fn flag(&self, number: u32) -> bool {
        self.flags >> number & 1 == 1
    }

    fn blocks(&self) -> [Block; 9] {
        let ([event_a, event_b], [control_a, control_b], [gpe0, gpe1]) = (self.event, self.control, self.gpe);
        [event_a, event_b, control_a, control_b, self.pm2, self.timer, gpe0, gpe1, self.smi_cmd]
    }

    /// Rule 6.
    fn lengths_allowed(&self) -> bool {
        let absent = |block: &Block| (block.start, block.length) == (0, 0);
        let is = |block: &Block, length: u32| absent(block) || (block.start != 0 && block.length == length);
        let gpe = |block: &Block| (1..=8).any(|half| is(block, 2 * half));
        self.event.iter().all(|block| is(block, 4))
            && self.control.iter().all(|block| is(block, 2))
            && is(&self.pm2, 1)
            && is(&self.timer, 4)
            && self.gpe.iter().all(gpe)
    }

    /// Rule 7.
    fn ports_allowed(&self) -> bool {
        self.event[A].present()
            && self.control[A].present()
            && self.event.iter().all(|block| block.start.is_multiple_of(4))
            && self.control.iter().all(|block| block.start.is_multiple_of(2))
            && self.timer.start.is_multiple_of(4)
            && self.blocks().iter().all(|block| block.end() <= 65_536)
    }

    /// Rule 8.
    fn blocks_overlap(&self) -> bool {
        let meet = |one: &Block, other: &Block| {
            let both = one.present() && other.present();
            both && u64::from(one.start) < other.end() && u64::from(other.start) < one.end()
        };
        let blocks = self.blocks();
        (1..blocks.len()).any(|i| blocks[..i].iter().any(|other| meet(&blocks[i], other)))
    }

    /// Rule 9.
    fn gpe1_numbers_fit(&self) -> bool {
        let [gpe0, gpe1] = self.gpe;
        !gpe1.present() || (self.gpe1_base >= gpe0.events() && self.gpe1_base + gpe1.events() <= 256)
    }

    /// Rule 11.
    fn homes_allowed(&self, settings: &Settings) -> bool {
        let events = if self.event[B].present() { EVENTS } else { 0 };
        let controls = if self.control[B].present() { CONTROLS } else { 0 };
        settings.event_homes & !events == 0 && settings.control_homes & !controls == 0
    }

    /// Rule 12: S0's pair counts too.
    fn states_allowed(&self, settings: &Settings) -> bool {
        let b_counts = self.control[B].present();
        let same = |one: (u8, u8), other: (u8, u8)| one.0 == other.0 && (one.1 == other.1 || !b_counts);
        let pairs = || settings.states.iter().flatten().copied();
        pairs().all(|(a, b)| a <= 7 && b <= 7 && pairs().filter(|pair| same(*pair, (a, b))).count() == 1)
    }

    pub(crate) fn hardware(&self, settings: &Settings) -> Hardware {
        let fitted = fitted(self.flags, self.timer.present());
        let (event_homes, control_homes) = (settings.event_homes, settings.control_homes);
        Hardware {
            smi_cmd: self.smi_cmd,
            acpi_enable: self.acpi_enable,
            acpi_disable: self.acpi_disable,
            event: self.event,
            control: self.control,
            pm2: self.pm2,
            timer: self.timer,
            gpe: self.gpe,
            gpe_base: [0, self.gpe1_base],
            flags: self.flags,
            event_homes,
            control_homes,
            fitted,
            visible: [fitted & !event_homes, fitted & event_homes],
            control_visible: [CONTROLS & !control_homes, control_homes],
            rtc_s4: self.flag(7),
            counter_bits: if self.flag(8) { 32 } else { 24 },
            power_override: settings.power_override,
            states: settings.states,
        }
    }
}

fn power_on(hardware: Hardware) -> Machine {
    Machine {
        status: 0,
        enable: 0,
        gpe: [Gpe::default(); 2],
        sci_en: !hardware.smi_cmd.present(),
        bm_rld: false,
        slp_typ: [0, 0],
        arb_dis: false,
        armed: false,
        state: 0,
        pin: false,
        counter: 0,
        down: false,
        hold: 0,
        command: None,
        release: false,
        hardware,
    }
}

/// The little-endian number of 4 bytes at this offset.
fn dword(table: &[u8], at: usize) -> u32 {
    u32::from_le_bytes([table[at], table[at + 1], table[at + 2], table[at + 3]])
}
