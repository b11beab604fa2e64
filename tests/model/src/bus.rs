//! Bus accesses: where a port leads, the widths, and the registers.

use crate::cells::{BM_RLD, ENABLES, GBL_RLS, PCIEXP_WAKE, SCI_EN, SLP_EN};
use crate::{Block, Machine, A, B};

/// The block that a port lies in, and the offset there.
enum Place {
    Event(usize, u32),
    Control(usize, u32),
    Pm2,
    Timer(u32),
    Gpe(usize, usize),
    SmiCmd,
}

impl Place {
    /// "Widths".
    fn allows(&self, width: u32) -> bool {
        match *self {
            Place::Event(_, offset) | Place::Control(_, offset) => width == 1 || (width == 2 && offset % 2 == 0),
            Place::Pm2 | Place::Gpe(..) | Place::SmiCmd => width == 1,
            Place::Timer(offset) => width == 4 && offset == 0,
        }
    }
}

/// The bits of a 16-bit register that an access at this offset touches, and their distance from bit 0.
fn lane(offset: u32, width: u32) -> (u16, u32) {
    if width == 2 {
        (0xFFFF, 0)
    } else {
        let shift = 8 * (offset % 2);
        (0x00FF << shift, shift)
    }
}

fn offset_in(block: Block, port: u64) -> Option<u32> {
    let offset = port.wrapping_sub(u64::from(block.start));
    (offset < u64::from(block.length)).then_some(offset as u32)
}

impl Machine {
    pub(crate) fn read(&self, port: u64, width: u32) -> Result<u32, u8> {
        self.awake()?;
        if !matches!(width, 1 | 2 | 4) {
            return Err(21);
        }
        let place = self.place(port).ok_or(23)?;
        if !place.allows(width) {
            return Err(24);
        }
        Ok(match place {
            Place::Event(block, offset) => self.read_event(block, offset, width),
            Place::Control(block, offset) => self.read_control(block, offset, width),
            Place::Pm2 => self.arb_dis.into(),
            Place::Timer(_) => self.counter,
            Place::Gpe(block, offset) => self.read_gpe(block, offset).into(),
            Place::SmiCmd => 0,
        })
    }

    pub(crate) fn write(&mut self, port: u64, width: u32, data: u64) -> Result<(), u8> {
        self.awake()?;
        if !matches!(width, 1 | 2 | 4) {
            return Err(21);
        }
        if data >> (8 * width) != 0 {
            return Err(22);
        }
        let place = self.place(port).ok_or(23)?;
        if !place.allows(width) {
            return Err(24);
        }
        match place {
            Place::Event(block, offset) => self.write_event(block, offset, width, data as u16),
            Place::Control(block, offset) => self.write_control(block, offset, width, data as u16)?,
            Place::Pm2 => self.arb_dis = data & 1 == 1,
            Place::Timer(_) => return Err(25),
            Place::Gpe(block, offset) => self.write_gpe(block, offset, data as u8),
            Place::SmiCmd => {
                if self.command.is_some() {
                    return Err(26);
                }
                self.command = Some(data as u8);
            }
        }
        Ok(())
    }

    fn place(&self, port: u64) -> Option<Place> {
        let hardware = &self.hardware;
        for block in [A, B] {
            if let Some(offset) = offset_in(hardware.event[block], port) {
                return Some(Place::Event(block, offset));
            }
            if let Some(offset) = offset_in(hardware.control[block], port) {
                return Some(Place::Control(block, offset));
            }
        }
        if let Some(offset) = offset_in(hardware.timer, port) {
            return Some(Place::Timer(offset));
        }
        for block in [0, 1] {
            if let Some(offset) = offset_in(hardware.gpe[block], port) {
                return Some(Place::Gpe(block, offset as usize));
            }
        }
        if offset_in(hardware.pm2, port).is_some() {
            return Some(Place::Pm2);
        }
        if offset_in(hardware.smi_cmd, port).is_some() {
            return Some(Place::SmiCmd);
        }
        None
    }

    fn read_event(&self, block: usize, offset: u32, width: u32) -> u32 {
        let (touched, shift) = lane(offset, width);
        // The status half comes first.
        let register = if offset < 2 { self.status } else { self.enable };
        let shown = register & self.hardware.visible[block];
        u32::from((shown & touched) >> shift)
    }

    fn write_event(&mut self, block: usize, offset: u32, width: u32, data: u16) {
        let (touched, shift) = lane(offset, width);
        let written = data << shift;
        let cells = touched & self.hardware.visible[block];
        if offset < 2 {
            // Request W3: "Clearing works only with the pin inactive".
            let cells = if self.pin { cells & !PCIEXP_WAKE } else { cells };
            self.status &= !(written & cells);
        } else {
            let cells = cells & ENABLES;
            self.enable = (self.enable & !cells) | (written & cells);
        }
    }

    fn read_control(&self, block: usize, offset: u32, width: u32) -> u32 {
        let (touched, shift) = lane(offset, width);
        let mut shown = u16::from(self.slp_typ[block]) << 10;
        let home = self.hardware.control_visible[block];
        if self.sci_en {
            shown |= SCI_EN & home;
        }
        if self.bm_rld {
            shown |= BM_RLD & home;
        }
        u32::from((shown & touched) >> shift)
    }

    fn write_control(&mut self, block: usize, offset: u32, width: u32, data: u16) -> Result<(), u8> {
        let (touched, shift) = lane(offset, width);
        let written = data << shift;
        // The high byte first: where it is refused (27), the low byte does nothing either.
        if touched & 0xFF00 != 0 {
            self.write_slp(block, (written >> 10 & 7) as u8, written & SLP_EN != 0)?;
        }
        if touched & 0x00FF != 0 {
            let home = self.hardware.control_visible[block];
            if home & BM_RLD != 0 {
                self.bm_rld = written & BM_RLD != 0;
            }
            if home & GBL_RLS & written != 0 {
                self.release = true;
            }
        }
        Ok(())
    }

    fn read_gpe(&self, block: usize, offset: usize) -> u8 {
        let half = self.hardware.gpe[block].length as usize / 2;
        let gpe = &self.gpe[block];
        if offset < half {
            gpe.status[offset]
        } else {
            gpe.enable[offset - half]
        }
    }

    fn write_gpe(&mut self, block: usize, offset: usize, data: u8) {
        let half = self.hardware.gpe[block].length as usize / 2;
        let gpe = &mut self.gpe[block];
        if offset < half {
            gpe.status[offset] &= !data;
        } else {
            gpe.enable[offset - half] = data;
        }
    }
}
