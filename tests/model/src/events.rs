//! Events: buttons, alarm, wake pin, bus master, global lock and general events.

use crate::cells::{PCIEXP_WAKE, PWRBTN, RTC};
use crate::Machine;

impl Machine {
    pub(crate) fn press(&mut self) -> Result<(), u8> {
        self.has(PWRBTN)?;
        if self.down {
            return Err(30);
        }
        self.down = true;
        self.hold = 0;
        if self.state == 5 {
            self.restart();
        }
        self.status |= PWRBTN;
        if self.asleep() {
            self.wake();
        }
        Ok(())
    }

    pub(crate) fn release_button(&mut self) -> Result<(), u8> {
        self.has(PWRBTN)?;
        if !self.down {
            return Err(30);
        }
        self.down = false;
        Ok(())
    }

    /// Sleep press and alarm: the bit is set whether or not it is enabled; only if enabled does it wake.
    pub(crate) fn signal(&mut self, bit: u16) -> Result<(), u8> {
        self.has(bit)?;
        if self.state == 5 {
            return Ok(());
        }
        self.status |= bit;
        let wakes = self.enable & bit != 0 && (bit != RTC || self.alarm_wakes());
        if self.asleep() && wakes {
            self.wake();
        }
        Ok(())
    }

    /// Request W3: "28 where not fitted, then 30 when the pin is already at that level". Only where pin active wakes is its
    /// bit set; bit 14 of the enable register is a disable.
    pub(crate) fn move_pin(&mut self, active: bool) -> Result<(), u8> {
        self.has(PCIEXP_WAKE)?;
        if self.pin == active {
            return Err(30);
        }
        self.pin = active;
        if active && self.asleep() && self.enable & PCIEXP_WAKE == 0 {
            self.status |= PCIEXP_WAKE;
            self.wake();
        }
        Ok(())
    }

    /// Bus-master and unlock.
    pub(crate) fn raise(&mut self, bit: u16) -> Result<(), u8> {
        self.awake()?;
        self.status |= bit;
        Ok(())
    }

    pub(crate) fn general_event(&mut self, number: u32) -> Result<(), u8> {
        let (block, number) = self.general_event_block(number).ok_or(29)?;
        if self.state == 5 {
            return Ok(());
        }
        let (byte, bit) = (number as usize / 8, 1u8 << (number % 8));
        let gpe = &mut self.gpe[block];
        gpe.status[byte] |= bit;
        if gpe.enable[byte] & bit != 0 && self.asleep() {
            self.wake();
        }
        Ok(())
    }

    /// The GPE block of a general event, and its number from that block's base.
    fn general_event_block(&self, number: u32) -> Option<(usize, u32)> {
        for block in [0, 1] {
            let from_base = number.wrapping_sub(self.hardware.gpe_base[block]);
            if from_base < self.hardware.gpe[block].events() {
                return Some((block, from_base));
            }
        }
        None
    }

    /// 28: what the step belongs to is fitted.
    fn has(&self, bit: u16) -> Result<(), u8> {
        if self.hardware.fitted & bit != 0 {
            Ok(())
        } else {
            Err(28)
        }
    }
}
