//! Sleep and wake: SLP_TYP and SLP_EN, completing, what wakes, and the restart from S5.

use crate::cells::{PWRBTN, RTC, SLPBTN, WAK};
use crate::{Gpe, Machine, A, B};

impl Machine {
    /// A write that covers the high byte of a control block.
    pub(crate) fn write_slp(&mut self, block: usize, slp_typ: u8, slp_en: bool) -> Result<(), u8> {
        let b_present = self.hardware.control[B].present();
        let completes = slp_en && if block == A { !b_present } else { self.armed };
        if completes {
            let pair = if block == A { (slp_typ, 0) } else { (self.slp_typ[A], slp_typ) };
            let state = self.named(pair).ok_or(27)?;
            self.slp_typ[block] = slp_typ;
            self.complete(state);
        } else {
            self.slp_typ[block] = slp_typ;
            self.armed = slp_en && block == A;
        }
        Ok(())
    }

    /// The state of S1 to S5 that the pair names; only a counts when PM1b control is absent.
    fn named(&self, (a, b): (u8, u8)) -> Option<u8> {
        let b_present = self.hardware.control[B].present();
        (1..=5).find(|state| {
            let pair = self.hardware.states[usize::from(*state)];
            pair.is_some_and(|pair| pair.0 == a && (pair.1 == b || !b_present))
        })
    }

    fn complete(&mut self, state: u8) {
        self.armed = false;
        self.state = state;
        if self.asleep() && self.pending() {
            self.wake();
        }
    }

    /// Something that wakes is set and enabled already.
    fn pending(&self) -> bool {
        let mut wakers = PWRBTN | SLPBTN;
        if self.alarm_wakes() {
            wakers |= RTC;
        }
        self.status & self.enable & wakers != 0 || self.gpe.iter().any(Gpe::event)
    }

    pub(crate) fn alarm_wakes(&self) -> bool {
        self.state != 4 || self.hardware.rtc_s4
    }

    /// From S1 to S4: the registers are kept.
    pub(crate) fn wake(&mut self) {
        self.armed = false;
        self.state = 0;
        self.status |= WAK;
    }

    /// From S5, by a press: the counter and the wake pin are kept, and WAK not set.
    pub(crate) fn restart(&mut self) {
        self.status = 0;
        self.enable = 0;
        self.gpe = [Gpe::default(); 2];
        self.bm_rld = false;
        self.slp_typ = [0, 0];
        self.arb_dis = false;
        self.release = false;
        self.command = None;
        self.sci_en = !self.hardware.smi_cmd.present();
        self.armed = false;
        self.state = 0;
    }

    /// The power button was held for 4 seconds.
    pub(crate) fn power_override(&mut self) {
        self.status &= !PWRBTN;
        self.armed = false;
        self.state = 5;
    }
}
