//! "Steps": each with its answer and value. A refused step (`Err`) changes nothing.

use crate::cells::{BM, GBL, RTC, SLPBTN};
use crate::Machine;

#[derive(Clone, Copy, Debug, PartialEq, Eq)]
pub enum Step {
    Read {
        port: u64,
        width: u32,
    },
    Write {
        port: u64,
        width: u32,
        data: u64,
    },
    Press,
    Release,
    /// The sleep button is pressed.
    Sleep,
    Alarm,
    /// The wake pin becomes active.
    PinActive,
    PinInactive,
    /// Bus-master event.
    Master,
    /// The global lock is released.
    Unlock,
    /// General event.
    Event(u32),
    Tick(u32),
    /// The firmware takes the waiting command.
    Take,
    /// The firmware drops the release flag.
    Drop,
}

impl Machine {
    /// The answer's number, 0 or 20 to 31, and the value.
    pub fn step(&mut self, step: &Step) -> (u8, u32) {
        let answer = match *step {
            Step::Read { port, width } => self.read(port, width),
            Step::Write { port, width, data } => self.write(port, width, data).map(|()| 0),
            Step::Press => self.press().map(|()| 0),
            Step::Release => self.release_button().map(|()| 0),
            Step::Sleep => self.signal(SLPBTN).map(|()| 0),
            Step::Alarm => self.signal(RTC).map(|()| 0),
            Step::PinActive => self.move_pin(true).map(|()| 0),
            Step::PinInactive => self.move_pin(false).map(|()| 0),
            Step::Master => self.raise(BM).map(|()| 0),
            Step::Unlock => self.raise(GBL).map(|()| 0),
            Step::Event(number) => self.general_event(number).map(|()| 0),
            Step::Tick(n) => Ok(self.tick(n)),
            Step::Take => self.take(),
            Step::Drop => self.drop_release().map(|()| 0),
        };
        match answer {
            Ok(value) => (0, value),
            Err(number) => (number, 0),
        }
    }

    pub fn state(&self) -> u8 {
        self.state
    }

    /// In S1 to S4, from where an event may wake.
    pub(crate) fn asleep(&self) -> bool {
        (1..=4).contains(&self.state)
    }

    /// 20: what only a working machine does.
    pub(crate) fn awake(&self) -> Result<(), u8> {
        if self.state == 0 {
            Ok(())
        } else {
            Err(20)
        }
    }
}
