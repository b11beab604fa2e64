//! The event output, and the lines SCI and SMI.

use crate::cells::OUTPUT;
use crate::{Gpe, Machine};

fn word(bytes: &[u8]) -> u64 {
    u64::from_le_bytes(bytes.try_into().expect("eight bytes"))
}

impl Gpe {
    /// Some general event is set and enabled.
    pub fn event(&self) -> bool {
        self.status.chunks(8).zip(self.enable.chunks(8)).any(|(status, enable)| word(status) & word(enable) != 0)
    }
}

impl Machine {
    fn event(&self) -> bool {
        self.status & self.enable & OUTPUT != 0 || self.gpe.iter().any(Gpe::event)
    }

    pub fn sci(&self) -> bool {
        self.state == 0 && self.sci_en && self.event()
    }

    pub fn smi(&self) -> bool {
        self.state == 0 && ((!self.sci_en && self.event()) || self.command.is_some() || self.release)
    }
}
