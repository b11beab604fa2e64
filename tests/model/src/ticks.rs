//! Ticks: the counter and its top bit, and how long the power button is held.

use crate::cells::TMR;
use crate::Machine;

/// 4 seconds at 3,579,545 Hz.
pub const HOLD_LIMIT: u32 = 14_318_180;

/// From here on ticks are computed at once.
const MANY: u32 = 256;

impl Machine {
    /// How often the counter's top bit turned.
    pub(crate) fn tick(&mut self, n: u32) -> u32 {
        if n < MANY {
            self.tick_singly(n)
        } else {
            self.tick_at_once(n)
        }
    }

    /// Kept out of `step`, whose other steps it would slow down.
    #[inline(never)]
    pub(crate) fn tick_singly(&mut self, n: u32) -> u32 {
        let mut turns = 0;
        for _ in 0..n {
            if self.state != 0 {
                break;
            }
            turns += u32::from(self.one_tick());
        }
        turns
    }

    /// In this order: counter, TMR, hold, override. Whether the top bit turned.
    fn one_tick(&mut self) -> bool {
        let top = 1u32 << (self.hardware.counter_bits - 1);
        let before = self.counter;
        self.counter = before.wrapping_add(1) & (top | (top - 1));
        let turned = (before ^ self.counter) & top != 0;
        if turned {
            self.status |= TMR & self.hardware.fitted;
        }
        if self.down && self.hold < HOLD_LIMIT {
            self.hold += 1;
            if self.hold == HOLD_LIMIT && self.hardware.power_override {
                self.power_override();
            }
        }
        turned
    }

    /// The same for any n: the ticks that run are those up to the override.
    pub(crate) fn tick_at_once(&mut self, n: u32) -> u32 {
        if self.state != 0 {
            return 0;
        }
        let left = HOLD_LIMIT - self.hold;
        let overrides = self.down && self.hardware.power_override && left > 0 && n >= left;
        let run = if overrides { left } else { n };
        let turns = self.turns(run);

        let top = 1u32 << (self.hardware.counter_bits - 1);
        self.counter = self.counter.wrapping_add(run) & (top | (top - 1));
        if turns > 0 {
            self.status |= TMR & self.hardware.fitted;
        }
        if self.down {
            self.hold += run.min(left);
        }
        if overrides {
            self.power_override();
        }
        turns
    }

    /// The top bit turns where the counter reaches half its size or wraps, and then every half size.
    fn turns(&self, run: u32) -> u32 {
        let half = 1u32 << (self.hardware.counter_bits - 1);
        let first = half - self.counter % half;
        if run < first {
            0
        } else {
            1 + (run - first) / half
        }
    }
}
