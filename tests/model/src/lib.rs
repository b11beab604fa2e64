//! The ward laptop's power registers once more: document 01's machine as plain code over plain state.
//! A module for each of its headings, `saved` for request W2's text, `port_map` for request W4's; the wake pin is request
//! W3's. It shares nothing with the proved crates, so that the two can be compared.

mod bus;
mod cells;
mod events;
mod firmware;
mod lines;
mod port_map;
pub mod saved;
mod session;
mod set_up;
mod sleep;
mod steps;
mod ticks;

pub use cells::*;
pub use port_map::port_map;
pub use session::{read_script, session, session_end, set_up_answer, LIMIT};
pub use set_up::{set_up, Block, Hardware, Settings};
pub use steps::Step;
pub use ticks::HOLD_LIMIT;

/// Block A or B of the PM1 groups.
pub const A: usize = 0;
pub const B: usize = 1;

/// The most status bytes, and the most enable bytes, of a GPE block.
pub const GPE_BYTES: usize = 8;

/// One GPE block: as many status as enable bytes; of each, half the block's length is used.
#[derive(Clone, Copy, Debug, Default, PartialEq, Eq)]
pub struct Gpe {
    pub status: [u8; GPE_BYTES],
    pub enable: [u8; GPE_BYTES],
}

#[derive(Clone, Debug, PartialEq, Eq)]
pub struct Machine {
    /// What setting up fixed; no step changes it.
    pub hardware: Hardware,

    /// PM1 status and enable, both blocks in one: a bit's home says through which block it is reached.
    pub status: u16,
    pub enable: u16,
    pub gpe: [Gpe; 2],

    pub sci_en: bool,
    pub bm_rld: bool,
    pub slp_typ: [u8; 2],
    pub arb_dis: bool,

    /// SLP_EN was written at A; SLP_EN at B completes.
    pub armed: bool,
    /// 0 to 5 for S0 to S5.
    pub state: u8,

    /// The wake pin is active.
    pub pin: bool,

    pub counter: u32,
    /// The power button is down, and for so many ticks.
    pub down: bool,
    pub hold: u32,

    /// The byte in SMI_CMD that the firmware has not taken.
    pub command: Option<u8>,
    /// GBL_RLS was written, and the firmware has not seen it.
    pub release: bool,
}

#[cfg(test)]
mod port_map_tests;
#[cfg(test)]
mod saved_tests;
#[cfg(test)]
mod tests;
