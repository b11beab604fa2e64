//! "The cells": the eight PM1 event bits, and the bits of the control registers.

pub const TMR: u16 = 1 << 0;
pub const BM: u16 = 1 << 4;
pub const GBL: u16 = 1 << 5;
pub const PWRBTN: u16 = 1 << 8;
pub const SLPBTN: u16 = 1 << 9;
pub const RTC: u16 = 1 << 10;
pub const PCIEXP_WAKE: u16 = 1 << 14;
pub const WAK: u16 = 1 << 15;

/// All eight: C731.
pub const EVENTS: u16 = TMR | BM | GBL | PWRBTN | SLPBTN | RTC | PCIEXP_WAKE | WAK;

/// BM and WAK have no enable; PCIEXP_WAKE's is a disable bit, and a cell all the same.
pub const ENABLES: u16 = EVENTS & !(BM | WAK);

/// What raises the event output: 0721, without PCIEXP_WAKE.
pub const OUTPUT: u16 = ENABLES & !PCIEXP_WAKE;

pub const SCI_EN: u16 = 1 << 0;
pub const BM_RLD: u16 = 1 << 1;
pub const GBL_RLS: u16 = 1 << 2;
pub const SLP_EN: u16 = 1 << 13;

/// The control bits that have a home: 0007.
pub const CONTROLS: u16 = SCI_EN | BM_RLD | GBL_RLS;

/// The column "Fitted".
pub fn fitted(flags: u32, timer: bool) -> u16 {
    let flag = |n: u32| flags >> n & 1 == 1;
    let mut fitted = BM | GBL | WAK;
    if timer {
        fitted |= TMR;
    }
    if !flag(4) {
        fitted |= PWRBTN;
    }
    if !flag(5) {
        fitted |= SLPBTN;
    }
    if !flag(6) {
        fitted |= RTC;
    }
    if flag(14) {
        fitted |= PCIEXP_WAKE;
    }
    fitted
}
