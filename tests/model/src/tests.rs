//! Document 01's worked session and its "Values on each side"; that ticks at once are ticks one by one; and request W3's
//! wake pin.

use crate::*;

const EVENT: u64 = 0x400;
const CONTROL: u64 = 0x404;

/// The worked session's table, with these flags.
fn table(flags: u32) -> Vec<u8> {
    let mut table = vec![0; 116];
    table[..4].copy_from_slice(b"FACP");
    table[4] = 116;
    table[8] = 1;
    table[52] = 0xE1;
    table[53] = 0x1E;
    for (at, address) in
        [(48, 0xB2u32), (56, 0x400), (60, 0x440), (64, 0x404), (68, 0x444), (76, 0x408), (80, 0x420), (112, flags)]
    {
        table[at..at + 4].copy_from_slice(&address.to_le_bytes());
    }
    table[88..93].copy_from_slice(&[4, 2, 0, 4, 4]);
    sum(&mut table);
    table
}

fn sum(table: &mut [u8]) {
    table[9] = 0;
    table[9] = table.iter().fold(0u8, |sum, byte| sum.wrapping_sub(*byte));
}

/// All event bits fitted, all homes A, override fitted.
fn machine(flags: u32) -> Machine {
    let settings = Settings { event_homes: 0, control_homes: 0, power_override: true, states: [None; 6] };
    set_up(&table(flags | 1 << 14), &settings).unwrap()
}

fn status_after(port: u64, width: u32, data: u64) -> u16 {
    let mut machine = machine(0);
    machine.status = 0xC731;
    assert_eq!(machine.step(&Step::Write { port, width, data }), (0, 0));
    machine.status
}

#[test]
fn worked_session() {
    let script =
        "platform 0400 0000 0 00 - - 52 - 70\nw B2 1 E1\ntake\nw 402 2 100\nw 442 2 400\nalarm\nr 400 2\nr 440 2\n\
                  w 404 2 3400\nw 444 2 2800\nr 400 2\n";
    let listing = "step answer value sci smi state\n1 0 00000000 0 1 S0\n2 0 000000E1 0 0 S0\n3 0 00000000 0 0 S0\n\
                   4 0 00000000 0 0 S0\n5 0 00000000 1 0 S0\n6 0 00000000 1 0 S0\n7 0 00000400 1 0 S0\n\
                   8 0 00000000 1 0 S0\n9 0 00000000 1 0 S0\n10 0 00008000 1 0 S0\n";
    let tabbed = |text: &str| text.replace(' ', "\t").into_bytes();
    assert_eq!(session(&table(0), &tabbed(script)), Some(tabbed(listing)));
}

#[test]
fn status_writes() {
    assert_eq!(status_after(EVENT, 2, 0xFFFF), 0x0000);
    assert_eq!(status_after(EVENT, 2, 0x0100), 0xC631);
    assert_eq!(status_after(EVENT, 2, 0x0000), 0xC731);
    assert_eq!(status_after(EVENT + 1, 1, 0xFF), 0x0031);
}

#[test]
fn enable_and_control_writes() {
    let mut machine = machine(0);
    machine.sci_en = true;
    for (port, shown) in [(EVENT + 2, 0x4721), (CONTROL, 0x1C03)] {
        machine.step(&Step::Write { port, width: 2, data: 0xFFFF });
        assert_eq!(machine.step(&Step::Read { port, width: 2 }), (0, shown));
    }
    assert_eq!(machine.step(&Step::Read { port: 65_536, width: 1 }), (23, 0));
}

#[test]
fn counter_turns() {
    for (flags, before, n, after, turns) in [
        (0, 8_388_607, 1, 8_388_608, 1),
        (0, 16_777_215, 1, 0, 1),
        (0, 0, 8_388_607, 8_388_607, 0),
        (0, 8_388_607, 0, 8_388_607, 0),
        (1 << 8, 8_388_607, 1, 8_388_608, 0),
        // The most that one step turns it: from 1, and not from 0.
        (0, 1, u32::MAX, 0, 512),
        (0, 0, u32::MAX, 16_777_215, 511),
        (1 << 8, 1, u32::MAX, 0, 2),
        (1 << 8, 0, u32::MAX, u32::MAX, 1),
    ] {
        let mut machine = machine(flags);
        machine.counter = before;
        assert_eq!(machine.step(&Step::Tick(n)), (0, turns));
        assert_eq!((machine.counter, machine.status & TMR != 0), (after, turns > 0));
    }
}

#[test]
fn held_button() {
    let mut machine = machine(0);
    machine.step(&Step::Press);
    assert_eq!(machine.step(&Step::Tick(HOLD_LIMIT - 1)), (0, 1));
    assert_eq!((machine.hold, machine.state()), (HOLD_LIMIT - 1, 0));
    // The counter is two ticks from its wrap, and the override comes with the first.
    machine.counter = 16_777_214;
    assert_eq!(machine.step(&Step::Tick(5)), (0, 0));
    assert_eq!((machine.counter, machine.status, machine.state()), (16_777_215, TMR, 5));
    assert_eq!(machine.step(&Step::Tick(5)), (0, 0));
}

#[test]
fn table_of_115_bytes() {
    let settings = Settings { event_homes: 0, control_homes: 0, power_override: false, states: [None; 6] };
    assert!(set_up(&table(0), &settings).is_ok());
    assert_eq!(set_up(&table(0)[..115], &settings), Err(1));
}

/// Two turns of the top bit in one step do not hide each other.
#[test]
fn two_turns() {
    let mut singly = machine(0);
    singly.counter = 5;
    let mut at_once = singly.clone();
    assert_eq!(singly.tick_singly(1 << 24), 2);
    assert_eq!(at_once.tick_at_once(1 << 24), 2);
    assert_eq!((singly.counter, singly.status), (5, TMR));
    assert_eq!(singly, at_once);
}

#[test]
fn ticks_at_once_are_ticks() {
    let mut random = 1u64;
    let mut below = |limit: u32| {
        random = random.wrapping_mul(6_364_136_223_846_793_005).wrapping_add(1_442_695_040_888_963_407);
        (random >> 33) as u32 % limit
    };
    for _ in 0..2_000 {
        let mut singly = machine(below(2) << 8);
        let size = 1u64 << singly.hardware.counter_bits;
        let turn = if below(2) == 0 { size } else { size / 2 };
        singly.counter = (turn - u64::from(below(3_000)) % size) as u32;
        singly.counter &= (size - 1) as u32;
        singly.down = below(2) == 0;
        singly.hardware.power_override = below(2) == 0;
        // With the override fitted hold is at its limit in S5 alone.
        singly.hold = HOLD_LIMIT - below(3_000) - u32::from(singly.hardware.power_override);
        let mut at_once = singly.clone();
        let n = below(3_000);
        assert_eq!(singly.tick_singly(n), at_once.tick_at_once(n));
        assert_eq!(singly, at_once);
    }
}

/// All event bits fitted, bit 14 at B where that is said; S3 is 5, 2.
fn with_pin(event_homes: u16) -> Machine {
    let mut states = [None; 6];
    (states[3], states[5]) = (Some((5, 2)), Some((7, 0)));
    let settings = Settings { event_homes, control_homes: 0, power_override: true, states };
    set_up(&table(1 << 14), &settings).unwrap()
}

fn to_sleep(machine: &mut Machine, a: u64, b: u64) {
    for (port, data) in [(CONTROL, 0x2000 | a << 10), (CONTROL + 0x40, 0x2000 | b << 10)] {
        assert_eq!(machine.step(&Step::Write { port, width: 2, data }), (0, 0));
    }
}

#[test]
fn pin_wakes() {
    let mut machine = with_pin(0);
    assert!(!machine.pin);
    to_sleep(&mut machine, 5, 2);
    assert_eq!(machine.step(&Step::PinInactive), (30, 0));
    assert_eq!(machine.step(&Step::PinActive), (0, 0));
    assert_eq!((machine.state, machine.status, machine.pin), (0, PCIEXP_WAKE | WAK, true));
    assert_eq!(machine.step(&Step::PinActive), (30, 0));
    // Asleep again with the pin active: it stays so, until another source wakes it.
    to_sleep(&mut machine, 5, 2);
    assert_eq!(machine.state, 3);
    assert_eq!(machine.step(&Step::PinActive), (30, 0));
    assert_eq!(machine.step(&Step::Press), (0, 0));
    assert_eq!((machine.state, machine.status, machine.pin), (0, PCIEXP_WAKE | WAK | PWRBTN, true));
    // Inactive, it clears nothing.
    assert_eq!(machine.step(&Step::PinInactive), (0, 0));
    assert_eq!((machine.status, machine.pin), (PCIEXP_WAKE | WAK | PWRBTN, false));
}

#[test]
fn pin_level_alone() {
    for state in [0, 5] {
        let mut machine = with_pin(0);
        machine.state = state;
        for (step, pin) in [(Step::PinActive, true), (Step::PinInactive, false)] {
            assert_eq!(machine.step(&step), (0, 0));
            assert_eq!(machine.step(&step), (30, 0));
            assert_eq!((machine.state, machine.status, machine.pin), (state, 0, pin));
        }
    }
    let mut machine = with_pin(0);
    machine.enable = PCIEXP_WAKE;
    to_sleep(&mut machine, 5, 2);
    assert_eq!(machine.step(&Step::PinActive), (0, 0));
    assert_eq!((machine.state, machine.status, machine.pin), (3, 0, true));
    assert_eq!(machine.step(&Step::PinInactive), (0, 0));
    assert_eq!((machine.state, machine.status, machine.pin), (3, 0, false));
}

#[test]
fn pin_not_fitted() {
    let settings = Settings { event_homes: 0, control_homes: 0, power_override: true, states: [None; 6] };
    let mut machine = set_up(&table(0), &settings).unwrap();
    for state in 0..=5 {
        machine.state = state;
        assert_eq!(machine.step(&Step::PinActive), (28, 0));
        assert_eq!(machine.step(&Step::PinInactive), (28, 0));
    }
}

/// Bit 14, at A and at B: a one written to it clears it only with the pin inactive; the other bits act as before.
#[test]
fn pin_and_clearing() {
    for (homes, home, away) in [(0, EVENT, EVENT + 0x40), (PCIEXP_WAKE | WAK, EVENT + 0x40, EVENT)] {
        for (offset, width, data, cleared) in [
            (0, 2, 0xFFFF, 0xC000),
            (0, 2, 0x4000, 0x4000),
            (1, 1, 0xFF, 0xC000),
            (1, 1, 0x40, 0x4000),
            (0, 1, 0xFF, 0),
            (0, 2, 0x8000, 0x8000),
        ] {
            for pin in [true, false] {
                let mut machine = with_pin(homes);
                (machine.status, machine.pin) = (0xC000, pin);
                assert_eq!(machine.step(&Step::Write { port: away + offset, width, data }), (0, 0));
                assert_eq!(machine.status, 0xC000);
                assert_eq!(machine.step(&Step::Write { port: home + offset, width, data }), (0, 0));
                let cleared = if pin { cleared & !PCIEXP_WAKE } else { cleared };
                assert_eq!(machine.status, 0xC000 & !cleared, "{data:X} at offset {offset}, pin {pin}");
                assert_eq!(machine.pin, pin);
            }
        }
    }
}

/// Restart from S5, the override and ACPI_ENABLE leave the pin alone.
#[test]
fn pin_kept() {
    let mut machine = with_pin(0);
    (machine.status, machine.pin) = (PCIEXP_WAKE, true);
    machine.step(&Step::Write { port: 0xB2, width: 1, data: 0xE1 });
    assert_eq!(machine.step(&Step::Take), (0, 0xE1));
    assert_eq!((machine.status, machine.pin), (PCIEXP_WAKE, true));
    machine.step(&Step::Press);
    machine.step(&Step::Tick(HOLD_LIMIT));
    assert_eq!((machine.state, machine.status, machine.pin), (5, PCIEXP_WAKE | TMR, true));
    machine.step(&Step::Release);
    assert_eq!(machine.step(&Step::Press), (0, 0));
    assert_eq!((machine.state, machine.status, machine.pin), (0, PWRBTN, true));
}
