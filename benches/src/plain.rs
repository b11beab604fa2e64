//! The same loops over the plain model of `tests/model`, step by step as in `crates/speed_steps/specs` and
//! `crates/speed_general/specs`; and over the saved text of `saved.rs`, as in `crates/speed_saved/specs`.

use std::hint::black_box;

use crate::saved;
use model::{set_up as set_up_machine, Machine, Settings, Step, GPE_BYTES};

const STATES: [Option<(u8, u8)>; 6] = [Some((0, 0)), None, None, Some((5, 2)), None, Some((7, 0))];

fn settings(power_override: bool) -> Settings {
    Settings {
        event_homes: 0x0400,
        control_homes: 0,
        power_override,
        states: STATES,
    }
}

struct Ports {
    sts_a: u64,
    sts_b: u64,
    cnt_a: u64,
    cnt_b: u64,
}

struct Run {
    machine: Machine,
    value: u32,
    older: u32,
    sum: u64,
}

#[derive(Clone, Copy)]
enum Row {
    StatusRead,
    WriteBack,
    Events,
    Tick,
    Ticks,
    Interrupt,
    Sleep,
}

fn row_of(number: u32) -> Row {
    match number {
        0 => Row::StatusRead,
        1 => Row::WriteBack,
        2 => Row::Events,
        3 => Row::Tick,
        4 => Row::Ticks,
        5 => Row::Interrupt,
        _ => Row::Sleep,
    }
}

fn last_of(row: Row) -> u64 {
    match row {
        Row::Events => 6,
        Row::Interrupt | Row::Sleep => 4,
        _ => 0,
    }
}

fn event_at(k: u64) -> Step {
    match k {
        0 => Step::Press,
        1 => Step::Release,
        2 => Step::Sleep,
        3 => Step::Alarm,
        4 => Step::Master,
        5 => Step::Unlock,
        _ => Step::Event(3),
    }
}

fn read_at(port: u64) -> Step {
    Step::Read { port, width: 2 }
}

fn write_at(port: u64, data: u64) -> Step {
    Step::Write { port, width: 2, data }
}

fn step_at(row: Row, k: u64, p: &Ports, older: u32) -> Step {
    match (row, k) {
        (Row::StatusRead, _) => read_at(p.sts_a),
        (Row::WriteBack, _) => write_at(p.sts_a, 0x8100),
        (Row::Events, _) => event_at(k),
        (Row::Tick, _) => Step::Tick(1),
        (Row::Ticks, _) => Step::Tick(u32::MAX),
        (Row::Interrupt, 0) => Step::Alarm,
        (Row::Interrupt, 1) => read_at(p.sts_a),
        (Row::Interrupt, 2) => read_at(p.sts_b),
        (Row::Interrupt, 3) => write_at(p.sts_a, older.into()),
        (Row::Interrupt, _) => write_at(p.sts_b, older.into()),
        (Row::Sleep, 0) => write_at(p.cnt_a, 0x3400),
        (Row::Sleep, 1) => write_at(p.cnt_b, 0x2800),
        (Row::Sleep, 2) => Step::Alarm,
        (Row::Sleep, 3) => write_at(p.sts_a, 0x8000),
        (Row::Sleep, _) => write_at(p.sts_b, 0x0400),
    }
}

impl Run {
    fn prepared(mut machine: Machine) -> Run {
        prepare(&mut machine);
        Run {
            machine,
            value: 0,
            older: 0,
            sum: 0,
        }
    }

    fn done(&mut self, step: &Step) {
        let (number, value) = self.machine.step(step);
        self.older = self.value;
        self.value = value;
        self.sum = self.sum.wrapping_add(u64::from(number) + u64::from(value));
    }

    fn lines_if(&mut self, row: Row, k: u64) {
        if let (Row::Interrupt, 4) = (row, k) {
            self.lines();
        }
    }

    /// SCI counts 1, and SMI 2.
    fn lines(&mut self) {
        let lines = u64::from(self.machine.sci()) + 2 * u64::from(self.machine.smi());
        self.sum = self.sum.wrapping_add(lines);
    }

    fn sum(&self) -> u64 {
        self.sum
            .wrapping_add(self.machine.status.into())
            .wrapping_add(self.machine.counter.into())
    }
}

/// SCI_EN, PWRBTN_EN, RTC_EN and BM set.
fn prepare(machine: &mut Machine) {
    machine.status = 0x0010;
    machine.enable = 0x0500;
    machine.sci_en = true;
}

/// A step put into the loop.
#[inline(never)]
pub fn steps(table: &[u8], base: u64, row: u32, n: u64) -> u64 {
    steps_by(table, base, row, n, Run::done)
}

/// A step called as a function, as a host calls it.
#[inline(never)]
pub fn called_steps(table: &[u8], base: u64, row: u32, n: u64) -> u64 {
    let done: fn(&mut Run, &Step) = black_box(Run::done);
    steps_by(table, base, row, n, done)
}

fn steps_by(table: &[u8], base: u64, row: u32, n: u64, done: impl Fn(&mut Run, &Step)) -> u64 {
    let p = Ports {
        sts_a: base,
        sts_b: base.wrapping_add(0x40),
        cnt_a: base.wrapping_add(0x04),
        cnt_b: base.wrapping_add(0x44),
    };
    let Ok(machine) = set_up_machine(table, &settings(false)) else {
        return 0;
    };
    let mut run = Run::prepared(machine);
    let row = row_of(row);
    let mut k = 0;
    for _ in 0..n {
        let step = step_at(row, k, &p, run.older);
        done(&mut run, &step);
        run.lines_if(row, k);
        k = if k < last_of(row) { k + 1 } else { 0 };
    }
    run.sum()
}

/// General event 3 enabled, raised, its status read and cleared.
fn general_at(k: u64, gpe_sts: u64, gpe_en: u64) -> Step {
    let write = |port| Step::Write { port, width: 1, data: 8 };
    match k {
        0 => write(gpe_en),
        1 => Step::Event(3),
        2 => Step::Read { port: gpe_sts, width: 1 },
        _ => write(gpe_sts),
    }
}

#[inline(never)]
pub fn general(table: &[u8], base: u64, n: u64) -> u64 {
    general_by(table, base, n, Run::done)
}

#[inline(never)]
pub fn called_general(table: &[u8], base: u64, n: u64) -> u64 {
    let done: fn(&mut Run, &Step) = black_box(Run::done);
    general_by(table, base, n, done)
}

fn general_by(table: &[u8], base: u64, n: u64, done: impl Fn(&mut Run, &Step)) -> u64 {
    let (gpe_sts, gpe_en) = (base.wrapping_add(0x20), base.wrapping_add(0x22));
    let Ok(machine) = set_up_machine(table, &settings(false)) else {
        return 0;
    };
    let mut run = Run::prepared(machine);
    let mut k = 0;
    for _ in 0..n {
        done(&mut run, &general_at(k, gpe_sts, gpe_en));
        if k == 3 {
            run.lines();
        }
        k = if k < 3 { k + 1 } else { 0 };
    }
    run.sum()
}

#[inline(never)]
pub fn lines(table: &[u8], enables: u8, n: u64) -> u64 {
    let Ok(machine) = set_up_machine(table, &settings(false)) else {
        return 0;
    };
    let mut run = Run::prepared(machine);
    for block in &mut run.machine.gpe {
        block.enable = [enables; GPE_BYTES];
    }
    for _ in 0..n {
        run.machine.status = run.sum as u16;
        run.machine.gpe[0].status = [run.sum as u8; GPE_BYTES];
        run.machine.gpe[1].status = [(run.sum >> 8) as u8; GPE_BYTES];
        run.lines();
        run.sum = run.sum.wrapping_add(257);
    }
    run.sum
}

#[inline(never)]
pub fn set_up(table: &[u8], n: u64) -> u64 {
    let mut sum: u64 = 0;
    for _ in 0..n {
        let made = set_up_machine(table, &settings(sum % 2 == 1));
        let (number, kept) = match &made {
            Ok(machine) => (0, machine.hardware.power_override),
            Err(number) => (*number, false),
        };
        sum = sum.wrapping_add(number.into()).wrapping_add(if kept { 3 } else { 1 });
    }
    sum
}

/// The last listing, and the sum.
#[inline(never)]
pub fn session(table: &[u8], script: &[u8], n: u64) -> (Vec<u8>, u64) {
    let mut sum: u64 = 0;
    let mut last = Vec::new();
    for _ in 0..n {
        last = model::session(table, script).unwrap_or_default();
        sum = sum.wrapping_add(last.len() as u64);
    }
    (last, sum)
}

/// The text that is read: the prepared machine's, with a counter.
pub fn saved_text(table: &[u8]) -> Vec<u8> {
    let Ok(mut machine) = set_up_machine(table, &settings(false)) else {
        return Vec::new();
    };
    prepare(&mut machine);
    machine.counter = 0x00AB_CDEF;
    model::saved::write(&machine)
}

#[inline(never)]
pub fn reads(text: &[u8], n: u64) -> u64 {
    let mut sum: u64 = 0;
    for _ in 0..n {
        let (number, counter) = match saved::read(black_box(text)) {
            Ok(machine) => (0, machine.counter),
            Err(number) => (number, 0),
        };
        sum = sum.wrapping_add(number.into()).wrapping_add(counter.into());
    }
    sum
}

/// The last text, and the sum.
#[inline(never)]
pub fn writes(text: &[u8], n: u64) -> (Vec<u8>, u64) {
    let mut buffer = [0; 1024];
    let mut sum: u64 = 0;
    let mut length = 0;
    if let Ok(mut machine) = saved::read(text) {
        for _ in 0..n {
            machine.counter = sum as u32;
            length = saved::write(&machine, &mut buffer).unwrap_or_default();
            sum = sum.wrapping_add(length as u64);
        }
    }
    (buffer[..length].to_vec(), sum)
}
