//! "Halves and gaps" on the same sessions: the moved list, and the write-back.

use model::{Block, Machine, Settings, Step, A, B, BM, GBL, PCIEXP_WAKE, PWRBTN, RTC, SLPBTN, TMR};

/// The list with the halves of every split access side by side.
pub struct Moved {
    pub steps: Vec<Step>,
    /// The place of each in the list as it was.
    from: Vec<usize>,
    /// Gap steps that went before and after their halves.
    pub before: u64,
    pub after: u64,
}

pub fn moved(machine: &Machine, settings: &Settings, steps: &[Step]) -> Moved {
    let mut machine = machine.clone();
    let mut from = Vec::new();
    let (mut before, mut after) = (0, 0);
    let mut at = 0;
    while at < steps.len() {
        let end = match second_half(&machine, &steps[at..]) {
            Some(length) => at + length,
            None => {
                from.push(at);
                machine.step(&steps[at]);
                at += 1;
                continue;
            }
        };
        let control = group(&machine, &steps[at]) == Some((Group::Control, A));
        let goes_before = |place: &usize| control || home_is_b(settings, &steps[*place]);
        let (first, last): (Vec<usize>, Vec<usize>) = (at + 1..end).partition(goes_before);
        before += first.len() as u64;
        after += last.len() as u64;
        from.extend(first);
        from.extend([at, end]);
        from.extend(last);
        for step in &steps[at..=end] {
            machine.step(step);
        }
        at = end + 1;
    }
    Moved { steps: from.iter().map(|place| steps[*place]).collect(), from, before, after }
}

impl Moved {
    /// Every step gives the same number and value in both lists, and both end in the same machine.
    pub fn check(&self, machine: &Machine, steps: &[Step]) -> Result<(), String> {
        let (mut one, mut other) = (machine.clone(), machine.clone());
        let answers: Vec<(u8, u32)> = steps.iter().map(|step| one.step(step)).collect();
        for (step, place) in self.steps.iter().zip(&self.from) {
            if other.step(step) != answers[*place] {
                return Err(format!("moved list: step {} answers otherwise", place + 1));
            }
        }
        if one != other {
            return Err("moved list: it ends in another machine".to_string());
        }
        Ok(())
    }
}

#[derive(Clone, Copy, PartialEq, Eq)]
enum Group {
    Event,
    Control,
}

/// The PM1 group and block of a bus step, where B is present.
fn group(machine: &Machine, step: &Step) -> Option<(Group, usize)> {
    let (port, ..) = access(step)?;
    let inside = |block: Block| port.wrapping_sub(block.start.into()) < u64::from(block.length);
    for (group, blocks) in [(Group::Event, machine.hardware.event), (Group::Control, machine.hardware.control)] {
        if let Some(block) = [A, B].into_iter().find(|block| inside(blocks[*block])) {
            return blocks[B].present().then_some((group, block));
        }
    }
    None
}

/// Port, width, and whether it writes.
fn access(step: &Step) -> Option<(u64, u32, bool)> {
    match *step {
        Step::Read { port, width } => Some((port, width, false)),
        Step::Write { port, width, .. } => Some((port, width, true)),
        _ => None,
    }
}

pub fn gap_step(step: &Step) -> bool {
    access(step).is_none() && !matches!(step, Step::Take | Step::Drop)
}

/// The place of the second half, where a split access as document 01 allows it starts this list.
fn second_half(machine: &Machine, steps: &[Step]) -> Option<usize> {
    let (group_of_first, A) = group(machine, &steps[0])? else { return None };
    let second = 1 + steps[1..].iter().position(|step| !gap_step(step))?;
    if group(machine, &steps[second])? != (group_of_first, B) {
        return None;
    }
    let blocks = match group_of_first {
        Group::Event => machine.hardware.event,
        Group::Control => machine.hardware.control,
    };
    let (port_a, width_a, writes_a) = access(&steps[0])?;
    let (port_b, width_b, writes_b) = access(&steps[second])?;
    let offset = port_a - u64::from(blocks[A].start);
    if (width_a, writes_a, offset) != (width_b, writes_b, port_b - u64::from(blocks[B].start)) {
        return None;
    }
    // Awake until the second half, and no gap with both a button step and ticks.
    let mut machine = machine.clone();
    for step in &steps[..second] {
        if machine.state != 0 {
            return None;
        }
        machine.step(step);
    }
    let gap = &steps[1..second];
    let button = gap.iter().any(|step| matches!(step, Step::Press | Step::Release));
    let ticks = gap.iter().any(|step| matches!(step, Step::Tick(1..)));
    (machine.state == 0 && !(button && ticks)).then_some(second)
}

/// By the bit that a step goes by; general events have none.
fn home_is_b(settings: &Settings, step: &Step) -> bool {
    let bit = match step {
        Step::Press | Step::Release => PWRBTN,
        Step::Sleep => SLPBTN,
        Step::Alarm => RTC,
        Step::PinActive | Step::PinInactive => PCIEXP_WAKE,
        Step::Master => BM,
        Step::Unlock => GBL,
        Step::Tick(_) => TMR,
        _ => 0,
    };
    settings.event_homes & bit != 0
}

/// Every write-back of the list: a split read of status bytes, a split write of what was read, gap steps between and
/// after. Every bit raised since the first half read is set, unless it is a PM1 bit that its home's value shows.
/// Gives how many raised bits were found so.
pub fn write_backs(machine: &Machine, steps: &[Step]) -> Result<u64, String> {
    let mut machine = machine.clone();
    let mut kept = 0;
    for at in 0..steps.len() {
        if group(&machine, &steps[at]) == Some((Group::Event, A)) {
            kept +=
                write_back(&machine, &steps[at..]).map_err(|bits| format!("write-back at step {}: {bits}", at + 1))?;
        }
        machine.step(&steps[at]);
    }
    Ok(kept)
}

fn write_back(machine: &Machine, steps: &[Step]) -> Result<u64, String> {
    let starts = machine.hardware.event.map(|block| u64::from(block.start));
    let mut machine = machine.clone();
    let Some((port, width, _)) = access(&steps[0]) else { return Ok(0) };
    let offset = port - starts[A];
    if offset >= 2 {
        return Ok(0);
    }
    // What the halves read, what of it the write-back has still to write, and what was raised.
    let mut read = [0u32; 2];
    let mut halves = 0;
    let mut raised = 0u16;
    let mut raised_gpe = [0u64; 2];
    let mut kept = 0;
    for step in steps {
        if machine.state != 0 {
            break;
        }
        if gap_step(step) {
            let mut quiet = machine.clone();
            quiet.status = 0;
            quiet.gpe.iter_mut().for_each(|gpe| gpe.status = [0; model::GPE_BYTES]);
            quiet.step(step);
            raised |= quiet.status;
            for (sum, gpe) in raised_gpe.iter_mut().zip(quiet.gpe) {
                *sum |= u64::from_le_bytes(gpe.status);
            }
            machine.step(step);
        } else {
            let port = starts[halves % 2] + offset;
            let due = match halves {
                0 | 1 => Step::Read { port, width },
                2 | 3 => Step::Write { port, width, data: read[halves - 2].into() },
                _ => break,
            };
            let (answer, value) = if *step == due { machine.step(step) } else { break };
            if answer != 0 {
                break;
            }
            if halves < 2 {
                read[halves] = value;
            }
            halves += 1;
        }
        if halves == 4 && machine.state == 0 {
            let shown = read.map(|value| (value << (8 * offset)) as u16);
            let visible = machine.hardware.visible;
            let owed = raised & !(shown[A] & visible[A]) & !(shown[B] & visible[B]);
            let gpe = machine.gpe.map(|gpe| u64::from_le_bytes(gpe.status));
            let lost_gpe = (raised_gpe[0] & !gpe[0]) | (raised_gpe[1] & !gpe[1]);
            if owed & !machine.status != 0 || lost_gpe != 0 {
                return Err(format!("lost {:04X} of PM1, {lost_gpe:X} of GPE", owed & !machine.status));
            }
            kept = u64::from(owed.count_ones() + raised_gpe[0].count_ones() + raised_gpe[1].count_ones());
        }
    }
    Ok(kept)
}
