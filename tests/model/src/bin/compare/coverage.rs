//! What the sessions reached, counted on the model. A row that stays at 0 is a failure.

use std::collections::HashMap;

use model::saved::{self, Broken, CLAUSES};
use model::{
    port_map, read_script, set_up, set_up_answer, Gpe, Hardware, Machine, Step, A, B, GBL_RLS, GPE_BYTES, HOLD_LIMIT,
    LIMIT, PCIEXP_WAKE, PWRBTN, RTC, SLPBTN, SLP_EN, TMR,
};

use crate::carried::Cut;
use crate::damage::{SCRIPTS, TABLES};
use crate::halves::{gap_step, moved, write_backs};
use crate::records::{newest, Saved, ABSENT, FLAGS, SLEEPS};
use crate::sessions::{Kind, Session};
use crate::states::STATES;
use crate::text::{join, lines};
use crate::texts::{Text, SWEPT};

pub struct Coverage {
    pub rows: Vec<(String, u64)>,
    places: HashMap<String, usize>,
    pub whole_sessions: u64,
    pub whole_steps: u64,
    pub steps: u64,
    /// Saved texts that reading refuses, and that it accepts.
    pub refused: u64,
    pub accepted: u64,
}

/// Each step's word, and the answers it can get.
const ANSWERS: &[(&str, &[u8])] = &[
    ("read", &[0, 20, 21, 23, 24]),
    ("write", &[0, 20, 21, 22, 23, 24, 25, 26, 27]),
    ("press", &[0, 28, 30]),
    ("release", &[0, 28, 30]),
    ("sleep", &[0, 28]),
    ("alarm", &[0, 28]),
    ("pin active", &[0, 28, 30]),
    ("pin inactive", &[0, 28, 30]),
    ("master", &[0, 20]),
    ("unlock", &[0, 20]),
    ("event", &[0, 29]),
    ("tick", &[0]),
    ("take", &[0, 20, 31]),
    ("drop", &[0, 20]),
];

const WAKERS: &[&str] = &["press", "sleep", "alarm", "GPE0 event", "GPE1 event", "pin active"];

const PIN_STEPS: [&str; 2] = ["pin active", "pin inactive"];
const DISABLES: [&str; 2] = ["not disabled", "disabled"];
/// States as the pin has them.
const PLACES: [&str; 3] = ["S0", "asleep", "S5"];

fn place(state: u8) -> &'static str {
    match state {
        0 => PLACES[0],
        5 => PLACES[2],
        _ => PLACES[1],
    }
}

const OTHERS: &[&str] = &[
    "press leaves S5 entered by a write",
    "press leaves S5 entered by the override",
    "press leaves S5, the pin active",
    "press leaves S5, the pin active and bit 14 set",
    "woken by pin active, bit 14 set already",
    "bit 14 written at its home, the pin active: other bits cleared",
    "asleep: sleep, not enabled",
    "asleep: alarm, not enabled",
    "asleep: event, not enabled",
    "asleep: release",
    "asleep: tick",
    "S4: alarm, enabled, without flag 7",
    "S5: sleep",
    "S5: alarm",
    "S5: event",
    "S5: release",
    "S5: tick",
    "completing: wakes at once by PWRBTN alone",
    "completing: wakes at once by SLPBTN alone",
    "completing: wakes at once by RTC alone",
    "completing: wakes at once by GPE0 alone",
    "completing: wakes at once by GPE1 alone",
    "completing: sleeps on, a bit set but not enabled",
    "completing: sleeps on, TMR or GBL set and enabled",
    "completing: sleeps on in S4, RTC pending, without flag 7",
    "completing: S5, an enabled bit set",
    "completing: S5, the pin active",
    "completing: wakes at once, the pin active",
    "completing: sleeps on, the pin active, disabled",
    "completing: sleeps on, the pin active and bit 14 set",
    "completing: with a low byte",
    "completing: 27 by S0's pair",
    "completing: 27 by another pair",
    "pending: by an event",
    "pending: by an enable, the bit was set",
    "pending: no longer, the status cleared",
    "pending: no longer, the enable cleared",
    "pending: no longer, a press in S5",
    "pending: still, one of several cleared",
    "pending: still, in the other block",
    "pending: not by an event, its enable clear",
    "pending: not by an enable, its status clear",
    "arming: SLP_EN at A arms",
    "arming: SLP_EN at A while armed",
    "arming: disarmed at A",
    "arming: disarmed at B",
    "arming: SLP_EN at B unarmed",
    "arming: events while armed",
    "tick 0",
    "tick FFFFFFFF",
    "tick without a timer",
    "24 bits: top bit rises",
    "24 bits: top bit falls",
    "24 bits: turns hide each other",
    "32 bits: top bit rises",
    "32 bits: top bit falls",
    "32 bits: turns hide each other",
    "turns: 512, with 24 bits",
    "turns: 2, with 32 bits",
    "turns: counted without a timer",
    "turns: none while asleep",
    "turns: none in S5",
    "turns: some, and the override",
    "turns: by the tick of the override",
    "turns: the override stops them",
    "hold: one tick short of 4 seconds",
    "hold: override",
    "hold: override with ticks left over",
    "hold: override, the pin active",
    "hold: stops, no override fitted",
    "hold: grows after a wake that was no press",
    "command: enable, SCI_EN clear, enables set",
    "command: enable, SCI_EN set, enables set",
    "command: enable, SCI_EN clear, the pin active",
    "command: disable",
    "command: another",
    "release flag: raised at A",
    "release flag: raised at B",
    "release flag: GBL_RLS away from its home",
    "release flag: dropped",
    "release flag: none to drop",
    "line: SCI",
    "line: SMI by an event",
    "line: SMI by a command",
    "line: SMI by the release flag",
    "line: down outside S0, with an event there",
    "split: event read, gap",
    "split: event write, gap",
    "split: control read, gap",
    "split: control write, gap",
    "split: status read, an alarm in the gap",
    "split: status write, an alarm in the gap",
    "split: status read, a pin step in the gap",
    "split: status write, a pin step in the gap",
    "split: control write, a pin step in the gap",
    "split: bit 14 written at A, then a pin step",
    "split: a pin step, then bit 14 written at B",
    "split: status written back",
    "split: bit 14 written back, the pin active",
    "split: gap steps moved before",
    "split: gap steps moved after",
    "split: raised bits kept by a write-back",
    "narrow tables",
];

/// The blocks that a port map may lack.
const MAPPED: [&str; 7] =
    ["SMI_CMD", "PM1b_EVT_BLK", "PM1b_CNT_BLK", "PM2_CNT_BLK", "PM_TMR_BLK", "GPE0_BLK", "GPE1_BLK"];

/// What the saved machines of the sessions have, at a cut or at the end.
const SAVED: &[&str] = &[
    "saved: before the first step",
    "saved: after some of the steps",
    "saved: after the last step",
    "saved: resumed, and saved at the end",
    "saved: armed",
    "saved: button down",
    "saved: button up, hold above 0",
    "saved: hold at its limit",
    "saved: a command waits",
    "saved: release flag",
    "saved: SCI_EN clear",
    "saved: BM_RLD",
    "saved: ARB_DIS",
    "saved: counter above 24 bits",
    "saved: status and enables at A",
    "saved: status and enables at B",
    "saved: status and enables of GPE0",
    "saved: status and enables of GPE1",
    "saved: one of GPE0 pending",
    "saved: one of GPE1 pending",
    "saved: the pin active, bit 14 set",
    "saved: the pin inactive, bit 14 set",
    "saved: resumed from a text of edition 1",
];

/// The numbers of reading.
const READING: [u8; 4] = [0, 40, 41, 42];

impl Coverage {
    pub fn new() -> Coverage {
        let mut names: Vec<String> = Vec::new();
        names.extend((0..=12).map(|answer| format!("set up {answer}")));
        names.extend([0].into_iter().chain(20..=31).map(|answer| format!("answer {answer}")));
        for (word, answers) in ANSWERS {
            names.extend(answers.iter().map(|answer| format!("{word}: {answer}")));
        }
        names.extend((0..=5).map(|state| format!("state S{state}")));
        for state in 1..=5 {
            names.extend(["A", "B"].map(|block| format!("completing: S{state} at {block}")));
        }
        for state in 1..=4 {
            names.extend(WAKERS.iter().map(|waker| format!("S{state}: woken by {waker}")));
            names.push(format!("S{state}: woken at once"));
        }
        names.extend(pin_rows());
        for access in ["read", "write"] {
            for block in ["PM1a", "PM1b"] {
                for register in ["status", "enable", "control"] {
                    names.extend(
                        ["low byte", "high byte", "word"].map(|part| format!("{access} {block} {register} {part}")),
                    );
                }
            }
            for block in ["GPE0", "GPE1"] {
                names.extend(["status", "enable"].map(|half| format!("{access} {block} {half}")));
            }
            names.extend(["PM2", "SMI_CMD"].map(|register| format!("{access} {register}")));
        }
        names.push("read timer".to_string());
        names.extend(OTHERS.iter().map(|name| name.to_string()));
        names.extend(TABLES.iter().map(|table| format!("table: {}", table.name)));
        names.extend(SCRIPTS.iter().map(|script| format!("script: {}", script.name)));
        names.push("map: none, the table refused".to_string());
        for block in MAPPED {
            names.extend(["present", "absent"].map(|which| format!("map: {block} {which}")));
        }
        names.extend((0..=5).map(|state| format!("saved: S{state}")));
        names.extend(PLACES.map(|place| format!("saved: {place}, the pin active")));
        names.extend(SAVED.iter().map(|name| name.to_string()));
        names.extend(STATES.iter().map(|kind| format!("text: {}", kind.name)));
        for answer in READING {
            names.push(format!("reading {answer}"));
            names.extend(SWEPT.iter().map(|name| format!("text: {name}: {answer}")));
        }
        names.extend((5..=12).map(|rule| format!("reading 42: rule {rule}")));
        names.extend(CLAUSES.iter().map(|clause| format!("reading 42: {clause} and nothing else")));
        names.extend(forms());
        let places = names.iter().cloned().enumerate().map(|(place, name)| (name, place)).collect();
        let rows = names.into_iter().map(|name| (name, 0)).collect();
        Coverage { rows, places, whole_sessions: 0, whole_steps: 0, steps: 0, refused: 0, accepted: 0 }
    }

    fn count(&mut self, name: &str) {
        self.add_to(name, 1);
    }

    fn add_to(&mut self, name: &str, times: u64) {
        let place = *self.places.get(name).unwrap_or_else(|| panic!("no row {name:?}"));
        self.rows[place].1 += times;
    }

    fn count_if(&mut self, holds: bool, name: &str) {
        if holds {
            self.count(name);
        }
    }

    pub fn add(&mut self, other: &Coverage) {
        for (row, more) in self.rows.iter_mut().zip(&other.rows) {
            row.1 += more.1;
        }
        self.whole_sessions += other.whole_sessions;
        self.whole_steps += other.whole_steps;
        self.steps += other.steps;
        self.refused += other.refused;
        self.accepted += other.accepted;
    }

    /// Counts a session; an error where the model does not see in it what it was made for.
    pub fn session(&mut self, session: &Session) -> Result<(), String> {
        self.map(&session.table);
        let script = read_script(&session.script);
        let answer = set_up_answer(&session.table, &session.script);
        match session.kind {
            Kind::Whole { .. } => self.whole_sessions += 1,
            Kind::Narrow => self.count("narrow tables"),
            Kind::Table { name, answer: expected } => {
                self.count(&format!("table: {name}"));
                if expected.is_some() && answer != expected {
                    return Err(format!("table: {name}: setting up gives {answer:?}, not {expected:?}"));
                }
            }
            Kind::Script { name, reads } => {
                self.count(&format!("script: {name}"));
                if script.is_some() != reads {
                    return Err(format!("script: {name}: reads, or does not, against its row"));
                }
            }
        }
        let (Some((settings, steps)), Some(answer)) = (script, answer) else {
            return Ok(());
        };
        self.count(&format!("set up {answer}"));
        let lent = &session.table[..session.table.len().min(LIMIT)];
        let Ok(mut machine) = set_up(lent, &settings) else {
            return Ok(());
        };
        let mut history = History::default();
        for step in &steps {
            let before = machine.clone();
            let (answer, value) = machine.step(step);
            self.step(&before, step, answer, value, &machine);
            self.history(&mut history, &before, step, answer, value, &machine);
        }
        self.steps += steps.len() as u64;
        if matches!(session.kind, Kind::Whole { .. }) {
            self.whole_steps += steps.len() as u64;
        }
        Ok(())
    }

    /// Counts a port map.
    fn map(&mut self, table: &[u8]) {
        let map = port_map(table);
        if map.is_empty() {
            return self.count("map: none, the table refused");
        }
        let map = String::from_utf8_lossy(&map);
        for block in MAPPED {
            let listed = map.lines().any(|line| line.split('\t').next() == Some(block));
            self.count(&format!("map: {block} {}", if listed { "present" } else { "absent" }));
        }
    }

    /// Demand 3 on a whole session: checks it on the model, and gives the moved list's script.
    pub fn halves(&mut self, session: &Session) -> Result<Option<Vec<u8>>, String> {
        if !matches!(session.kind, Kind::Whole { .. }) {
            return Ok(None);
        }
        let (settings, steps) = read_script(&session.script).ok_or("a whole script reads")?;
        let machine = set_up(&session.table, &settings).map_err(|_| "a whole platform is accepted")?;
        let moved = moved(&machine, &settings, &steps);
        moved.check(&machine, &steps)?;
        self.add_to("split: gap steps moved before", moved.before);
        self.add_to("split: gap steps moved after", moved.after);
        self.add_to("split: raised bits kept by a write-back", write_backs(&machine, &steps)?);
        Ok((moved.steps != steps).then(|| join(&lines(&settings, &moved.steps))))
    }

    /// Counts the machine that is saved at a cut.
    pub fn cut(&mut self, cut: &Cut) {
        match cut.at {
            0 => self.count("saved: before the first step"),
            at if at == cut.steps => self.count("saved: after the last step"),
            _ => self.count("saved: after some of the steps"),
        }
        self.count_if(cut.saved_again(), "saved: resumed, and saved at the end");
        let machine = &cut.machine;
        self.count(&format!("saved: S{}", machine.state));
        self.count_if(machine.armed, "saved: armed");
        self.count_if(machine.down, "saved: button down");
        self.count_if(!machine.down && machine.hold > 0, "saved: button up, hold above 0");
        self.count_if(machine.hold == HOLD_LIMIT, "saved: hold at its limit");
        self.count_if(machine.command.is_some(), "saved: a command waits");
        self.count_if(machine.release, "saved: release flag");
        self.count_if(!machine.sci_en, "saved: SCI_EN clear");
        self.count_if(machine.bm_rld, "saved: BM_RLD");
        self.count_if(machine.arb_dis, "saved: ARB_DIS");
        self.count_if(machine.counter >> 24 != 0, "saved: counter above 24 bits");
        let visible = machine.hardware.visible;
        let both = |block: usize| machine.status & visible[block] != 0 && machine.enable & visible[block] != 0;
        self.count_if(both(A), "saved: status and enables at A");
        self.count_if(both(B), "saved: status and enables at B");
        let both = |gpe: &Gpe| gpe.status != [0; GPE_BYTES] && gpe.enable != [0; GPE_BYTES];
        self.count_if(both(&machine.gpe[0]), "saved: status and enables of GPE0");
        self.count_if(both(&machine.gpe[1]), "saved: status and enables of GPE1");
        self.count_if(machine.gpe[0].event(), "saved: one of GPE0 pending");
        self.count_if(machine.gpe[1].event(), "saved: one of GPE1 pending");
        self.count_if(machine.pin, &format!("saved: {}, the pin active", place(machine.state)));
        let bit_14 = machine.status & PCIEXP_WAKE != 0;
        self.count_if(bit_14 && machine.pin, "saved: the pin active, bit 14 set");
        self.count_if(bit_14 && !machine.pin, "saved: the pin inactive, bit 14 set");
        self.count_if(cut.from_edition_1(), "saved: resumed from a text of edition 1");
    }

    /// Counts a saved text; an error where the model does not answer what its kind says.
    pub fn text(&mut self, text: &Text) -> Result<(), String> {
        let answer = saved::read(&text.bytes).err().unwrap_or(0);
        if text.answer.is_some_and(|expected| expected != answer) {
            return Err(format!("text: {}: the model answers {answer}, against its row", text.name));
        }
        self.count(&format!("reading {answer}"));
        if SWEPT.contains(&text.name) {
            self.count(&format!("text: {}: {answer}", text.name));
        } else {
            self.count(&format!("text: {}", text.name));
        }
        if answer == 0 {
            self.accepted += 1;
            accepted_forms(&text.bytes).iter().for_each(|form| self.count(form));
        } else {
            self.refused += 1;
        }
        match saved::broken(&text.bytes) {
            Some(Broken::Rule(rule)) => self.count(&format!("reading 42: rule {rule}")),
            Some(Broken::Clauses(clauses)) if clauses.len() == 1 => {
                self.count(&format!("reading 42: {} and nothing else", clauses[0]));
            }
            _ => {}
        }
        Ok(())
    }

    fn step(&mut self, before: &Machine, step: &Step, answer: u8, value: u32, after: &Machine) {
        let word = word(step);
        self.count(&format!("answer {answer}"));
        self.count(&format!("{word}: {answer}"));
        self.count(&format!("state S{}", after.state));
        self.lines(after);
        self.pending(before, step, after);
        self.pin(before, step, answer, after);
        if let Step::Write { port, data, .. } = *step {
            if let Some((block, written)) = control_write(before, step) {
                self.control(before, block, written, answer, after);
            }
            let away = control_block(&before.hardware, port).is_some_and(|(block, offset)| {
                offset == 0 && u64::from(GBL_RLS & !before.hardware.control_visible[block]) & data != 0
            });
            self.count_if(away && answer == 0, "release flag: GBL_RLS away from its home");
        }
        if answer != 0 {
            return;
        }
        match *step {
            Step::Read { port, width } | Step::Write { port, width, .. } => {
                self.count(&format!("{word} {}", register(&before.hardware, port, width)));
            }
            Step::Tick(n) => self.ticks(before, n, value, after),
            Step::Take => self.command(before),
            Step::Drop => {
                self.count(if before.release { "release flag: dropped" } else { "release flag: none to drop" });
            }
            _ => {}
        }
        self.outside_s0(before, step, after);
    }

    fn lines(&mut self, after: &Machine) {
        let event = after.status & after.enable & 0x0721 != 0 || after.gpe.iter().any(Gpe::event);
        self.count_if(after.sci(), "line: SCI");
        if after.state != 0 {
            self.count_if(event, "line: down outside S0, with an event there");
        } else if after.smi() {
            let by_event = event && !after.sci_en;
            self.count_if(by_event, "line: SMI by an event");
            self.count_if(!by_event && after.command.is_some() && !after.release, "line: SMI by a command");
            self.count_if(!by_event && after.command.is_none() && after.release, "line: SMI by the release flag");
        }
    }

    /// The general status bits that are set together with their enables, before a step that changes either and after it.
    fn pending(&mut self, before: &Machine, step: &Step, after: &Machine) {
        if before.gpe == after.gpe {
            return;
        }
        let pairs = |gpe: &Gpe| (u64::from_le_bytes(gpe.status) & u64::from_le_bytes(gpe.enable)).count_ones();
        let [was, is] = [before, after].map(|machine| machine.gpe.each_ref().map(pairs));
        let enables = |machine: &Machine| machine.gpe.map(|gpe| u64::from_le_bytes(gpe.enable));
        let (old, new) = (enables(before), enables(after));
        let enabled = (0..2).any(|block| new[block] & !old[block] != 0);
        let write = matches!(step, Step::Write { .. });
        match (was != [0; 2], is != [0; 2]) {
            (false, true) if write => self.count("pending: by an enable, the bit was set"),
            (false, true) => self.count("pending: by an event"),
            (true, false) if !write => self.count("pending: no longer, a press in S5"),
            (true, false) if new != old => self.count("pending: no longer, the enable cleared"),
            (true, false) => self.count("pending: no longer, the status cleared"),
            (true, true) if write && is.iter().sum::<u32>() < was.iter().sum() => {
                let gone = (0..2).any(|block| was[block] != 0 && is[block] == 0);
                self.count(if gone {
                    "pending: still, in the other block"
                } else {
                    "pending: still, one of several cleared"
                });
            }
            (false, false) if write && enabled => self.count("pending: not by an enable, its status clear"),
            (false, false) if !write && before.state != 5 => self.count("pending: not by an event, its enable clear"),
            _ => {}
        }
    }

    /// Request W3: pin steps, and ones written to bit 14 where it is set.
    fn pin(&mut self, before: &Machine, step: &Step, answer: u8, after: &Machine) {
        let (word, place) = (word(step), place(before.state));
        let set = before.status & PCIEXP_WAKE != 0;
        if pin_step(step) && answer != 0 {
            self.count(&format!("{place}: {word} refused, {answer}"));
        } else if pin_step(step) {
            let disabled = DISABLES[usize::from(before.enable & PCIEXP_WAKE != 0)];
            let woken = after.state != before.state;
            self.count_if(!woken, &format!("S{}: {word}, {disabled}", before.state));
            self.count_if(woken && set, "woken by pin active, bit 14 set already");
            self.count_if(!woken && set, &format!("{place}: {word}, bit 14 set"));
        }
        if let (Some(write), 0, true) = (StatusWrite::of(before, step), answer, set) {
            if write.word & PCIEXP_WAKE != 0 {
                self.count(&write.row(before.pin));
                let cleared = before.status & !after.status;
                let kept = write.home && before.pin && cleared != 0;
                self.count_if(kept, "bit 14 written at its home, the pin active: other bits cleared");
            }
        }
    }

    /// An accepted step outside S0.
    fn outside_s0(&mut self, before: &Machine, step: &Step, after: &Machine) {
        let word = word(step);
        match before.state {
            0 => {}
            _ if pin_step(step) && after.state != 0 => {}
            5 if after.state == 5 => self.count(&format!("S5: {word}")),
            5 => {}
            state if after.state == 0 => {
                let waker = match *step {
                    Step::Event(number) if number < before.hardware.gpe[0].events() => "GPE0 event",
                    Step::Event(_) => "GPE1 event",
                    _ => word,
                };
                self.count(&format!("S{state}: woken by {waker}"));
                self.count_if(before.pin, &format!("woken by {waker}, the pin active"));
            }
            _ => match step {
                Step::Release | Step::Tick(_) => self.count(&format!("asleep: {word}")),
                Step::Alarm if before.enable & RTC != 0 => self.count("S4: alarm, enabled, without flag 7"),
                _ => self.count(&format!("asleep: {word}, not enabled")),
            },
        }
    }

    /// A write of a control block's high byte in S0.
    fn control(&mut self, before: &Machine, block: usize, written: Written, answer: u8, after: &Machine) {
        let slp_en = written.word & SLP_EN != 0;
        let has_b = before.hardware.control[B].present();
        let slp_typ = (written.word >> 10 & 7) as u8;
        if !slp_en {
            self.count_if(before.armed, if block == A { "arming: disarmed at A" } else { "arming: disarmed at B" });
        } else if block == A && has_b {
            self.count(if before.armed { "arming: SLP_EN at A while armed" } else { "arming: SLP_EN at A arms" });
        } else if block == B && !before.armed {
            self.count("arming: SLP_EN at B unarmed");
        } else if answer == 27 {
            let pair = if block == A { (slp_typ, 0) } else { (before.slp_typ[A], slp_typ) };
            let s0 = before.hardware.states[0].is_some_and(|(a, b)| a == pair.0 && (b == pair.1 || !has_b));
            self.count(if s0 { "completing: 27 by S0's pair" } else { "completing: 27 by another pair" });
        } else {
            self.completing(block, written, after);
        }
    }

    fn completing(&mut self, block: usize, written: Written, after: &Machine) {
        let [a, b] = after.slp_typ;
        let has_b = after.hardware.control[B].present();
        let names = |pair: &Option<(u8, u8)>| pair.is_some_and(|pair| pair.0 == a && (pair.1 == b || !has_b));
        let state = 1 + after.hardware.states[1..].iter().position(names).expect("a state is named");
        self.count(&format!("completing: S{state} at {}", ["A", "B"][block]));
        self.count_if(written.low && written.word & 0xFF != 0, "completing: with a low byte");
        let pending = after.status & after.enable;
        let gpe = after.gpe.map(|gpe| gpe.event());
        let buttons = pending & (PWRBTN | SLPBTN | RTC);
        if state == 5 {
            self.count_if(buttons != 0 || gpe[0] || gpe[1], "completing: S5, an enabled bit set");
            self.count_if(after.pin, "completing: S5, the pin active");
        } else if after.state == 0 {
            self.count(&format!("S{state}: woken at once"));
            self.count_if(after.pin, "completing: wakes at once, the pin active");
            match (buttons, gpe) {
                (PWRBTN, [false, false]) => self.count("completing: wakes at once by PWRBTN alone"),
                (SLPBTN, [false, false]) => self.count("completing: wakes at once by SLPBTN alone"),
                (RTC, [false, false]) => self.count("completing: wakes at once by RTC alone"),
                (0, [true, false]) => self.count("completing: wakes at once by GPE0 alone"),
                (0, [false, true]) => self.count("completing: wakes at once by GPE1 alone"),
                _ => {}
            }
        } else {
            let set = after.status & (PWRBTN | SLPBTN | RTC);
            self.count_if(set & !after.enable != 0, "completing: sleeps on, a bit set but not enabled");
            self.count_if(pending & 0x0021 != 0, "completing: sleeps on, TMR or GBL set and enabled");
            self.count_if(buttons == RTC, "completing: sleeps on in S4, RTC pending, without flag 7");
            let disabled = after.enable & PCIEXP_WAKE != 0;
            let bit_14 = after.status & PCIEXP_WAKE != 0;
            self.count_if(after.pin && !disabled, &format!("completing: sleeps on in S{state}, the pin active"));
            self.count_if(after.pin && disabled, "completing: sleeps on, the pin active, disabled");
            self.count_if(after.pin && bit_14, "completing: sleeps on, the pin active and bit 14 set");
        }
    }

    fn ticks(&mut self, before: &Machine, n: u32, turns: u32, after: &Machine) {
        self.count_if(n == 0, "tick 0");
        self.count_if(n == u32::MAX, "tick FFFFFFFF");
        let bits = before.hardware.counter_bits;
        let half = 1u64 << (bits - 1);
        let passed = (u64::from(before.counter) + u64::from(n)) / half - u64::from(before.counter) / half;
        self.count_if((1..=4).contains(&before.state) && passed > 0, "turns: none while asleep");
        self.count_if(before.state == 5 && passed > 0, "turns: none in S5");
        if before.state != 0 || n == 0 {
            return;
        }
        self.count_if(!before.hardware.timer.present(), "tick without a timer");
        self.count_if(!before.hardware.timer.present() && turns > 0, "turns: counted without a timer");
        self.count_if(bits == 24 && turns == 512, "turns: 512, with 24 bits");
        self.count_if(bits == 32 && turns == 2, "turns: 2, with 32 bits");
        self.count_if(after.state == 5 && turns > 0, "turns: some, and the override");
        self.count_if(after.state == 5 && u64::from(after.counter) % half == 0, "turns: by the tick of the override");
        self.count_if(after.state == 5 && passed > u64::from(turns), "turns: the override stops them");
        if after.state == 0 && before.hardware.fitted & TMR != 0 {
            let risen = u64::from(after.counter) & half != 0;
            if turns % 2 == 1 {
                self.count(&format!("{bits} bits: top bit {}", if risen { "rises" } else { "falls" }));
            } else if turns > 0 {
                self.count(&format!("{bits} bits: turns hide each other"));
            }
        }
        if before.down {
            self.count_if(after.state == 0 && after.hold == HOLD_LIMIT - 1, "hold: one tick short of 4 seconds");
            let reached = before.hold < HOLD_LIMIT && after.hold == HOLD_LIMIT;
            self.count_if(reached && after.state == 0, "hold: stops, no override fitted");
            self.count_if(after.state == 5, "hold: override");
            self.count_if(after.state == 5 && after.pin, "hold: override, the pin active");
            self.count_if(after.state == 5 && n > HOLD_LIMIT - before.hold, "hold: override with ticks left over");
        }
    }

    fn command(&mut self, before: &Machine) {
        let hardware = &before.hardware;
        if before.command == Some(hardware.acpi_enable) {
            let name = ["command: enable, SCI_EN clear, enables set", "command: enable, SCI_EN set, enables set"];
            self.count_if(before.enable & !PCIEXP_WAKE != 0, name[usize::from(before.sci_en)]);
            self.count_if(!before.sci_en && before.pin, "command: enable, SCI_EN clear, the pin active");
        } else if before.command == Some(hardware.acpi_disable) {
            self.count("command: disable");
        } else {
            self.count("command: another");
        }
    }

    /// What is seen over several steps.
    fn history(&mut self, seen: &mut History, before: &Machine, step: &Step, answer: u8, value: u32, after: &Machine) {
        let hardware = &before.hardware;
        if !before.release && after.release {
            let at_b = hardware.control_visible[B] & GBL_RLS != 0;
            self.count(if at_b { "release flag: raised at B" } else { "release flag: raised at A" });
        }
        if before.state == 0 && after.state == 5 {
            seen.overridden = matches!(step, Step::Tick(_));
        }
        if before.state == 5 && after.state == 0 {
            let rows = ["press leaves S5 entered by a write", "press leaves S5 entered by the override"];
            self.count(rows[usize::from(seen.overridden)]);
            self.count_if(before.pin, "press leaves S5, the pin active");
            let bit_14 = before.status & PCIEXP_WAKE != 0;
            self.count_if(before.pin && bit_14, "press leaves S5, the pin active and bit 14 set");
        }
        if (1..=4).contains(&before.state) && after.state == 0 && before.down && before.hold > 0 {
            seen.woken_down = *step != Step::Press;
        }
        if seen.woken_down && after.hold > before.hold {
            self.count("hold: grows after a wake that was no press");
            seen.woken_down = false;
        }
        if !after.down {
            seen.woken_down = false;
        }
        if gap_step(step) {
            self.count_if(before.armed && answer == 0, "arming: events while armed");
            seen.gap += 1;
            seen.alarm |= *step == Step::Alarm;
            seen.pin |= pin_step(step) && answer == 0;
            return;
        }
        let half = Half::of(before, step, value);
        match (&half, &seen.first) {
            (Some(second), Some(first)) if second.follows(first) => {
                if seen.gap > 0 {
                    let group = if first.event { "event" } else { "control" };
                    let access = if first.writes { "write" } else { "read" };
                    self.count(&format!("split: {group} {access}, gap"));
                    if seen.alarm && first.event && first.offset < 2 {
                        self.count(&format!("split: status {access}, an alarm in the gap"));
                    }
                }
                if seen.pin {
                    let status = first.event && first.offset < 2;
                    self.count_if(status && !first.writes, "split: status read, a pin step in the gap");
                    self.count_if(status && first.writes, "split: status write, a pin step in the gap");
                    self.count_if(!first.event && first.writes, "split: control write, a pin step in the gap");
                    self.count_if(first.at_bit_14, "split: bit 14 written at A, then a pin step");
                    self.count_if(second.at_bit_14, "split: a pin step, then bit 14 written at B");
                }
                let values = (first.offset, first.width, first.value, second.value);
                if !first.event || first.offset >= 2 {
                    seen.status_read = None;
                } else if first.writes {
                    let written_back = seen.status_read == Some(values);
                    self.count_if(written_back, "split: status written back");
                    let bit_14 = first.at_bit_14 || second.at_bit_14;
                    self.count_if(
                        written_back && bit_14 && after.pin && !seen.pin,
                        "split: bit 14 written back, the pin active",
                    );
                    seen.status_read = None;
                } else {
                    seen.status_read = Some(values);
                }
            }
            (Some(first), _) if first.block == A && first.event && first.writes => {}
            _ => seen.status_read = None,
        }
        seen.first = half;
        seen.gap = 0;
        seen.alarm = false;
        seen.pin = false;
    }
}

/// What each pin step meets in each state, and a one written to bit 14.
fn pin_rows() -> Vec<String> {
    let mut rows = Vec::new();
    for state in 0..=5 {
        for step in PIN_STEPS {
            rows.extend(DISABLES.map(|disabled| format!("S{state}: {step}, {disabled}")));
        }
    }
    // There it wakes.
    rows.retain(|row| !(1..=4).any(|state| *row == format!("S{state}: pin active, not disabled")));
    for place in PLACES {
        for step in PIN_STEPS {
            rows.extend([28, 30].map(|answer| format!("{place}: {step} refused, {answer}")));
            rows.push(format!("{place}: {step}, bit 14 set"));
        }
    }
    let others = WAKERS.iter().filter(|waker| !PIN_STEPS.contains(waker));
    rows.extend(others.map(|waker| format!("woken by {waker}, the pin active")));
    rows.extend((1..=4).map(|state| format!("completing: sleeps on in S{state}, the pin active")));
    for block in [A, B] {
        for (home, byte) in [(true, false), (true, true), (false, false), (false, true)] {
            let write = StatusWrite { block, home, byte, word: PCIEXP_WAKE };
            rows.extend([true, false].map(|pin| write.row(pin)));
        }
    }
    rows
}

/// The forms that an accepted value can have, a row each.
fn forms() -> Vec<String> {
    let mut forms = Vec::from(["1", "2"].map(|edition| format!("accepted: edition {edition}")));
    for name in FLAGS {
        forms.extend(["0", "1"].map(|value| format!("accepted: {name} {value}")));
    }
    for name in SLEEPS {
        forms.extend(["absent", "a pair"].map(|form| format!("accepted: {name} {form}")));
    }
    forms.extend(["none", "a byte"].map(|form| format!("accepted: COMMAND {form}")));
    forms.extend((0..=5).map(|state| format!("accepted: STATE {state}")));
    for block in [0, 1] {
        forms.extend((0..=8).map(|bytes| format!("accepted: GPE{block} of {bytes} bytes")));
    }
    forms
}

/// Those of `forms` that an accepted text has.
fn accepted_forms(text: &[u8]) -> Vec<String> {
    let edition = format!("accepted: edition {}", Saved::of(text).value("edition"));
    let saved = Saved::of(&newest(text));
    let mut forms = vec![edition];
    forms.extend(FLAGS.iter().chain(&["STATE"]).map(|name| format!("accepted: {name} {}", saved.value(name))));
    for name in SLEEPS {
        let form = if saved.get(name) == ABSENT { "absent" } else { "a pair" };
        forms.push(format!("accepted: {name} {form}"));
    }
    let form = if saved.get("COMMAND") == 0 { "none" } else { "a byte" };
    forms.push(format!("accepted: COMMAND {form}"));
    for block in [0, 1] {
        let digits = saved.value(&format!("GPE{block}_STS")).len();
        forms.push(format!("accepted: GPE{block} of {} bytes", digits / 2));
    }
    forms
}

#[derive(Default)]
struct History {
    /// S5 was entered by the override.
    overridden: bool,
    /// A wake other than a press found the button down.
    woken_down: bool,
    /// The last bus step at a PM1 block, and the gap since.
    first: Option<Half>,
    gap: u32,
    alarm: bool,
    pin: bool,
    /// Offset, width and both values of a split read of status, nothing but gaps since.
    status_read: Option<(u64, u32, u64, u64)>,
}

/// A bus step at a PM1 block.
struct Half {
    event: bool,
    block: usize,
    offset: u64,
    width: u32,
    writes: bool,
    /// What was read or written.
    value: u64,
    /// A one was written to bit 14 in its home, where it was set.
    at_bit_14: bool,
}

impl Half {
    fn of(before: &Machine, step: &Step, value: u32) -> Option<Half> {
        let hardware = &before.hardware;
        let at_bit_14 = before.status & PCIEXP_WAKE != 0
            && StatusWrite::of(before, step).is_some_and(|write| write.home && write.word & PCIEXP_WAKE != 0);
        let (port, width, writes, value) = match *step {
            Step::Read { port, width } => (port, width, false, value.into()),
            Step::Write { port, width, data } => (port, width, true, data),
            _ => return None,
        };
        for (event, blocks) in [(true, hardware.event), (false, hardware.control)] {
            for block in [A, B] {
                let offset = port.wrapping_sub(blocks[block].start.into());
                if offset < u64::from(blocks[block].length) {
                    return Some(Half { event, block, offset, width, writes, value, at_bit_14 });
                }
            }
        }
        None
    }

    fn follows(&self, first: &Half) -> bool {
        let same = (self.event, self.offset, self.width, self.writes)
            == (first.event, first.offset, first.width, first.writes);
        same && first.block == A && self.block == B
    }
}

fn pin_step(step: &Step) -> bool {
    matches!(step, Step::PinActive | Step::PinInactive)
}

/// A write in S0 that covers the high byte of a PM1 status register.
struct StatusWrite {
    block: usize,
    /// The block is bit 14's home.
    home: bool,
    byte: bool,
    word: u16,
}

impl StatusWrite {
    fn of(before: &Machine, step: &Step) -> Option<StatusWrite> {
        let Step::Write { port, width, data } = *step else {
            return None;
        };
        let hardware = &before.hardware;
        let block = [A, B].into_iter().find(|block| {
            let status = hardware.event[*block];
            status.present() && port & !1 == u64::from(status.start)
        })?;
        let home = hardware.visible[block] & PCIEXP_WAKE != 0;
        match (before.state, width, port & 1, data) {
            (0, 2, 0, 0..=0xFFFF) => Some(StatusWrite { block, home, byte: false, word: data as u16 }),
            (0, 1, 1, 0..=0xFF) => Some(StatusWrite { block, home, byte: true, word: (data as u16) << 8 }),
            _ => None,
        }
    }

    fn row(&self, pin: bool) -> String {
        let home = if self.home { "its home" } else { "away" };
        let by = if self.byte { "byte" } else { "word" };
        let pin = if pin { "active" } else { "inactive" };
        format!("bit 14 written at {}, {home}, by a {by}, the pin {pin}", ["A", "B"][self.block])
    }
}

fn word(step: &Step) -> &'static str {
    match step {
        Step::Read { .. } => "read",
        Step::Write { .. } => "write",
        Step::Press => "press",
        Step::Release => "release",
        Step::Sleep => "sleep",
        Step::Alarm => "alarm",
        Step::PinActive => "pin active",
        Step::PinInactive => "pin inactive",
        Step::Master => "master",
        Step::Unlock => "unlock",
        Step::Event(_) => "event",
        Step::Tick(_) => "tick",
        Step::Take => "take",
        Step::Drop => "drop",
    }
}

fn control_block(hardware: &Hardware, port: u64) -> Option<(usize, u64)> {
    [A, B].into_iter().find_map(|block| {
        let offset = port.wrapping_sub(hardware.control[block].start.into());
        (offset < u64::from(hardware.control[block].length)).then_some((block, offset))
    })
}

/// The word that a write puts in place, and whether it covers the low byte.
struct Written {
    word: u16,
    low: bool,
}

/// A write in S0 that covers a control high byte and is refused by no lower number than 27.
fn control_write(before: &Machine, step: &Step) -> Option<(usize, Written)> {
    let Step::Write { port, width, data } = *step else {
        return None;
    };
    let (block, offset) = control_block(&before.hardware, port)?;
    if before.state != 0 {
        return None;
    }
    match (width, offset, data) {
        (2, 0, 0..=0xFFFF) => Some((block, Written { word: data as u16, low: true })),
        (1, 1, 0..=0xFF) => Some((block, Written { word: (data as u16) << 8, low: false })),
        _ => None,
    }
}

/// The register of an accepted access.
fn register(hardware: &Hardware, port: u64, width: u32) -> String {
    let at = |block: model::Block| {
        let offset = port.wrapping_sub(block.start.into());
        (offset < u64::from(block.length)).then_some(offset)
    };
    let part = |offset: u64| match (width, offset % 2) {
        (2, _) => "word",
        (_, 0) => "low byte",
        _ => "high byte",
    };
    for (block, name) in [(A, "PM1a"), (B, "PM1b")] {
        if let Some(offset) = at(hardware.event[block]) {
            let half = if offset < 2 { "status" } else { "enable" };
            return format!("{name} {half} {}", part(offset));
        }
        if let Some(offset) = at(hardware.control[block]) {
            return format!("{name} control {}", part(offset));
        }
    }
    for (block, name) in [(0, "GPE0"), (1, "GPE1")] {
        if let Some(offset) = at(hardware.gpe[block]) {
            let half = if offset < u64::from(hardware.gpe[block].length / 2) { "status" } else { "enable" };
            return format!("{name} {half}");
        }
    }
    let name = if at(hardware.pm2).is_some() {
        "PM2"
    } else if at(hardware.timer).is_some() {
        "timer"
    } else {
        "SMI_CMD"
    };
    name.to_string()
}
