//! Random steps. The model runs beside, so that most steps do something: enables before events, the pair of a state
//! that there is, ticks up to the next turn.

use model::{Block, Machine, Step, A, B, HOLD_LIMIT, PCIEXP_WAKE, PWRBTN, RTC, SLPBTN};

use crate::random::Random;

/// The steps of a session on this machine, so many or a few more.
pub fn steps(random: &mut Random, machine: Machine, length: usize) -> Vec<Step> {
    let mut author = Author { random, machine, steps: Vec::new() };
    while author.steps.len() < length && !author.stuck() {
        match author.machine.state {
            0 => author.awake(),
            5 => author.off(),
            _ => author.asleep(),
        }
    }
    author.end();
    author.steps
}

struct Author<'a> {
    random: &'a mut Random,
    machine: Machine,
    steps: Vec<Step>,
}

impl Author<'_> {
    fn go(&mut self, step: Step) {
        self.steps.push(step);
        self.machine.step(&step);
    }

    fn read(&mut self, port: u64, width: u32) -> u32 {
        let step = Step::Read { port, width };
        self.steps.push(step);
        self.machine.step(&step).1
    }

    fn write(&mut self, port: u64, width: u32, data: u64) {
        self.go(Step::Write { port, width, data });
    }

    fn once_in(&mut self, times: u64) -> bool {
        self.random.once_in(times)
    }

    fn awake(&mut self) {
        match self.random.below(104) {
            0..=11 => self.any_event(),
            12..=17 => self.write_enables(),
            18..=22 => self.write_gpe(),
            23..=27 => self.write_status(),
            28..=32 => self.command(),
            33..=36 => self.write_control_low(),
            37..=47 => self.split_access(),
            48..=53 => self.write_back(),
            54..=66 => self.go_to_sleep(),
            67..=75 => self.ticks(),
            76..=78 => self.hold_the_button(),
            79..=82 => self.read_most(),
            83..=90 => self.refused(),
            91..=94 => self.any_access(),
            95 => self.write_pm2(),
            96..=97 => self.write_control_high(),
            98..=99 => self.firmware(),
            100..=101 => self.pin(),
            _ => self.clear_bit_14(),
        }
    }

    /// In S1 to S4: mostly what may wake.
    fn asleep(&mut self) {
        match self.random.below(24) {
            0..=1 => self.button(),
            2..=5 => self.go(Step::Sleep),
            6..=10 => self.go(Step::Alarm),
            11..=15 => self.general_event(),
            16..=18 => self.pin(),
            19 => self.ticks(),
            20 => self.any_access(),
            21 => self.firmware(),
            22 => self.go(Step::Master),
            _ => self.go(Step::Unlock),
        }
        if self.machine.state == 0 && self.once_in(2) {
            self.read_most();
        }
        if self.machine.state == 0 && self.machine.status & PCIEXP_WAKE != 0 && self.once_in(2) {
            self.clear_bit_14();
        }
    }

    /// In S5: only a press wakes.
    fn off(&mut self) {
        match self.random.below(9) {
            0..=3 => self.button(),
            4..=5 => self.gap_step(),
            6 => self.any_access(),
            7 => self.pin(),
            _ => self.firmware(),
        }
        if self.machine.state == 0 {
            self.read_most();
        }
    }

    /// What was kept or lost shows in a reading of everything.
    fn end(&mut self) {
        if self.machine.state != 0 {
            if self.machine.down {
                self.go(Step::Release);
            }
            self.go(Step::Press);
        }
        self.read_most();
        for block in [0, 1] {
            for port in ports(self.machine.hardware.gpe[block]) {
                self.read(port, 1);
            }
        }
        self.go(Step::Take);
        self.go(Step::Drop);
    }

    /// In S5 for a while, and without the button that leaves it.
    fn stuck(&self) -> bool {
        let quiet = self.steps.iter().rev().take_while(|step| !matches!(step, Step::Write { .. })).count();
        self.machine.state == 5 && self.machine.hardware.fitted & PWRBTN == 0 && quiet > 12
    }

    fn has_b(&self) -> bool {
        self.machine.hardware.control[B].present()
    }

    /// Port of PM1 event, of A or of B where it is.
    fn event_port(&mut self) -> u64 {
        let blocks = self.machine.hardware.event;
        let block = if blocks[B].present() && self.once_in(2) { B } else { A };
        blocks[block].start.into()
    }

    fn some_gpe(&mut self) -> Option<(usize, Block)> {
        let block = self.random.below(2) as usize;
        let blocks = self.machine.hardware.gpe;
        if blocks[block].present() {
            Some((block, blocks[block]))
        } else {
            blocks[1 - block].present().then_some((1 - block, blocks[1 - block]))
        }
    }

    fn some_word(&mut self) -> u64 {
        let any = self.random.next() & 0xFFFF;
        let bit = 1 << self.random.below(16);
        self.random.pick(&[0, 0xFFFF, 0xBFFF, any, any, bit])
    }

    // Events.

    fn any_event(&mut self) {
        match self.random.below(8) {
            0 => self.button(),
            1 => self.go(Step::Sleep),
            2 => self.go(Step::Alarm),
            3 => self.pin(),
            4 => self.go(Step::Master),
            5 => self.go(Step::Unlock),
            _ => self.general_event(),
        }
    }

    /// Press or release, mostly the one that is due.
    fn button(&mut self) {
        let due = if self.machine.down { Step::Release } else { Step::Press };
        let not_due = if self.machine.down { Step::Press } else { Step::Release };
        let step = if self.once_in(8) { not_due } else { due };
        self.go(step);
    }

    /// Pin active or pin inactive, mostly the one that is due.
    fn pin(&mut self) {
        let due = if self.machine.pin { Step::PinInactive } else { Step::PinActive };
        let not_due = if self.machine.pin { Step::PinActive } else { Step::PinInactive };
        let step = if self.once_in(8) { not_due } else { due };
        self.go(step);
    }

    fn general_event(&mut self) {
        let number = match self.some_gpe() {
            Some((block, gpe)) => {
                let base = self.machine.hardware.gpe_base[block];
                let enabled = u64::from_le_bytes(self.machine.gpe[block].enable);
                if enabled != 0 && self.once_in(2) {
                    base + enabled.trailing_zeros()
                } else {
                    base + self.random.below(gpe.events().into()) as u32
                }
            }
            None => self.random.below(256) as u32,
        };
        self.go(Step::Event(number));
    }

    /// Any step that may stand between the halves.
    fn gap_step(&mut self) {
        if self.once_in(5) {
            self.ticks();
        } else if self.once_in(8) {
            self.pin();
        } else {
            self.any_event();
        }
    }

    fn gap(&mut self) {
        for _ in 0..self.random.pick(&[0, 1, 1, 2, 3]) {
            self.gap_step();
        }
    }

    // Ticks.

    fn ticks(&mut self) {
        let n = self.some_ticks();
        self.go(Step::Tick(n));
    }

    fn some_ticks(&mut self) -> u32 {
        let half = 1u32 << (self.machine.hardware.counter_bits - 1);
        let to_turn = half - self.machine.counter % half;
        let to_override = HOLD_LIMIT - self.machine.hold;
        match self.random.below(16) {
            0 => 0,
            1 => 1,
            2 => self.random.below(4096) as u32,
            3 => 255 + self.random.below(3) as u32,
            4 => self.random.below(1 << 20) as u32,
            5 => self.random.next() as u32,
            6 => u32::MAX,
            7..=10 => self.random.pick(&[to_turn - 1, to_turn, to_turn, to_turn + 1]),
            11 => self.random.pick(&[half - 1, half, half + 1]),
            12 => self.random.pick(&[half.wrapping_mul(2).wrapping_sub(1), half.wrapping_mul(2)]),
            13 => half.saturating_mul(self.random.below(8) as u32),
            _ => to_override.saturating_add_signed(self.random.pick(&[-1, 0, 1, 2, 50_000])),
        }
    }

    /// Down for just under 4 seconds; then more, or not.
    fn hold_the_button(&mut self) {
        if !self.machine.down {
            if self.random.below(3) == 0 {
                self.turn_at_the_override();
            }
            self.go(Step::Press);
        }
        let left = HOLD_LIMIT - self.machine.hold;
        self.go(Step::Tick(left.saturating_sub(1)));
        match self.random.below(4) {
            0 => {
                self.go(Step::Release);
                self.go(Step::Press);
            }
            1 => self.go_to_sleep(),
            2 => self.write_control_high(),
            _ => {}
        }
        let n = self.random.pick(&[1, 1, 2, 4096, 1 << 24]);
        self.go(Step::Tick(n));
    }

    /// So many ticks that, held from now on, the tick that brings the override turns the top bit, or the one beside it.
    fn turn_at_the_override(&mut self) {
        let half = 1u32 << (self.machine.hardware.counter_bits - 1);
        let ahead = (self.machine.counter % half + HOLD_LIMIT % half) % half;
        let n = (half - ahead).saturating_add_signed(self.random.pick(&[-1, 0, 0, 1]));
        self.go(Step::Tick(n));
    }

    // Registers.

    fn write_event(&mut self, port: u64, word: u64) {
        match self.random.below(4) {
            0 => self.write(port, 1, word & 0xFF),
            1 => self.write(port + 1, 1, word >> 8),
            _ => self.write(port, 2, word),
        }
    }

    fn write_enables(&mut self) {
        for block in self.machine.hardware.event {
            if block.present() {
                let word = self.some_word();
                self.write_event(u64::from(block.start) + 2, word);
            }
        }
    }

    fn write_status(&mut self) {
        let port = self.event_port();
        let word = self.some_word();
        self.write_event(port, word);
    }

    /// A one is written to bit 14, at either block, the pin as it is; then it moves, or not.
    fn clear_bit_14(&mut self) {
        for _ in 0..self.random.pick(&[1, 2, 3]) {
            let port = self.event_port();
            let word = u64::from(PCIEXP_WAKE) | self.some_word();
            self.write_event(port, word);
            if self.once_in(2) {
                self.read(port, 2);
            }
            if self.once_in(2) {
                self.pin();
            }
        }
    }

    fn write_gpe(&mut self) {
        if let Some((_, gpe)) = self.some_gpe() {
            let port = u64::from(gpe.start) + self.random.below(gpe.length.into());
            let byte = self.some_word() & 0xFF;
            self.write(port, 1, byte);
        }
    }

    fn write_pm2(&mut self) {
        let pm2 = self.machine.hardware.pm2;
        if pm2.present() {
            let byte = self.some_word() & 0xFF;
            self.write(pm2.start.into(), 1, byte);
            self.read(pm2.start.into(), 1);
        }
    }

    fn control_port(&mut self) -> (usize, u64) {
        let block = if self.has_b() && self.once_in(2) { B } else { A };
        (block, self.machine.hardware.control[block].start.into())
    }

    fn write_control_low(&mut self) {
        let (_, port) = self.control_port();
        let byte = self.some_word() & 0xFF;
        self.write(port, 1, byte);
        if self.once_in(2) {
            self.read_controls();
        }
        if self.once_in(3) {
            self.go(Step::Drop);
        }
    }

    fn write_control_high(&mut self) {
        let (_, port) = self.control_port();
        let byte = self.random.below(256);
        self.write(port + 1, 1, byte & !0x20);
    }

    fn read_controls(&mut self) {
        for block in self.machine.hardware.control {
            if block.present() {
                self.read(block.start.into(), 2);
            }
        }
    }

    fn command(&mut self) {
        let hardware = &self.machine.hardware;
        let (port, enable, disable) = (hardware.smi_cmd.start, hardware.acpi_enable, hardware.acpi_disable);
        if port != 0 {
            let other = self.random.next() as u8;
            let byte = self.random.pick(&[enable, enable, enable, disable, disable, other]);
            self.write(port.into(), 1, byte.into());
            if self.once_in(6) {
                self.read(port.into(), 1);
            }
        }
        if !self.once_in(4) {
            self.go(Step::Take);
        }
        if self.once_in(3) {
            self.write_enables();
        }
    }

    fn firmware(&mut self) {
        let step = self.random.pick(&[Step::Take, Step::Drop]);
        self.go(step);
    }

    /// PM1, timer, PM2 and some GPE bytes.
    fn read_most(&mut self) {
        let hardware = self.machine.hardware.clone();
        for block in hardware.event {
            if block.present() {
                self.read(block.start.into(), 2);
                self.read(u64::from(block.start) + 2, 2);
            }
        }
        self.read_controls();
        if hardware.timer.present() {
            self.read(hardware.timer.start.into(), 4);
        }
        if hardware.pm2.present() {
            self.read(hardware.pm2.start.into(), 1);
        }
        for block in hardware.gpe {
            if block.present() {
                let port = u64::from(block.start) + self.random.below(block.length.into());
                self.read(port, 1);
            }
        }
    }

    fn blocks(&self) -> Vec<Block> {
        let hardware = &self.machine.hardware;
        let mut blocks = vec![hardware.pm2, hardware.timer, hardware.smi_cmd];
        blocks.extend(hardware.event);
        blocks.extend(hardware.control);
        blocks.extend(hardware.gpe);
        blocks.retain(|block| block.present());
        blocks
    }

    /// At any port of a block, of any width.
    fn any_access(&mut self) {
        let blocks = self.blocks();
        let block = self.random.pick(&blocks);
        let port = u64::from(block.start) + self.random.below(block.length.into());
        let width = self.random.pick(&[1, 1, 1, 2, 2, 4]);
        if self.once_in(2) {
            self.read(port, width);
        } else {
            // Without SLP_EN: going to sleep is done on purpose.
            let data = self.random.next() & ((1 << (8 * width)) - 1) & !0x2020;
            self.write(port, width, data);
        }
    }

    // Split accesses.

    /// A PM1 group with a B block: both starts, and whether it is the event group.
    fn split_group(&mut self) -> Option<(u64, u64, bool)> {
        let hardware = &self.machine.hardware;
        let mut groups = vec![(hardware.event, true), (hardware.event, true), (hardware.control, false)];
        groups.retain(|(blocks, _)| blocks[B].present());
        if groups.is_empty() {
            return None;
        }
        let (blocks, event) = self.random.pick(&groups);
        Some((blocks[A].start.into(), blocks[B].start.into(), event))
    }

    fn split_access(&mut self) {
        let Some((a, b, event)) = self.split_group() else {
            return;
        };
        let (offset, width) = if event {
            self.random.pick(&[(0, 1), (1, 1), (2, 1), (3, 1), (0, 2), (0, 2), (2, 2)])
        } else {
            self.random.pick(&[(0, 1), (1, 1), (0, 2)])
        };
        let reads = self.once_in(2);
        for (half, start) in [a, b].into_iter().enumerate() {
            if half == 1 {
                self.gap();
            }
            if reads {
                self.read(start + offset, width);
            } else {
                let sleeps = self.once_in(8);
                let mut data = self.some_word() >> (8 * (2 - width));
                if !event && !sleeps {
                    data &= !0x2020;
                }
                self.write(start + offset, width, data);
            }
        }
    }

    /// Reads the status pair, and writes back what it read; events come between.
    fn write_back(&mut self) {
        let [a, b] = self.machine.hardware.event.map(|block| u64::from(block.start));
        if b == 0 {
            return;
        }
        let (offset, width) = self.random.pick(&[(0, 1), (1, 1), (0, 2), (0, 2)]);
        let from_a = self.read(a + offset, width);
        self.gap();
        let from_b = self.read(b + offset, width);
        self.gap();
        self.write(a + offset, width, from_a.into());
        self.gap();
        self.write(b + offset, width, from_b.into());
        self.gap();
        self.read(a, 2);
        self.read(b, 2);
    }

    // Sleep.

    fn go_to_sleep(&mut self) {
        // Without the button there may be no way back.
        if self.machine.hardware.fitted & PWRBTN == 0 && !self.once_in(4) {
            return;
        }
        match self.random.below(6) {
            0 => {}
            1..=2 => self.quiet(),
            3 => {
                self.quiet();
                self.write_all_enables(0xBFFF);
            }
            4 => {
                self.quiet();
                let word = self.some_word();
                self.write_all_enables(word);
            }
            _ => self.one_pending(),
        }
        let pair = self.some_pair();
        self.write_pair(pair);
    }

    /// Clears every status.
    fn quiet(&mut self) {
        for block in self.machine.hardware.event {
            if block.present() {
                self.write(block.start.into(), 2, 0xFFFF);
            }
        }
        for block in [0, 1] {
            let half = self.machine.hardware.gpe[block].length as usize / 2;
            for port in ports(self.machine.hardware.gpe[block]).take(half) {
                let byte = (port - u64::from(self.machine.hardware.gpe[block].start)) as usize;
                if self.machine.gpe[block].status[byte] != 0 {
                    self.write(port, 1, 0xFF);
                }
            }
        }
    }

    fn write_all_enables(&mut self, word: u64) {
        for block in self.machine.hardware.event {
            if block.present() {
                self.write(u64::from(block.start) + 2, 2, word);
            }
        }
        if let Some((_, gpe)) = self.some_gpe() {
            let half = u64::from(gpe.length / 2);
            let port = u64::from(gpe.start) + half + self.random.below(half);
            self.write(port, 1, word & 0xFF);
        }
    }

    /// Just one bit that wakes, or nearly: set, and mostly enabled.
    fn one_pending(&mut self) {
        self.quiet();
        if let (true, Some((block, gpe))) = (self.once_in(3), self.some_gpe()) {
            self.write_all_enables(0);
            let number = self.random.below(gpe.events().into()) as u32;
            let half = u64::from(gpe.length / 2);
            let enabled = if self.once_in(4) { 0 } else { 1 << (number % 8) };
            self.write(u64::from(gpe.start) + half + u64::from(number / 8), 1, enabled);
            self.go(Step::Event(self.machine.hardware.gpe_base[block] + number));
            return;
        }
        let (bit, step) = self.random.pick(&[
            (PWRBTN, Step::Press),
            (SLPBTN, Step::Sleep),
            (RTC, Step::Alarm),
            (RTC, Step::Alarm),
            (PCIEXP_WAKE, Step::Unlock),
            (PCIEXP_WAKE, Step::PinActive),
        ]);
        let enabled = if self.once_in(4) { 0 } else { bit };
        self.write_all_enables(enabled.into());
        if step == Step::Press && self.machine.down {
            self.go(Step::Release);
        }
        self.go(step);
    }

    /// The pair of a state that there is; now and then S0's, or any.
    fn some_pair(&mut self) -> (u8, u8) {
        let any = (self.random.below(8) as u8, self.random.below(8) as u8);
        let states = self.machine.hardware.states;
        match self.random.below(12) {
            0 => any,
            1 => states[0].unwrap_or(any),
            2 => {
                // One half right.
                let (a, b) = self.random.pick(&states[1..]).unwrap_or(any);
                self.random.pick(&[(a, any.1), (any.0, b)])
            }
            _ => self.random.pick(&[1, 2, 3, 4, 4, 5].map(|state| states[state])).unwrap_or(any),
        }
    }

    fn write_pair(&mut self, (a, b): (u8, u8)) {
        self.write_slp(A, a, true);
        if !self.has_b() {
            return;
        }
        match self.random.below(12) {
            0 => {
                let block = self.random.pick(&[A, B]);
                self.write_slp(block, if block == A { a } else { b }, false);
            }
            1 => self.write_slp(A, a, true),
            2 => self.write_control_low(),
            3 => self.gap(),
            4 => self.write_slp(B, b ^ 1, true),
            5 => self.refused(),
            _ => {}
        }
        self.write_slp(B, b, true);
        if self.machine.state == 0 && self.once_in(6) {
            // SLP_EN at B again: nothing is armed.
            self.write_slp(B, b, true);
        }
    }

    /// The high byte alone, or with a low byte; bits that mean nothing are anything.
    fn write_slp(&mut self, block: usize, slp_typ: u8, slp_en: bool) {
        let any = if self.once_in(2) { self.random.next() & 0xC3FF } else { 0 };
        let word = any | u64::from(slp_typ) << 10 | u64::from(slp_en) << 13;
        let port = u64::from(self.machine.hardware.control[block].start);
        if self.once_in(3) {
            self.write(port + 1, 1, word >> 8);
        } else {
            self.write(port, 2, word);
        }
    }

    // Refusals.

    fn refused(&mut self) {
        let blocks = self.blocks();
        let block = self.random.pick(&blocks);
        let (start, length) = (u64::from(block.start), u64::from(block.length));
        let inside = start + self.random.below(length);
        let outside = self.random.pick(&[
            start - 1,
            start + length,
            0,
            65_535,
            65_536,
            inside + 65_536,
            inside + (1 << 32),
            u64::MAX,
        ]);
        let port = self.random.pick(&[inside, inside, outside]);
        match self.random.below(9) {
            0 => {
                let width = self.random.pick(&[0, 3, 5, 8, 16, 1 << 31, u32::MAX]);
                let data = self.some_word();
                self.read_or_write(port, width, data);
            }
            1 => {
                let width = self.random.pick(&[1, 2, 4]);
                let data = self.random.pick(&[1 << (8 * width), u64::MAX, 1 << 63, (1 << (8 * width)) | 1]);
                self.write(port, width, data);
            }
            2 => {
                let width = self.random.pick(&[1, 2, 4]);
                let data = self.random.below(256);
                self.read_or_write(outside, width, data);
            }
            3 => {
                let width = self.random.pick(&[2, 4]);
                let data = self.random.below(256);
                self.read_or_write(port, width, data);
            }
            4 if self.machine.hardware.timer.present() => {
                let width = self.random.pick(&[1, 2, 4, 4, 4]);
                let offset = self.random.pick(&[0, 0, 0, 1, 2, 3]);
                let data = self.random.below(256);
                self.write(u64::from(self.machine.hardware.timer.start) + offset, width, data);
            }
            5 => {
                let hardware = &self.machine.hardware;
                let [first, second] = [0, 1].map(|i| hardware.gpe_base[i] + hardware.gpe[i].events());
                let number = self.random.pick(&[first, second, second.saturating_sub(1), 256, u32::MAX, 1 << 16]);
                self.go(Step::Event(number));
            }
            6 => {
                let step = if self.machine.down { Step::Press } else { Step::Release };
                self.go(step);
            }
            7 => {
                let step = if self.machine.pin { Step::PinActive } else { Step::PinInactive };
                self.go(step);
            }
            _ => self.go(Step::Take),
        }
    }

    fn read_or_write(&mut self, port: u64, width: u32, data: u64) {
        if self.once_in(2) {
            self.read(port, width);
        } else {
            self.write(port, width, data & !0x2020);
        }
    }
}

fn ports(block: Block) -> impl Iterator<Item = u64> {
    let start = u64::from(block.start);
    start..start + u64::from(block.length)
}
