//! Random platforms: the FADT's fields and the settings, and the table's bytes.

use model::{Settings, A, B, CONTROLS, EVENTS};

use crate::random::Random;

#[derive(Clone)]
pub struct Platform {
    pub smi_cmd: u32,
    pub acpi_enable: u8,
    pub acpi_disable: u8,
    pub event: [u32; 2],
    pub control: [u32; 2],
    pub pm2: u32,
    pub timer: u32,
    pub gpe: [u32; 2],
    pub event_length: u8,
    pub control_length: u8,
    pub pm2_length: u8,
    pub timer_length: u8,
    pub gpe_length: [u8; 2],
    pub gpe1_base: u8,
    pub flags: u32,
    pub settings: Settings,
}

impl Platform {
    /// One that setting up accepts, mostly with a block or an event missing.
    pub fn any(random: &mut Random) -> Platform {
        let mut platform = Platform::full(random);
        if random.once_in(4) {
            platform.event[B] = 0;
        }
        if random.once_in(3) {
            platform.control[B] = 0;
        }
        if random.once_in(2) {
            (platform.pm2, platform.pm2_length) = (0, 0);
        }
        if random.once_in(5) {
            (platform.timer, platform.timer_length) = (0, 0);
        }
        for block in [0, 1] {
            if random.once_in(4) {
                (platform.gpe[block], platform.gpe_length[block]) = (0, 0);
            }
        }
        if random.once_in(4) {
            platform.smi_cmd = 0;
        }
        platform.lay_out(random);
        platform.flags = random.next() as u32 & !(1 << 20 | 1 << 4 | 1 << 5 | 1 << 6) | 1 << 14;
        for unfitted in [1 << 4, 1 << 5, 1 << 6, 1 << 14] {
            if random.once_in(8) {
                platform.flags ^= unfitted;
            }
        }
        platform.settle(random);
        for state in &mut platform.settings.states {
            if random.once_in(8) {
                *state = None;
            }
        }
        platform
    }

    /// Every block and event there.
    pub fn full(random: &mut Random) -> Platform {
        let acpi_enable = random.next() as u8;
        let mut platform = Platform {
            smi_cmd: 1,
            acpi_enable,
            acpi_disable: acpi_enable.wrapping_add(1 + random.below(255) as u8),
            event: [1; 2],
            control: [1; 2],
            pm2: 1,
            timer: 1,
            gpe: [1; 2],
            event_length: 4,
            control_length: 2,
            pm2_length: 1,
            timer_length: 4,
            gpe_length: [2 + 2 * random.below(8) as u8, 2 + 2 * random.below(8) as u8],
            gpe1_base: 0,
            flags: 1 << 14,
            settings: Settings {
                event_homes: 0,
                control_homes: 0,
                power_override: !random.once_in(4),
                states: [None; 6],
            },
        };
        platform.lay_out(random);
        platform.settle(random);
        platform
    }

    /// Gives every present block its ports: touching or not, in any order, from the lowest ports to the highest.
    fn lay_out(&mut self, random: &mut Random) {
        let gpe_length = self.gpe_length.map(u32::from);
        let mut blocks: Vec<(&mut u32, u32, u32)> = Vec::new();
        blocks.extend(self.event.iter_mut().map(|start| (start, 4, 4)));
        blocks.extend(self.control.iter_mut().map(|start| (start, 2, 2)));
        blocks.extend(self.gpe.iter_mut().zip(gpe_length).map(|(start, length)| (start, length, 1)));
        blocks.push((&mut self.timer, 4, 4));
        blocks.push((&mut self.pm2, 1, 1));
        blocks.push((&mut self.smi_cmd, 1, 1));
        blocks.retain(|(start, ..)| **start != 0);
        random.shuffle(&mut blocks);

        let mut end = 0;
        for (start, length, multiple) in &mut blocks {
            end += random.pick(&[0, 0, 0, 1, 2, 40]);
            **start = u32::next_multiple_of(end, *multiple);
            end = **start + *length;
        }
        let highest = (65_536 - end) / 4;
        let between = 1 + random.below(u64::from(highest)) as u32;
        let first = 4 * random.pick(&[1, highest, highest, between]);
        for (start, ..) in &mut blocks {
            **start += first;
        }
    }

    /// Gives every block of a full platform ports with room on both sides.
    pub fn spread(&mut self, random: &mut Random) {
        let mut places: Vec<u32> = (1..=9).map(|place| 0x40 * place).collect();
        random.shuffle(&mut places);
        self.event.copy_from_slice(&places[0..2]);
        self.control.copy_from_slice(&places[2..4]);
        self.gpe.copy_from_slice(&places[4..6]);
        (self.timer, self.pm2, self.smi_cmd) = (places[6], places[7], places[8]);
    }

    /// Numbers from short lists: any rule may fail, often several.
    pub fn narrow(random: &mut Random) -> Platform {
        let mut platform = Platform::any(random);
        let near = platform.event[A] & !0xF;
        for _ in 0..random.pick(&[1, 2, 2, 3, 5]) {
            let length = random.pick(&[0, 1, 2, 4, 4, 6, 8, 16, 17, 18]);
            let any = near + random.below(32) as u32;
            let start = random.pick(&[0, any, any, any & !1, any & !3, 65_532, 65_534, 65_535, 65_536]);
            let block = random.below(2) as usize;
            match random.below(14) {
                0 => platform.smi_cmd = start,
                1 => platform.event[block] = start,
                2 => platform.control[block] = start,
                3 => platform.pm2 = start,
                4 => platform.timer = start,
                5 | 6 => platform.gpe[block] = start,
                7 => platform.pm2_length = random.pick(&[0, 1, length]),
                8 => platform.timer_length = random.pick(&[0, 4, length]),
                9 => platform.gpe_length[block] = length,
                10 => platform.gpe1_base = random.pick(&[0, 8, 16, 32, 64, 128, 224, 248, 255]),
                11 => platform.acpi_enable = platform.acpi_disable,
                12 => {
                    let homes = random.next() as u16;
                    platform.settings.event_homes = random.pick(&[homes, homes & EVENTS, 0]);
                    platform.settings.control_homes = random.pick(&[0, 1, 4, 7, 8]);
                }
                _ => {
                    let pair = (random.below(9) as u8, random.below(9) as u8);
                    platform.settings.states[random.below(6) as usize] = Some(pair);
                }
            }
        }
        platform
    }

    /// GPE1's base, homes and sleep types for the blocks that are there.
    fn settle(&mut self, random: &mut Random) {
        let lowest = 4 * u32::from(self.gpe_length[0]);
        let highest = 256 - 4 * u32::from(self.gpe_length[1]);
        let between = lowest + random.below(u64::from(highest - lowest + 1)) as u32;
        self.gpe1_base = random.pick(&[lowest, highest, between]).min(255) as u8;

        self.settings.event_homes = if self.event[B] != 0 { random.next() as u16 & EVENTS } else { 0 };
        self.settings.control_homes = if self.control[B] != 0 { random.next() as u16 & CONTROLS } else { 0 };

        // Pairs apart by a, or, where B counts, by the pair.
        let mut pairs: Vec<(u8, u8)> = if self.control[B] != 0 {
            (0..64).map(|pair| (pair / 8, pair % 8)).collect()
        } else {
            (0..8).map(|a| (a, random.below(8) as u8)).collect()
        };
        random.shuffle(&mut pairs);
        if self.control[B] != 0 && random.once_in(2) {
            // Some that share their a, some their b.
            pairs.sort_by_key(|pair| pair.0 > 1);
        }
        for (state, pair) in self.settings.states.iter_mut().zip(pairs) {
            *state = Some(pair);
        }
    }

    /// The table's bytes: those that are not read are anything, the sum is right.
    pub fn table(&self, random: &mut Random) -> Vec<u8> {
        let (some, few) = (random.below(200) as usize, random.below(50) as usize);
        let length = 116 + random.pick(&[0, 0, 128, some]);
        let past = random.pick(&[0, 0, 1, few]);
        let mut table: Vec<u8> = (0..length + past).map(|_| random.next() as u8).collect();
        table[..4].copy_from_slice(b"FACP");
        table[4..8].copy_from_slice(&(length as u32).to_le_bytes());
        for (at, number) in [
            (48, self.smi_cmd),
            (56, self.event[A]),
            (60, self.event[B]),
            (64, self.control[A]),
            (68, self.control[B]),
            (72, self.pm2),
            (76, self.timer),
            (80, self.gpe[0]),
            (84, self.gpe[1]),
            (112, self.flags),
        ] {
            table[at..at + 4].copy_from_slice(&number.to_le_bytes());
        }
        table[52..54].copy_from_slice(&[self.acpi_enable, self.acpi_disable]);
        table[88..95].copy_from_slice(&[
            self.event_length,
            self.control_length,
            self.pm2_length,
            self.timer_length,
            self.gpe_length[0],
            self.gpe_length[1],
            self.gpe1_base,
        ]);
        let sum = table[..length].iter().fold(0u8, |sum, byte| sum.wrapping_add(*byte));
        table[9] = table[9].wrapping_sub(sum);
        table
    }
}
