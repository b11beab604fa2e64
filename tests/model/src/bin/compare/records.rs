//! The records of a saved text, changed as text; what makes of a legal one another legal one.

use model::{fitted, EVENTS, GBL, HOLD_LIMIT, PCIEXP_WAKE, PWRBTN, RTC, SLPBTN, TMR};

use crate::random::Random;

pub const ADDRESSES: [&str; 9] = [
    "SMI_CMD",
    "PM1a_EVT_BLK",
    "PM1b_EVT_BLK",
    "PM1a_CNT_BLK",
    "PM1b_CNT_BLK",
    "PM2_CNT_BLK",
    "PM_TMR_BLK",
    "GPE0_BLK",
    "GPE1_BLK",
];
pub const FLAGS: [&str; 5] = ["OVERRIDE", "BUTTON", "RELEASE", "ARMED", "WAKE_PIN"];
pub const SLEEPS: [&str; 6] = ["S0", "S1", "S2", "S3", "S4", "S5"];
pub const GPES: [&str; 4] = ["GPE0_STS", "GPE0_EN", "GPE1_STS", "GPE1_EN"];
pub const ABSENT: u64 = 0xFFFF;
pub const HOLD: u64 = HOLD_LIMIT as u64;

/// The bytes that a GPE record has by its length record.
pub fn bytes(length: u64) -> u64 {
    (length / 2).min(8)
}

/// A text of edition 2 in edition 1, which has no WAKE_PIN.
pub fn edition_1(text: &[u8]) -> Vec<u8> {
    let mut saved = Saved::of(text);
    saved.put("edition", "1");
    saved.remove("WAKE_PIN");
    saved.text()
}

/// What an accepted text is written again as: a text of edition 1 in edition 2, the pin at its power-on setting.
pub fn newest(text: &[u8]) -> Vec<u8> {
    let mut saved = Saved::of(text);
    if saved.value("edition") == "1" {
        saved.put("edition", "2");
        saved.insert_after("STATE", "WAKE_PIN", "0");
    }
    saved.text()
}

/// A text's records, in their order.
pub struct Saved(Vec<(String, String)>);

impl Saved {
    /// Of a text whose lines all have a tab.
    pub fn of(text: &[u8]) -> Saved {
        let text = String::from_utf8_lossy(text).into_owned();
        let record = |line: &str| {
            let (name, value) = line.split_once('\t').expect("a record");
            (name.to_string(), value.to_string())
        };
        Saved(text.lines().map(record).collect())
    }

    pub fn text(&self) -> Vec<u8> {
        self.0.iter().map(|(name, value)| format!("{name}\t{value}\n")).collect::<String>().into_bytes()
    }

    fn at(&self, name: &str) -> usize {
        self.0.iter().position(|record| record.0 == name).unwrap_or_else(|| panic!("no record {name}"))
    }

    pub fn value(&self, name: &str) -> &str {
        &self.0[self.at(name)].1
    }

    pub fn get(&self, name: &str) -> u64 {
        u64::from_str_radix(self.value(name), 16).expect("a number")
    }

    pub fn put(&mut self, name: &str, value: &str) {
        let at = self.at(name);
        self.0[at].1 = value.to_string();
    }

    pub fn remove(&mut self, name: &str) {
        let at = self.at(name);
        self.0.remove(at);
    }

    pub fn insert_after(&mut self, before: &str, name: &str, value: &str) {
        let at = self.at(before) + 1;
        self.0.insert(at, (name.to_string(), value.to_string()));
    }

    /// With as many digits as it has.
    pub fn set(&mut self, name: &str, number: u64) {
        let digits = self.value(name).len();
        self.put(name, &format!("{number:0digits$X}"));
    }

    /// Without its first digits.
    pub fn cut(&mut self, name: &str, digits: usize) {
        let value = self.value(name)[digits..].to_string();
        self.put(name, &value);
    }

    pub fn set_bits(&mut self, name: &str, bits: u64) {
        self.set(name, self.get(name) | bits);
    }

    pub fn clear_bits(&mut self, name: &str, bits: u64) {
        self.set(name, self.get(name) & !bits);
    }

    // Other legal texts.

    /// Every block and event there, with room on both sides of each block.
    pub fn full(&mut self, random: &mut Random) {
        for name in ADDRESSES {
            if self.get(name) == 0 {
                self.set(name, 1);
            }
        }
        self.set("PM2_CNT_LEN", 1);
        self.set("PM_TMR_LEN", 4);
        for block in [0, 1] {
            if self.get(&format!("GPE{block}_BLK_LEN")) == 0 {
                let length = 2 + 2 * random.below(8);
                self.set_gpe(block, length, length / 2, random);
            }
        }
        self.settle_base(random);
        if self.get("ACPI_ENABLE") == self.get("ACPI_DISABLE") {
            self.set("ACPI_DISABLE", self.get("ACPI_ENABLE") ^ 1);
        }
        self.clear_bits("FLAGS", 1 << 4 | 1 << 5 | 1 << 6);
        self.set_bits("FLAGS", 1 << 14);
        let mut places: Vec<u64> = (1..=9).map(|place| 0x40 * place).collect();
        random.shuffle(&mut places);
        for (name, place) in ADDRESSES.iter().zip(places) {
            self.set(name, place);
        }
    }

    /// Some GPE block of a full platform.
    pub fn any_gpe(&mut self, random: &mut Random) -> u64 {
        self.full(random);
        random.below(2)
    }

    /// A block's length record, and records of so many bytes.
    pub fn set_gpe(&mut self, block: u64, length: u64, bytes: u64, random: &mut Random) {
        self.set(&format!("GPE{block}_BLK_LEN"), length);
        for register in ["STS", "EN"] {
            let digits: String = (0..bytes).map(|_| format!("{:02X}", random.next() as u8)).collect();
            self.put(&format!("GPE{block}_{register}"), &digits);
        }
    }

    /// GPE1's events after GPE0's, and below 256.
    pub fn settle_base(&mut self, random: &mut Random) {
        let (lowest, highest) = (4 * self.get("GPE0_BLK_LEN"), 256 - 4 * self.get("GPE1_BLK_LEN"));
        if !(lowest..=highest).contains(&self.get("GPE1_BASE")) {
            self.set("GPE1_BASE", random.pick(&[lowest, highest]));
        }
    }

    pub fn without_gpe(&mut self, block: u64) {
        self.set(&format!("GPE{block}_BLK"), 0);
        self.set(&format!("GPE{block}_BLK_LEN"), 0);
        self.put(&format!("GPE{block}_STS"), "");
        self.put(&format!("GPE{block}_EN"), "");
    }

    pub fn without_pm2(&mut self) {
        self.set("PM2_CNT_BLK", 0);
        self.set("PM2_CNT_LEN", 0);
        self.set("PM2_CNT", 0);
    }

    pub fn without_timer(&mut self) {
        self.set("PM_TMR_BLK", 0);
        self.set("PM_TMR_LEN", 0);
        self.clear_cells(TMR);
    }

    pub fn without_smi_cmd(&mut self) {
        self.set("SMI_CMD", 0);
        self.put("COMMAND", "000");
        let home = if self.get("CONTROL_HOMES") & 1 == 0 { "PM1a_CNT" } else { "PM1b_CNT" };
        self.set_bits(home, 1);
    }

    /// All bits at A.
    pub fn without_event_b(&mut self) {
        self.set("PM1b_EVT_BLK", 0);
        self.set("EVENT_HOMES", 0);
        for register in ["STS", "EN"] {
            let (a, b) = (format!("PM1a_{register}"), format!("PM1b_{register}"));
            self.set_bits(&a, self.get(&b));
            self.set(&b, 0);
        }
    }

    /// The states that are there have an a of their own: S0 0 to S5 5.
    pub fn without_control_b(&mut self, random: &mut Random) {
        self.set("PM1b_CNT_BLK", 0);
        self.set("CONTROL_HOMES", 0);
        self.set_bits("PM1a_CNT", self.get("PM1b_CNT") & 3);
        self.set("PM1b_CNT", 0);
        self.set("ARMED", 0);
        for (a, name) in SLEEPS.iter().enumerate() {
            if self.get(name) != ABSENT {
                self.set(name, (a as u64) << 8 | random.below(8));
            }
        }
    }

    pub fn unfit(&mut self, bit: u16) {
        match bit {
            TMR => self.without_timer(),
            PCIEXP_WAKE => {
                self.clear_bits("FLAGS", 1 << 14);
                self.set("WAKE_PIN", 0);
            }
            PWRBTN => {
                self.set_bits("FLAGS", 1 << 4);
                self.set("BUTTON", 0);
            }
            SLPBTN => self.set_bits("FLAGS", 1 << 5),
            _ => self.set_bits("FLAGS", 1 << 6),
        }
        self.clear_cells(bit);
    }

    pub fn clear_cells(&mut self, bit: u16) {
        for name in ["PM1a_STS", "PM1b_STS", "PM1a_EN", "PM1b_EN"] {
            self.clear_bits(name, bit.into());
        }
    }

    /// A bit of an event that is not fitted is set, in its home.
    pub fn set_unfitted(&mut self, register: &str, random: &mut Random) {
        self.full(random);
        let bit = random.pick(&[PWRBTN, SLPBTN, RTC, PCIEXP_WAKE, TMR]);
        self.unfit(bit);
        self.set_bits(&format!("PM1{}_{register}", self.home(bit)), bit.into());
    }

    /// A fitted bit is set in the block that is not its home, alone or there too.
    pub fn set_away(&mut self, register: &str, random: &mut Random) {
        self.full(random);
        let bit = random.pick(&[TMR, GBL, PWRBTN, SLPBTN, RTC, PCIEXP_WAKE]);
        if random.once_in(2) {
            self.clear_cells(bit);
        }
        let away = if self.home(bit) == 'a' { 'b' } else { 'a' };
        self.set_bits(&format!("PM1{away}_{register}"), bit.into());
    }

    /// The machine in this state, S0 to S5, which is there.
    pub fn in_state(&mut self, state: u64, random: &mut Random) {
        self.set("STATE", state);
        if state != 0 {
            self.set("ARMED", 0);
        }
        if state != 5 && self.get("HOLD") == HOLD && self.get("OVERRIDE") == 1 {
            self.set("HOLD", HOLD - 1);
        }
        let name = SLEEPS[state as usize];
        if self.get(name) == ABSENT {
            // An a that no other state has.
            let taken: Vec<u64> = SLEEPS.iter().map(|name| self.get(name) >> 8).collect();
            let free: Vec<u64> = (0..8).filter(|a| !taken.contains(a)).collect();
            self.set(name, random.pick(&free) << 8 | random.below(8));
        }
    }

    // What a text says.

    pub fn home(&self, bit: u16) -> char {
        if self.get("EVENT_HOMES") & u64::from(bit) == 0 {
            'a'
        } else {
            'b'
        }
    }

    /// The fitted event bits of a block.
    pub fn visible(&self, block: char) -> u16 {
        let fitted = fitted(self.get("FLAGS") as u32, self.get("PM_TMR_BLK") != 0);
        (0..16).map(|bit| 1 << bit).filter(|bit| fitted & EVENTS & bit != 0 && self.home(*bit) == block).sum()
    }

    /// A block's address record, and its length.
    pub fn any_block(&self, random: &mut Random) -> (&'static str, u64) {
        let name = random.pick(&ADDRESSES);
        let length = match name {
            "SMI_CMD" | "PM2_CNT_BLK" => 1,
            "PM1a_CNT_BLK" | "PM1b_CNT_BLK" => 2,
            "GPE0_BLK" => self.get("GPE0_BLK_LEN"),
            "GPE1_BLK" => self.get("GPE1_BLK_LEN"),
            _ => 4,
        };
        (name, length)
    }

    /// A block that others can be moved to: its first port, and the port after its last.
    pub fn anchor(&self, random: &mut Random) -> (u64, u64) {
        loop {
            let (name, length) = self.any_block(random);
            if !["SMI_CMD", "PM2_CNT_BLK", "GPE0_BLK"].contains(&name) {
                return (self.get(name), self.get(name) + length);
            }
        }
    }

    // Other values.

    pub fn any_record(&self, random: &mut Random) -> String {
        self.0[1 + random.below(self.0.len() as u64 - 1) as usize].0.clone()
    }

    /// One character of a value is one of these.
    pub fn spoil(&mut self, random: &mut Random, with: &[&str]) {
        let name = loop {
            let name = self.any_record(random);
            if !self.value(&name).is_empty() {
                break name;
            }
        };
        let value = self.value(&name);
        let at = random.below(value.len() as u64) as usize;
        self.put(&name, &format!("{}{}{}", &value[..at], random.pick(with), &value[at + 1..]));
    }

    /// A value with letters, these in lower case.
    pub fn lower(&mut self, random: &mut Random) {
        let letters = |record: &&(String, String)| record.1.contains(|digit: char| digit.is_ascii_uppercase());
        let names: Vec<&String> = self.0.iter().filter(letters).map(|record| &record.0).collect();
        match names.is_empty() {
            true => self.put("STATE", "a"),
            false => {
                let name = random.pick(&names).clone();
                let value = self.value(&name).to_lowercase();
                self.put(&name, &value);
            }
        }
    }

    /// A record with a value of so many digits; no GPE record.
    pub fn of_digits(&self, random: &mut Random, digits: usize) -> String {
        loop {
            let name = self.any_record(random);
            if self.value(&name).len() == digits && !GPES.contains(&name.as_str()) {
                return name;
            }
        }
    }

    pub fn shorten(&mut self, random: &mut Random, digits: usize) {
        let name = self.of_digits(random, digits);
        let value = self.value(&name);
        let value = if random.once_in(2) { &value[1..] } else { &value[..digits - 1] }.to_string();
        self.put(&name, &value);
    }

    pub fn lengthen(&mut self, random: &mut Random, digits: usize) {
        let name = self.of_digits(random, digits);
        let value = self.value(&name);
        let value = if random.once_in(2) { format!("0{value}") } else { format!("{value}0") };
        self.put(&name, &value);
    }

    /// Another value of the same form for some record, mostly a near one.
    pub fn any_value(&mut self, random: &mut Random) {
        let name = self.any_record(random);
        let digits = self.value(&name).len();
        if FLAGS.contains(&name.as_str()) {
            self.set(&name, self.get(&name) ^ 1);
        } else if name == "COMMAND" {
            self.put("COMMAND", random.pick(&["000", "100", "1E1", "1FF"]));
        } else if digits > 0 {
            let most = u64::MAX >> (64 - 4 * digits);
            let now = self.get(&name);
            let near = [now ^ 1 << random.below(4 * digits as u64), now.wrapping_add(1), now.wrapping_sub(1), 0, most];
            let any = random.next();
            let value = random.pick(&[near[0], near[0], near[1], near[2], near[3], near[4], any, ABSENT]);
            self.set(&name, value & most);
        }
    }
}
