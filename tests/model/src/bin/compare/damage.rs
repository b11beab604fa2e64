//! Tables that setting up refuses and scripts that do not read, a row for each kind, with their neighbours that pass.

use model::{A, B};

use crate::platform::Platform;
use crate::random::Random;
use crate::text::join;

/// A kind of table: done to a full platform's fields, or to the bytes; and setting up's answer.
pub struct Table {
    pub answer: u8,
    pub name: &'static str,
    pub platform: fn(&mut Platform, &mut Random),
    pub bytes: fn(&mut Vec<u8>, &mut Random),
}

const fn fields(answer: u8, name: &'static str, platform: fn(&mut Platform, &mut Random)) -> Table {
    Table { answer, name, platform, bytes: |_, _| {} }
}

const fn bytes(answer: u8, name: &'static str, bytes: fn(&mut Vec<u8>, &mut Random)) -> Table {
    Table { answer, name, platform: |_, _| {}, bytes }
}

pub const TABLES: &[Table] = &[
    bytes(1, "115 bytes", |t, _| t.truncate(115)),
    bytes(1, "fewer bytes", |t, r| t.truncate(r.below(116) as usize)),
    bytes(2, "another signature", |t, r| t[r.below(4) as usize] ^= 1 << r.below(8)),
    bytes(3, "length 115", |t, _| set_length(t, 115)),
    bytes(3, "length above the bytes lent", |t, r| {
        let lent = t.len() as u32;
        set_length(t, r.pick(&[lent + 1, lent + 256, 65_536 + 116, 1 << 31 | 116, u32::MAX]));
    }),
    bytes(0, "length of all bytes lent", |t, _| {
        let lent = t.len() as u32;
        set_length(t, lent);
    }),
    bytes(4, "another sum", |t, r| {
        // An unread byte, so that nothing else is wrong.
        t[r.pick(&[10, 54, 95, 100, 115])] ^= 1 << r.below(8);
    }),
    bytes(0, "another byte past the length", |t, _| t.push(1)),
    bytes(0, "65,536 bytes and more", |t, r| t.resize(65_536 + r.below(3) as usize, 0)),
    bytes(0, "length 65,536", |t, r| {
        t.resize(65_536 + r.below(2) as usize, 1);
        set_length(t, 65_536);
    }),
    bytes(3, "length 65,537", |t, _| {
        t.resize(65_537, 1);
        set_length(t, 65_537);
    }),
    fields(5, "hardware-reduced", |p, _| p.flags |= 1 << 20),
    fields(0, "every other flag", |p, _| p.flags = !(1 << 20)),
    fields(6, "PM1 event length", |p, r| p.event_length = r.pick(&[0, 2, 3, 5, 8])),
    fields(6, "PM1 control length", |p, r| p.control_length = r.pick(&[0, 1, 3, 4])),
    fields(6, "PM2 length", |p, r| p.pm2_length = r.pick(&[0, 2])),
    fields(6, "timer length", |p, r| p.timer_length = r.pick(&[0, 3, 5])),
    fields(6, "GPE length", |p, r| p.gpe_length[r.below(2) as usize] = r.pick(&[0, 1, 3, 15, 17, 18, 255])),
    fields(6, "PM2 address zero", |p, _| p.pm2 = 0),
    fields(6, "timer address zero", |p, _| p.timer = 0),
    fields(6, "GPE address zero", |p, r| p.gpe[r.below(2) as usize] = 0),
    fields(6, "PM1a absent and a wrong length", |p, _| (p.event[A], p.event_length) = (0, 8)),
    fields(7, "PM1a event absent", |p, _| p.event[A] = 0),
    fields(7, "PM1a control absent", |p, _| p.control[A] = 0),
    fields(7, "PM1 event misaligned", |p, r| p.event[r.below(2) as usize] += 1 + r.below(3) as u32),
    fields(7, "PM1 control misaligned", |p, r| p.control[r.below(2) as usize] += 1),
    fields(7, "timer misaligned", |p, r| p.timer += 1 + r.below(3) as u32),
    fields(7, "PM1 past port 65,535", |p, r| {
        let port = r.pick(&[65_536, 1 << 31, u32::MAX - 3]);
        if r.once_in(2) {
            p.event[B] = port;
        } else {
            p.control[B] = port;
        }
    }),
    fields(7, "timer past port 65,535", |p, r| p.timer = r.pick(&[65_536, u32::MAX - 3])),
    fields(7, "PM2 past port 65,535", |p, r| p.pm2 = r.pick(&[65_536, u32::MAX])),
    fields(7, "SMI_CMD past port 65,535", |p, r| p.smi_cmd = r.pick(&[65_536, u32::MAX])),
    fields(7, "GPE past port 65,535", |p, r| {
        let block = r.below(2) as usize;
        let length = u32::from(p.gpe_length[block]);
        p.gpe[block] = r.pick(&[65_537 - length, 65_535, 65_536, u32::MAX, u32::MAX - length + 1]);
    }),
    fields(0, "GPE up to port 65,535", |p, _| p.gpe[0] = 65_536 - u32::from(p.gpe_length[0])),
    fields(0, "SMI_CMD 65,535", |p, _| p.smi_cmd = 65_535),
    fields(0, "PM1 and timer up to port 65,535", |p, r| match r.below(3) {
        0 => p.event[B] = 65_532,
        1 => p.control[B] = 65_534,
        _ => p.timer = 65_532,
    }),
    fields(8, "overlap by one port", |p, r| {
        let (start, end) = anchor(p, r);
        let length = u32::from(p.gpe_length[0]);
        p.gpe[0] = r.pick(&[end - 1, start - length + 1]);
    }),
    fields(8, "SMI_CMD or PM2 in a block", |p, r| {
        let (start, end) = anchor(p, r);
        let port = r.pick(&[start, end - 1]);
        if r.once_in(2) {
            p.smi_cmd = port;
        } else {
            p.pm2 = port;
        }
    }),
    fields(8, "a block twice", |p, r| match r.below(3) {
        0 => p.event[B] = p.event[A],
        1 => p.control[B] = p.control[A],
        _ => (p.gpe[1], p.gpe_length[1], p.gpe1_base) = (p.gpe[0], p.gpe_length[0], 128),
    }),
    fields(0, "touching", |p, r| {
        let (start, end) = anchor(p, r);
        let length = u32::from(p.gpe_length[0]);
        p.gpe[0] = r.pick(&[end, start - length]);
    }),
    fields(9, "GPE1 base below GPE0's count", |p, r| {
        let count = 4 * p.gpe_length[0];
        p.gpe1_base = r.pick(&[count - 1, 0]);
    }),
    fields(9, "GPE1 past 256", |p, _| p.gpe1_base = (257 - 4 * u32::from(p.gpe_length[1])) as u8),
    fields(0, "GPE1 base at GPE0's count", |p, _| p.gpe1_base = 4 * p.gpe_length[0]),
    fields(0, "GPE1 up to 256", |p, _| p.gpe1_base = (256 - 4 * u32::from(p.gpe_length[1])) as u8),
    fields(0, "GPE1 base 0 without GPE0", |p, _| (p.gpe[0], p.gpe_length[0], p.gpe1_base) = (0, 0, 0)),
    fields(0, "any base without GPE1", |p, r| {
        (p.gpe[1], p.gpe_length[1], p.gpe1_base) = (0, 0, r.pick(&[0, 255]));
    }),
    fields(10, "ACPI_ENABLE equals ACPI_DISABLE", |p, _| p.acpi_disable = p.acpi_enable),
    fields(0, "they are equal without SMI_CMD", |p, _| (p.smi_cmd, p.acpi_disable) = (0, p.acpi_enable)),
    fields(11, "an event home outside C731", |p, r| {
        p.settings.event_homes |= 1 << r.pick(&[1, 2, 3, 6, 7, 11, 12, 13]);
    }),
    fields(11, "a control home outside 0007", |p, r| p.settings.control_homes |= 1 << r.pick(&[3, 10, 13, 15])),
    fields(11, "an event home without B", |p, r| {
        (p.event[B], p.settings.event_homes) = (0, 1 << r.pick(&[0, 4, 15]));
    }),
    fields(11, "a control home without B", |p, r| {
        (p.control[B], p.settings.control_homes) = (0, 1 << r.below(3));
        p.settings.states = [None; 6];
    }),
    fields(0, "all homes B", |p, _| (p.settings.event_homes, p.settings.control_homes) = (0xC731, 7)),
    fields(12, "a above 7", |p, r| p.settings.states[r.below(6) as usize] = Some((r.pick(&[8, 15]), 0))),
    fields(12, "b above 7", |p, r| p.settings.states[r.below(6) as usize] = Some((0, r.pick(&[8, 15])))),
    fields(12, "b above 7 without B", |p, r| {
        without_b(p);
        p.settings.states = [None; 6];
        p.settings.states[r.below(6) as usize] = Some((0, 8));
    }),
    fields(12, "a pair twice", |p, r| {
        let (one, other) = r.pick(&[(0, 1), (0, 5), (2, 3), (4, 5)]);
        p.settings.states[one] = p.settings.states[other];
    }),
    fields(12, "an a twice without B", |p, r| {
        without_b(p);
        p.settings.states = [None; 6];
        let (one, other) = r.pick(&[(0, 1), (0, 5), (2, 3), (4, 5)]);
        (p.settings.states[one], p.settings.states[other]) = (Some((3, 1)), Some((3, 2)));
    }),
    fields(0, "an a twice with B", |p, _| {
        p.settings.states = [0, 1, 2, 3, 4, 5].map(|b| Some((7, b)));
    }),
    fields(0, "a b twice", |p, _| p.settings.states = [0, 1, 2, 3, 4, 5].map(|a| Some((a, 7)))),
    fields(0, "no state", |p, _| p.settings.states = [None; 6]),
];

fn set_length(table: &mut [u8], length: u32) {
    table[4..8].copy_from_slice(&length.to_le_bytes());
    let covered = table.len().min(length as usize);
    let sum = table[..covered].iter().fold(0u8, |sum, byte| sum.wrapping_add(*byte));
    table[9] = table[9].wrapping_sub(sum);
}

fn without_b(platform: &mut Platform) {
    (platform.control[B], platform.settings.control_homes) = (0, 0);
}

/// A block that GPE0 can be moved to: its first port, and the port after its last.
fn anchor(platform: &Platform, random: &mut Random) -> (u32, u32) {
    let (start, length) = random.pick(&[
        (platform.event[A], 4),
        (platform.event[B], 4),
        (platform.control[A], 2),
        (platform.control[B], 2),
        (platform.timer, 4),
        (platform.gpe[1], u32::from(platform.gpe_length[1])),
    ]);
    (start, start + length)
}

/// A kind of script: what is done to the lines of one that reads; and whether it reads still.
pub struct Script {
    pub name: &'static str,
    pub reads: bool,
    how: How,
}

enum How {
    /// One of these lines more, at any place after the platform line.
    Line(&'static [&'static [u8]]),
    /// A field of the platform line, counted from 0, is one of these.
    Field(&'static [usize], &'static [&'static str]),
    /// Anything else.
    Whole(fn(Vec<Vec<u8>>, &mut Random) -> Vec<u8>),
}

impl Script {
    pub fn apply(&self, mut lines: Vec<Vec<u8>>, random: &mut Random) -> Vec<u8> {
        match self.how {
            How::Line(new) => {
                let at = 1 + random.below(lines.len() as u64) as usize;
                lines.insert(at, random.pick(new).to_vec());
            }
            How::Field(which, new) => {
                let (at, field) = (random.pick(which), random.pick(new).as_bytes());
                let mut fields: Vec<&[u8]> = lines[0].split(|byte| *byte == b'\t').collect();
                fields[at] = field;
                lines[0] = fields.join(&b'\t');
            }
            How::Whole(how) => return how(lines, random),
        }
        join(&lines)
    }
}

const fn bad_line(name: &'static str, lines: &'static [&'static [u8]]) -> Script {
    Script { name, reads: false, how: How::Line(lines) }
}

const fn good_line(name: &'static str, lines: &'static [&'static [u8]]) -> Script {
    Script { name, reads: true, how: How::Line(lines) }
}

const fn bad_field(name: &'static str, which: &'static [usize], fields: &'static [&'static str]) -> Script {
    Script { name, reads: false, how: How::Field(which, fields) }
}

const fn whole(name: &'static str, reads: bool, how: fn(Vec<Vec<u8>>, &mut Random) -> Vec<u8>) -> Script {
    Script { name, reads, how: How::Whole(how) }
}

pub const SCRIPTS: &[Script] = &[
    bad_line("an empty line", &[b""]),
    bad_line("a space for a tab", &[b"tick 1", b"r 400\t2", b"r\t400 2", b"event 0"]),
    bad_line("a doubled tab", &[b"tick\t\t1", b"r\t\t400\t2", b"w\t400\t2\t\t1"]),
    bad_line("a tab at the end", &[b"press\t", b"tick\t1\t", b"r\t400\t2\t"]),
    bad_line("a tab or space before", &[b"\tpress", b" press", b" r\t400\t2"]),
    bad_line("a space at the end", &[b"press ", b"tick\t1 ", b"r\t400\t2 "]),
    bad_line("CR", &[b"press\r", b"tick\t1\r", b"\r", b"r\t400\t2\r"]),
    bad_line("17 digits", &[b"tick\t00000000000000001", b"r\t00000000000000400\t2", b"w\t400\t2\t10000000000000000"]),
    bad_line(
        "no hex digit",
        &[b"tick\tG", b"tick\tg", b"r\t4@0\t2", b"w\t400\t2\t:", b"event\t/", b"event\t`", b"tick\t1_0"],
    ),
    bad_line("a prefix", &[b"tick\t0x1", b"r\t$400\t2", b"tick\t1h", b"tick\t#1"]),
    bad_line("a sign", &[b"tick\t-1", b"tick\t+1", b"event\t-0"]),
    bad_line("an empty field", &[b"tick\t", b"event\t", b"r\t\t2", b"r\t400\t", b"w\t400\t2\t"]),
    bad_line("a missing field", &[b"r", b"r\t400", b"w", b"w\t400", b"w\t400\t2", b"tick", b"event"]),
    bad_line(
        "a further field",
        &[b"press\t1", b"tick\t1\t1", b"event\t0\t0", b"r\t400\t2\t0", b"w\t400\t2\t0\t0", b"take\t0"],
    ),
    bad_line("a width of 33 bits", &[b"r\t400\t100000000", b"w\t400\t100000002\t0", b"r\t400\tFFFFFFFFFFFFFFFF"]),
    bad_line("an event or ticks of 33 bits", &[b"tick\t100000000", b"event\t100000000", b"tick\tFFFFFFFFFFFFFFFF"]),
    bad_line(
        "no such word",
        &[b"nap", b"x", b"presse", b"pres", b"wake", b"wake\t1", b"platform", b"read\t400\t2", b"ticks\t1", b"pins\t1"],
    ),
    bad_line(
        "a pin that is none",
        &[
            b"pin",
            b"pin\t",
            b"pin\t2",
            b"pin\t00",
            b"pin\t01",
            b"pin\t10",
            b"pin\t1\t",
            b"pin\t1\t0",
            b"pin 1",
            b"pin\tA",
        ],
    ),
    bad_line("a word in upper case", &[b"PRESS", b"Press", b"R\t400\t2", b"W\t400\t2\t0", b"Tick\t1", b"take\x01"]),
    bad_line("a comment", &[b"# press", b"press # x", b"press\t#", b"; press", b"// press"]),
    bad_line(
        "a second platform line",
        &[b"platform\t0\t0\t0\t-\t-\t-\t-\t-\t-", b"platform\t0400\t0000\t0\t00\t-\t-\t52\t-\t70"],
    ),
    bad_line("NUL", &[b"\0", b"press\0", b"tick\t1\0", b"tick\t\x001", b"\0press"]),
    bad_line(
        "not ASCII",
        &[b"press\xFF", b"\xFF", b"tick\t\xB1", b"\xEF\xBB\xBFpress", b"r\t400\t\xC2\xB2", b"press\x0B", b"press\x0C"],
    ),
    good_line(
        "16 digits",
        &[
            b"r\t0000000000000400\t0000000000000002",
            b"w\tFFFFFFFFFFFFFFFF\t4\tFFFFFFFFFFFFFFFF",
            b"tick\t00000000FFFFFFFF",
        ],
    ),
    good_line(
        "lower case digits",
        &[b"r\tfffe\t2", b"w\tabcdef\t1\tff", b"tick\tffffffff", b"event\tFf", b"w\tb2\t1\te1"],
    ),
    good_line("a pin", &[b"pin\t0", b"pin\t1"]),
    good_line("a width of 32 bits", &[b"r\t400\tFFFFFFFF", b"w\t400\t80000000\t0", b"r\tFFFFFFFFFFFFFFFF\tffffffff"]),
    bad_field("a home of 17 bits", &[1, 2], &["10000", "FFFFFFFFFFFFFFFF", "00010000"]),
    bad_field("a home that is no number", &[1, 2], &["", "-", "G", "0x1", "00000000000000000"]),
    bad_field("an override that is none", &[3], &["2", "00", "01", "", "-", "A"]),
    bad_field("a state that is none", &[4, 5, 6, 7, 8, 9], &["", "0", "000", "--", "-0", "0-", "G0", "0g", "0x"]),
    bad_field("another first word", &[0], &["Platform", "platforms", "platfor", "", "press"]),
    whole("a platform line with a field less", false, |mut lines, _| {
        let cut = lines[0].iter().rposition(|byte| *byte == b'\t').unwrap();
        lines[0].truncate(cut);
        lines.join(&b'\n')
    }),
    whole("a platform line with a field more", false, |mut lines, random| {
        lines[0].extend_from_slice(random.pick(&["\t-", "\t00", "\t"]).as_bytes());
        lines.join(&b'\n')
    }),
    whole("no platform line", false, |lines, _| lines[1..].join(&b'\n')),
    whole("the platform line second", false, |mut lines, _| {
        lines.swap(0, 1);
        lines.join(&b'\n')
    }),
    whole("an empty script", false, |_, random| random.pick(&["", "\n", "\n\n"]).into()),
    whole("an empty line first", false, |lines, _| [b"\n".to_vec(), lines.join(&b'\n')].concat()),
    whole("an empty line at the end", false, |lines, _| [lines.join(&b'\n'), b"\n\n".to_vec()].concat()),
    whole("CR LF throughout", false, |lines, _| lines.join(&b"\r\n"[..])),
    whole("past byte 65,536", false, |lines, random| {
        let past = random.pick(&[1, 1, 2, 5, 1_000, 65_536]);
        of_length(lines, 65_536 + past)
    }),
    whole("65,536 bytes", true, |lines, _| of_length(lines, 65_536)),
    whole("65,536 bytes, the last line without LF", true, |lines, _| {
        let mut script = of_length(lines, 65_537);
        script.pop();
        script
    }),
    whole("the platform line alone", true, |lines, random| {
        [lines[0].clone(), random.pick(&["", "\n"]).into()].concat()
    }),
    whole("the last line without LF", true, |lines, _| lines.join(&b'\n')),
];

/// The same steps again and again, until the script is so long.
fn of_length(lines: Vec<Vec<u8>>, length: usize) -> Vec<u8> {
    let mut script = join(&lines);
    for line in lines[1..].iter().cycle() {
        if script.len() + line.len() + 64 > length {
            break;
        }
        script.extend_from_slice(line);
        script.push(b'\n');
    }
    // The last line takes up to 16 digits.
    while length - script.len() > "tick\t\n".len() + 16 {
        script.extend_from_slice(b"drop\n");
    }
    let digits = length - script.len() - "tick\t\n".len();
    script.extend_from_slice(format!("tick\t{:01$}\n", 0, digits).as_bytes());
    script
}
