//! The port map: of the examples' tables, of every block and of the fewest, of refused tables, and where its ports lead.

use std::fs;
use std::path::Path;

use crate::*;

fn example(name: &str) -> Vec<u8> {
    fs::read(Path::new(env!("CARGO_MANIFEST_DIR")).join("../../examples").join(name).join("platform.fadt")).unwrap()
}

/// The table with these numbers of 4 bytes and these bytes in it, and its sum made right.
fn with(mut table: Vec<u8>, numbers: &[(usize, u32)], bytes: &[(usize, u8)]) -> Vec<u8> {
    for (at, number) in numbers {
        table[*at..at + 4].copy_from_slice(&number.to_le_bytes());
    }
    for (at, byte) in bytes {
        table[*at] = *byte;
    }
    let sum = table.iter().fold(0u8, |sum, byte| sum.wrapping_add(*byte));
    table[9] = table[9].wrapping_sub(sum);
    table
}

/// PM2 and GPE1 too, GPE1 up to the last port.
fn every_block() -> Vec<u8> {
    with(example("ward"), &[(72, 0x450), (84, 0xFFF0)], &[(90, 1), (93, 16), (94, 0x10)])
}

/// PM1a alone.
fn fewest_blocks() -> Vec<u8> {
    with(example("ward"), &[(48, 0), (60, 0), (68, 0), (76, 0), (80, 0)], &[(91, 0), (92, 0)])
}

/// The map's lines, each `NAME FIRST LAST` in as few digits as there are.
fn mapped(table: &[u8]) -> Vec<String> {
    let map = String::from_utf8(port_map(table)).unwrap();
    ports(&map).map(|(name, first, last)| format!("{name} {first:X} {last:X}")).collect()
}

fn ports(map: &str) -> impl Iterator<Item = (&str, u64, u64)> {
    map.lines().map(|line| {
        let fields: Vec<&str> = line.split('\t').collect();
        let port = |field: &str| u64::from_str_radix(field, 16).unwrap();
        (fields[0], port(fields[1]), port(fields[2]))
    })
}

#[test]
fn worked_session_in_bytes() {
    let map = "SMI_CMD 00000000000000B2 00000000000000B2\nPM1a_EVT_BLK 0000000000000400 0000000000000403\n\
               PM1b_EVT_BLK 0000000000000440 0000000000000443\nPM1a_CNT_BLK 0000000000000404 0000000000000405\n\
               PM1b_CNT_BLK 0000000000000444 0000000000000445\nPM_TMR_BLK 0000000000000408 000000000000040B\n\
               GPE0_BLK 0000000000000420 0000000000000423\n";
    assert_eq!(port_map(&example("ward")), map.replace(' ', "\t").into_bytes());
}

#[test]
fn other_tables() {
    let q35 =
        ["SMI_CMD B2 B2", "PM1a_EVT_BLK 600 603", "PM1a_CNT_BLK 604 605", "PM_TMR_BLK 608 60B", "GPE0_BLK 620 62F"];
    assert_eq!(mapped(&example("q35")), q35);
    assert_eq!(mapped(&fewest_blocks()), ["PM1a_EVT_BLK 400 403", "PM1a_CNT_BLK 404 405"]);
    let all = mapped(&every_block());
    assert_eq!(all.len(), 9);
    assert_eq!((all[5].as_str(), all[8].as_str()), ("PM2_CNT_BLK 450 450", "GPE1_BLK FFF0 FFFF"));
}

#[test]
fn refused_tables() {
    let ward = example("ward");
    // PM1a's event block at an odd port, past the last port, in another block, absent; flag 20.
    for number in [(56, 0x401), (56, 0x1_0000), (56, 0x420), (56, 0), (112, 1 << 20)] {
        assert_eq!(port_map(&with(ward.clone(), &[number], &[])), b"", "{number:X?}");
    }
    assert_eq!(port_map(&ward[..115]), b"");
    assert_eq!(port_map(b""), b"");
    let mut other_sum = ward;
    other_sum[9] ^= 1;
    assert_eq!(port_map(&other_sum), b"");
}

/// Of a longer table the first 65,536 bytes count.
#[test]
fn long_tables() {
    for (length, accepted) in [(LIMIT, true), (LIMIT + 1, false)] {
        let mut table = example("ward");
        table.resize(length, 0);
        let table = with(table, &[(4, length as u32)], &[]);
        assert_eq!(!port_map(&table).is_empty(), accepted, "{length}");
    }
}

/// A port leads to a block where one line has it, and nowhere where none has.
#[test]
fn ports_lead_where_mapped() {
    let settings = Settings { event_homes: 0, control_homes: 0, power_override: false, states: [None; 6] };
    for table in [example("ward"), example("q35"), every_block(), fewest_blocks()] {
        let map = String::from_utf8(port_map(&table)).unwrap();
        let mut machine = set_up(&table, &settings).unwrap();
        for port in (0..=65_536).chain([0x1_0400, 1 << 32 | 0x400, u64::MAX]) {
            let lines = ports(&map).filter(|(_, first, last)| (*first..=*last).contains(&port)).count();
            let nowhere = machine.step(&Step::Read { port, width: 1 }) == (23, 0);
            assert_eq!(lines, usize::from(!nowhere), "port {port:X}");
        }
    }
}
