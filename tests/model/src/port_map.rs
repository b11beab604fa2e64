//! Request W4's port map: a line for each block that is there, in the order of the FADT's address fields.

use crate::session::lent;
use crate::{set_up, Block, Hardware, Settings, A, B};

/// `NAME` tab `FIRST` tab `LAST` a line; nothing where setting up refuses the table.
pub fn port_map(table: &[u8]) -> Vec<u8> {
    // Nothing beside the table can be refused.
    let settings = Settings { event_homes: 0, control_homes: 0, power_override: false, states: [None; 6] };
    let mut map = String::new();
    if let Ok(machine) = set_up(lent(table), &settings) {
        for (name, block) in named_blocks(&machine.hardware) {
            if block.present() {
                map += &line(name, block);
            }
        }
    }
    map.into_bytes()
}

fn named_blocks(hardware: &Hardware) -> [(&'static str, Block); 9] {
    [
        ("SMI_CMD", hardware.smi_cmd),
        ("PM1a_EVT_BLK", hardware.event[A]),
        ("PM1b_EVT_BLK", hardware.event[B]),
        ("PM1a_CNT_BLK", hardware.control[A]),
        ("PM1b_CNT_BLK", hardware.control[B]),
        ("PM2_CNT_BLK", hardware.pm2),
        ("PM_TMR_BLK", hardware.timer),
        ("GPE0_BLK", hardware.gpe[0]),
        ("GPE1_BLK", hardware.gpe[1]),
    ]
}

fn line(name: &str, block: Block) -> String {
    let first = block.start;
    let last = first + block.length - 1;
    format!("{name}\t{first:016X}\t{last:016X}\n")
}
