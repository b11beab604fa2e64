//! The model in the programs' place: reads `platform.fadt` and a script on standard input, prints the listing or nothing.
//! With `--answer` it prints setting up's number instead, where the script reads; with `--save` the saved text of the
//! end; with `--map` the table's port map. With `--read` it reads a saved text on standard input, and prints its number;
//! after 0 the text written again.

use std::io::{self, Read, Write};

use model::saved;

fn main() -> io::Result<()> {
    let table = std::fs::read("platform.fadt").unwrap_or_default();
    let mut input = Vec::new();
    io::stdin().read_to_end(&mut input)?;
    let printed = match std::env::args().nth(1).as_deref() {
        Some("--answer") => model::set_up_answer(&table, &input).map(|answer| format!("{answer}\n").into_bytes()),
        Some("--save") => model::session_end(&table, &input).map(|machine| saved::write(&machine)),
        Some("--map") => Some(model::port_map(&table)),
        Some("--read") => Some(read_back(&input)),
        _ => model::session(&table, &input),
    };
    io::stdout().write_all(&printed.unwrap_or_default())
}

fn read_back(text: &[u8]) -> Vec<u8> {
    match saved::read(text) {
        Ok(machine) => [b"0\n", &saved::write(&machine)[..]].concat(),
        Err(answer) => format!("{answer}\n").into_bytes(),
    }
}
