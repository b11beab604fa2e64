//! A script's text.

use model::{Settings, Step};

/// The lines of a script, without LF.
pub fn lines(settings: &Settings, steps: &[Step]) -> Vec<Vec<u8>> {
    let mut lines = vec![platform_line(settings).into_bytes()];
    lines.extend(steps.iter().map(|step| line(step).into_bytes()));
    lines
}

pub fn join(lines: &[Vec<u8>]) -> Vec<u8> {
    let mut script = lines.join(&b'\n');
    script.push(b'\n');
    script
}

fn line(step: &Step) -> String {
    match *step {
        Step::Read { port, width } => format!("r\t{port:X}\t{width:X}"),
        Step::Write { port, width, data } => format!("w\t{port:X}\t{width:X}\t{data:X}"),
        Step::Press => "press".to_string(),
        Step::Release => "release".to_string(),
        Step::Sleep => "sleep".to_string(),
        Step::Alarm => "alarm".to_string(),
        Step::PinActive => "pin\t1".to_string(),
        Step::PinInactive => "pin\t0".to_string(),
        Step::Master => "master".to_string(),
        Step::Unlock => "unlock".to_string(),
        Step::Event(number) => format!("event\t{number:X}"),
        Step::Tick(n) => format!("tick\t{n:X}"),
        Step::Take => "take".to_string(),
        Step::Drop => "drop".to_string(),
    }
}

pub fn platform_line(settings: &Settings) -> String {
    let mut line = format!(
        "platform\t{:04X}\t{:04X}\t{}",
        settings.event_homes,
        settings.control_homes,
        u8::from(settings.power_override)
    );
    for state in &settings.states {
        line += &match state {
            Some((a, b)) => format!("\t{a:X}{b:X}"),
            None => "\t-".to_string(),
        };
    }
    line
}
