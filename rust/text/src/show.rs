//! Bytes to a text that packs to the same bytes again.

use crate::table::{by_byte, Command, Width};

/// So many readings go on one line, a settlement period's.
const PER_LINE: usize = 30;
/// Runs of one value from this length on are shown as a fill.
const FILL_FROM: usize = 6;

/// The text of a unit file, or of any other bytes.
pub fn show(bytes: &[u8]) -> String {
    let mut text = String::new();
    let mut position = 0;
    let mut readings: Vec<(i64, i64)> = Vec::new();
    while position < bytes.len() {
        let Some((command, values)) = decode(&bytes[position..]) else {
            break;
        };
        position += command.length();
        if command.name == "reading" {
            let follows = readings.last().is_none_or(|last| last.0 + 1 == values[0]);
            if !follows {
                show_readings(&mut readings, &mut text);
            }
            readings.push((values[0], values[1]));
        } else {
            show_readings(&mut readings, &mut text);
            show_command(command, &values, &mut text);
        }
    }
    show_readings(&mut readings, &mut text);
    if position < bytes.len() {
        // A reader stops here, so nothing behind it has a meaning either.
        text.push_str(&format!("# offset {position} does not decode\n"));
        for row in bytes[position..].chunks(16) {
            text.push_str("bytes");
            for byte in row {
                text.push_str(&format!(" {byte:02X}"));
            }
            text.push('\n');
        }
    }
    text
}

/// The command that bytes start with, and its operands; none where they start
/// none, or end inside it.
fn decode(bytes: &[u8]) -> Option<(&'static Command, Vec<i64>)> {
    let command = by_byte(*bytes.first()?).filter(|command| bytes.len() >= command.length())?;
    Some((command, values(command, &bytes[1..])))
}

/// The command that bytes start with in words, every field by its name; else
/// what stands there instead.
pub fn describe(bytes: &[u8]) -> String {
    let Some((command, values)) = decode(bytes) else {
        return describe_broken(bytes);
    };
    let fields: Vec<String> = command
        .fields
        .iter()
        .zip(values)
        .map(|(field, value)| format!(" {} {}", field.name, field.word(value)))
        .collect();
    format!("{}{}", command.name, fields.join(","))
}

fn describe_broken(bytes: &[u8]) -> String {
    match bytes.first() {
        None => "no byte".to_string(),
        Some(byte) => match by_byte(*byte) {
            None => format!("byte {byte:02X}"),
            Some(command) => format!(
                "{}, {} of its {} bytes",
                command.name,
                bytes.len(),
                command.length()
            ),
        },
    }
}

fn values(command: &Command, mut bytes: &[u8]) -> Vec<i64> {
    let mut values = Vec::new();
    for field in command.fields {
        let (operand, rest) = bytes.split_at(field.width.bytes());
        let unsigned = operand.iter().fold(0_u32, |v, b| v << 8 | u32::from(*b));
        values.push(match field.width {
            Width::Signed => i64::from(unsigned as i32),
            Width::One | Width::Two | Width::Four => i64::from(unsigned),
        });
        bytes = rest;
    }
    values
}

fn show_command(command: &Command, values: &[i64], text: &mut String) {
    text.push_str(command.name);
    for (field, value) in command.fields.iter().zip(values) {
        if field.named {
            text.push_str(&format!(" {}", field.name));
        }
        text.push_str(&format!(" {}", field.word(*value)));
    }
    text.push('\n');
}

/// Shows and forgets readings of consecutive minutes.
fn show_readings(readings: &mut Vec<(i64, i64)>, text: &mut String) {
    let mut rest: &[(i64, i64)] = readings;
    while let Some(&(minute, kw)) = rest.first() {
        let same = rest.iter().take_while(|reading| reading.1 == kw).count();
        if same >= FILL_FROM {
            text.push_str(&format!("fill {minute} {} {kw}\n", minute + same as i64));
            rest = &rest[same..];
            continue;
        }
        let mixed = before_fill(rest).min(PER_LINE);
        if mixed == 1 {
            text.push_str(&format!("reading {minute} {kw}\n"));
        } else {
            text.push_str(&format!("readings {minute}"));
            for reading in &rest[..mixed] {
                text.push_str(&format!(" {}", reading.1));
            }
            text.push('\n');
        }
        rest = &rest[mixed..];
    }
    readings.clear();
}

/// How many readings stand before the next run that is worth a fill.
fn before_fill(readings: &[(i64, i64)]) -> usize {
    let limit = readings.len().min(PER_LINE);
    (1..limit)
        .find(|&at| {
            let run = readings[at..]
                .iter()
                .take(FILL_FROM)
                .take_while(|reading| reading.1 == readings[at].1);
            run.count() == FILL_FROM
        })
        .unwrap_or(limit)
}
