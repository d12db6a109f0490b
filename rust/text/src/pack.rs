//! Text to bytes.

use crate::table::{by_name, Command, Field, Width};

/// The bytes of a text, or the line at which it goes wrong and why.
pub fn pack(text: &str) -> Result<Vec<u8>, String> {
    let mut bytes = Vec::new();
    for (index, line) in text.lines().enumerate() {
        let said = line.split('#').next().unwrap_or("");
        let words: Vec<&str> = said.split_whitespace().collect();
        pack_line(&words, &mut bytes).map_err(|wrong| format!("line {}: {wrong}", index + 1))?;
    }
    Ok(bytes)
}

fn pack_line(words: &[&str], bytes: &mut Vec<u8>) -> Result<(), String> {
    let Some((&name, rest)) = words.split_first() else {
        return Ok(());
    };
    match name {
        "readings" => pack_readings(rest, bytes),
        "fill" => pack_fill(rest, bytes),
        "bytes" => pack_raw(rest, bytes),
        _ => {
            let command = by_name(name).ok_or_else(|| format!("no command {name}"))?;
            let values = values(command, rest)?;
            put(command, &values, bytes);
            Ok(())
        }
    }
}

/// The values of a command's fields in the table's order. Fields without a
/// name come first; named ones may follow in any order.
fn values(command: &Command, words: &[&str]) -> Result<Vec<i64>, String> {
    let mut values = vec![None; command.fields.len()];
    let mut words = words.iter();
    for (index, field) in command.fields.iter().enumerate() {
        if !field.named {
            let word = words
                .next()
                .ok_or_else(|| format!("{} without {}", command.name, field.name))?;
            values[index] = Some(value(field, word)?);
        }
    }
    while let Some(name) = words.next() {
        let index = command
            .fields
            .iter()
            .position(|field| field.named && field.name == *name)
            .ok_or_else(|| format!("{} has no field {name}", command.name))?;
        if values[index].is_some() {
            return Err(format!("{name} twice"));
        }
        let word = words
            .next()
            .ok_or_else(|| format!("{name} without a value"))?;
        values[index] = Some(value(&command.fields[index], word)?);
    }
    command
        .fields
        .iter()
        .zip(values)
        .map(|(field, value)| {
            value.ok_or_else(|| format!("{} without {}", command.name, field.name))
        })
        .collect()
}

fn value(field: &Field, word: &str) -> Result<i64, String> {
    if let Some((_, number)) = field.words.iter().find(|(known, _)| *known == word) {
        return Ok(*number);
    }
    let number: i64 = word
        .parse()
        .map_err(|_| format!("{} {word} is no number{}", field.name, or_words(field)))?;
    let (least, greatest) = field.width.limits();
    if number < least || greatest < number {
        return Err(format!(
            "{} {number} does not fit its bytes, which hold {least} to {greatest}",
            field.name
        ));
    }
    Ok(number)
}

fn or_words(field: &Field) -> String {
    let words: Vec<&str> = field.words.iter().map(|(word, _)| *word).collect();
    if words.is_empty() {
        return String::new();
    }
    format!(" and none of {}", words.join(", "))
}

fn put(command: &Command, values: &[i64], bytes: &mut Vec<u8>) {
    bytes.push(command.byte);
    for (field, value) in command.fields.iter().zip(values) {
        match field.width {
            Width::One => bytes.push(*value as u8),
            Width::Two => bytes.extend((*value as u16).to_be_bytes()),
            Width::Four => bytes.extend((*value as u32).to_be_bytes()),
            Width::Signed => bytes.extend((*value as i32).to_be_bytes()),
        }
    }
}

fn put_reading(minute: i64, kw: i64, bytes: &mut Vec<u8>) -> Result<(), String> {
    let command = by_name("reading").expect("the table has readings");
    let (_, last) = command.fields[0].width.limits();
    if minute > last {
        return Err(format!("minute {minute} does not fit its bytes"));
    }
    put(command, &[minute, kw], bytes);
    Ok(())
}

/// The minute and kW fields of a reading, for the short forms.
fn reading_fields() -> (&'static Field, &'static Field) {
    let fields = by_name("reading").expect("the table has readings").fields;
    (&fields[0], &fields[1])
}

/// `readings FROM kw kw ...`: one minute after another.
fn pack_readings(words: &[&str], bytes: &mut Vec<u8>) -> Result<(), String> {
    let (minute, kw) = reading_fields();
    let Some((first, readings)) = words.split_first() else {
        return Err("readings without a minute".to_string());
    };
    if readings.is_empty() {
        return Err("readings without kw".to_string());
    }
    let first = value(minute, first)?;
    for (offset, word) in readings.iter().enumerate() {
        put_reading(first + offset as i64, value(kw, word)?, bytes)?;
    }
    Ok(())
}

/// `fill FROM TO kw`: the same reading in each minute from FROM up to, but
/// not in, TO, as with a window.
fn pack_fill(words: &[&str], bytes: &mut Vec<u8>) -> Result<(), String> {
    let (minute, kw) = reading_fields();
    let &[from, to, same] = words else {
        return Err("fill takes from, to and kw".to_string());
    };
    let from = value(minute, from)?;
    // One past the last minute that two bytes hold is a fair end.
    let to: i64 = to.parse().map_err(|_| format!("to {to} is no number"))?;
    let same = value(kw, same)?;
    if to <= from {
        return Err(format!("fill from {from} to {to} has no minute"));
    }
    for minute in from..to {
        put_reading(minute, same, bytes)?;
    }
    Ok(())
}

/// `bytes 0A FF ...`: as they are.
fn pack_raw(words: &[&str], bytes: &mut Vec<u8>) -> Result<(), String> {
    for word in words {
        let two_digits = word.len() == 2 && word.bytes().all(|c| c.is_ascii_hexdigit());
        if !two_digits {
            return Err(format!("{word} is not a byte of two hexadecimal digits"));
        }
        bytes.push(u8::from_str_radix(word, 16).map_err(|error| error.to_string())?);
    }
    Ok(())
}
