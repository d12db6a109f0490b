//! Any bytes survive being shown and packed; wrong lines are named.

use crate::pack::pack;
use crate::show::{describe, show};

fn survives(bytes: &[u8]) {
    let text = show(bytes);
    assert_eq!(pack(&text).as_deref(), Ok(bytes), "{text}");
}

/// A plain linear generator: the same bytes in every run.
fn next(state: &mut u32) -> u32 {
    *state = state.wrapping_mul(1_664_525).wrapping_add(1_013_904_223);
    *state >> 16
}

#[test]
fn bytes_survive() {
    survives(&[]);
    let mut state = 1;
    for _ in 0..500 {
        let length = next(&mut state) % 80;
        let bytes: Vec<u8> = (0..length)
            .map(|_| match next(&mut state) % 3 {
                0 => b"CTWIDMRZ"[next(&mut state) as usize % 8],
                _ => next(&mut state) as u8,
            })
            .collect();
        survives(&bytes);
    }
}

#[test]
fn readings_survive() {
    let mut state = 2;
    for _ in 0..200 {
        let mut bytes = Vec::new();
        let mut minute: u16 = 0;
        for _ in 0..next(&mut state) % 120 {
            let kw = (next(&mut state) % 2) as i32 - 1;
            bytes.push(0x4D);
            bytes.extend(minute.to_be_bytes());
            bytes.extend(kw.to_be_bytes());
            minute = match next(&mut state) % 20 {
                0 => minute.wrapping_sub(3),
                1 => minute,
                _ => minute.wrapping_add(1),
            };
        }
        survives(&bytes);
    }
}

#[test]
fn the_last_minute_of_two_bytes() {
    let bytes = pack("fill 65530 65536 -1").expect("fits");
    assert_eq!(bytes.len(), 42);
    survives(&bytes);
    assert!(pack("fill 65530 65537 0").is_err());
}

#[test]
fn a_revision_stands_between_readings() {
    let text = "readings 8 1 2\nrevision 9 255 -250\nreading 10 3\n";
    let bytes = pack(text).expect("fits");
    assert_eq!(bytes[14..22], [0x52, 0, 9, 0xFF, 0xFF, 0xFF, 0xFF, 0x06]);
    assert_eq!(show(&bytes), text);
    // Out of range and yet a byte.
    survives(&[0x52, 0, 9, 0, 0, 0, 0, 1]);
    survives(&[0x52, 0, 9, 0, 0, 0, 0]);
}

#[test]
fn a_date_is_year_month_and_day() {
    let text = "date 2024 10 1\nwindow 0 30 accepted\n";
    let bytes = pack(text).expect("fits");
    assert_eq!(bytes[..6], [0x54, 0x07, 0xE8, 10, 1, 0x57]);
    assert_eq!(show(&bytes), text);
    assert_eq!(describe(&bytes), "date year 2024, month 10, day 1");
    assert_eq!(describe(&bytes[..4]), "date, 4 of its 5 bytes");
    // No day of any month, and yet bytes.
    assert_eq!(
        pack("date 65535 255 0").as_deref(),
        Ok(&[0x54, 255, 255, 255, 0][..])
    );
    survives(&[0x54, 0, 0, 0, 0]);
    survives(&[0x54, 0, 0, 0]);
}

#[test]
fn fields_in_any_order() {
    let one = "contract days 1 kind generator service flexible kw 12000 ramp-up 2000 \
               ramp-down 2000 response 20 recovery 0 availability 900 utilisation 30000 \
               optional 55000";
    let two = "contract optional 55000 kind 0 service 1 kw 12000 ramp-up 2000 ramp-down 2000 \
               response 20 recovery 0 availability 900 utilisation 30000 days 1 # the same";
    assert_eq!(pack(one), pack(two));
    assert_eq!(pack(one).map(|bytes| bytes.len()), Ok(32));
}

#[test]
fn wrong_lines_are_named() {
    let wrong = |text: &str, why: &str| {
        assert_eq!(pack(text), Err(why.to_string()));
    };
    wrong("\nopen", "line 2: no command open");
    wrong("window 0 30", "line 1: window without state");
    wrong(
        "window 0 65536 accepted",
        "line 1: end 65536 does not fit its bytes, which hold 0 to 65535",
    );
    wrong(
        "window 0 30 maybe",
        "line 1: state maybe is no number and none of accepted, rejected",
    );
    wrong(
        "revision 7 256 0",
        "line 1: number 256 does not fit its bytes, which hold 0 to 255",
    );
    wrong("revision 7 1", "line 1: revision without kw");
    wrong("date 2024 10", "line 1: date without day");
    wrong("date 2024 10 1 1", "line 1: date has no field 1");
    wrong(
        "date 2024 256 1",
        "line 1: month 256 does not fit its bytes, which hold 0 to 255",
    );
    wrong(
        "date 65536 1 1",
        "line 1: year 65536 does not fit its bytes, which hold 0 to 65535",
    );
    wrong("instruction issue 3 issue 4", "line 1: issue twice");
    wrong("instruction issue 3", "line 1: instruction without cease");
    wrong("instruction issue", "line 1: issue without a value");
    wrong("close 1", "line 1: close has no field 1");
    wrong(
        "bytes 0A F",
        "line 1: F is not a byte of two hexadecimal digits",
    );
    wrong("fill 9 9 0", "line 1: fill from 9 to 9 has no minute");
}
