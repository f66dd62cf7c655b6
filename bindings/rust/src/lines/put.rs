//! Words, each put at the end of a line.

use std::fmt;

use super::put_hex;
use crate::delivery::Outcome;

/// Puts the text at the end.
pub(crate) fn put(line: &mut Vec<u8>, text: &str) {
    line.extend_from_slice(text.as_bytes());
}

/// Puts the number at the end.
pub(crate) fn put_number(line: &mut Vec<u8>, mut number: u64) {
    // The greatest number has 20 digits.
    let mut digits = [0; 20];
    let mut start = digits.len();
    loop {
        start -= 1;
        digits[start] = b'0' + (number % 10) as u8;
        number /= 10;
        if number == 0 {
            break;
        }
    }
    line.extend_from_slice(&digits[start..]);
}

/// Puts a space and the number, or `-` for none, at the end.
pub(crate) fn put_optional(line: &mut Vec<u8>, number: Option<u32>) {
    put(line, " ");
    match number {
        None => put(line, "-"),
        Some(number) => put_number(line, number.into()),
    }
}

/// Puts a space and the truth value at the end.
pub(crate) fn put_bool(line: &mut Vec<u8>, flag: bool) {
    put(line, if flag { " true" } else { " false" });
}

/// Puts a space and whether a transfer is settled, or `-` for none, at the end.
pub(crate) fn put_settled(line: &mut Vec<u8>, settled: Option<bool>) {
    match settled {
        None => put(line, " -"),
        Some(settled) => put_bool(line, settled),
    }
}

/// Puts a space and the outcome, or `-` for none, at the end.
pub(crate) fn put_outcome(line: &mut Vec<u8>, outcome: Option<Outcome>) {
    put(line, " ");
    put(line, outcome.map_or("-", Outcome::word));
}

/// Puts a space and the digits of a payload, or `-` where it has no octets, at the end.
pub(crate) fn put_payload(line: &mut Vec<u8>, payload: &[u8]) {
    put(line, " ");
    if payload.is_empty() {
        put(line, "-");
    } else {
        put_hex(line, payload);
    }
}

/// Shows what is put on a line.
pub(crate) fn show(f: &mut fmt::Formatter<'_>, put_on: impl FnOnce(&mut Vec<u8>)) -> fmt::Result {
    let mut line = Vec::new();
    put_on(&mut line);
    f.write_str(std::str::from_utf8(&line).map_err(|_| fmt::Error)?)
}
