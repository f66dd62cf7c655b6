//! Octets as hexadecimal digits.

use super::words::UNREAD;
use super::Unread;

/// Puts the octets in hexadecimal digits at the end.
pub(crate) fn put_hex(line: &mut Vec<u8>, octets: &[u8]) {
    const DIGITS: &[u8; 16] = b"0123456789abcdef";
    let start = line.len();
    line.resize(start + 2 * octets.len(), 0);
    for (pair, octet) in line[start..].chunks_exact_mut(2).zip(octets) {
        pair[0] = DIGITS[usize::from(octet >> 4)];
        pair[1] = DIGITS[usize::from(octet & 15)];
    }
}

/// The octets that the digits spell.
pub(super) fn octets_of(word: &[u8]) -> Result<Vec<u8>, Unread> {
    let mut octets = vec![0; word.len() / 2];
    decode(word, &mut octets)?;
    Ok(octets)
}

/// Writes the octets of the digits, of which there are two for each octet.
pub(super) fn decode(digits: &[u8], octets: &mut [u8]) -> Result<(), Unread> {
    if digits.len() != 2 * octets.len() {
        return Err(UNREAD);
    }
    for (octet, pair) in octets.iter_mut().zip(digits.chunks_exact(2)) {
        let [high, low] = [pair[0], pair[1]].map(|digit| VALUES[usize::from(digit)]);
        if high.max(low) == NO_DIGIT {
            return Err(UNREAD);
        }
        *octet = high << 4 | low;
    }
    Ok(())
}

const NO_DIGIT: u8 = 255;

/// The value of each octet as a hexadecimal digit.
const VALUES: [u8; 256] = {
    let mut values = [NO_DIGIT; 256];
    let mut value = 0;
    while value < 16 {
        values[b"0123456789abcdef"[value] as usize] = value as u8;
        values[b"0123456789ABCDEF"[value] as usize] = value as u8;
        value += 1;
    }
    values
};
