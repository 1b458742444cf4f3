//! Integer literals: whether the bytes are a number below 65,536 in a base.

/// The worth of a digit byte in base 36, letters of either case.
fn digit(byte: u8) -> Option<u32> {
    match byte {
        b'0'..=b'9' => Some(u32::from(byte - b'0')),
        b'a'..=b'z' => Some(u32::from(byte - b'a') + 10),
        b'A'..=b'Z' => Some(u32::from(byte - b'A') + 10),
        _ => None,
    }
}

/// Whether the bytes are digits of the base, perhaps after one `+`, whose number fits 16 bits.
pub fn fits_u16(bytes: &[u8], base: u32) -> bool {
    let digits = bytes.strip_prefix(b"+").unwrap_or(bytes);
    if digits.is_empty() {
        return false;
    }
    let mut value = 0;
    for &byte in digits {
        match digit(byte) {
            Some(worth) if worth < base => value = value * base + worth,
            _ => return false,
        }
        if value > 65_535 {
            return false;
        }
    }
    true
}
