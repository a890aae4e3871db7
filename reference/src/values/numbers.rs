//! Decimal numbers.

/// Reads decimal digits without sign and without a leading zero, at most `most`.
pub fn read_number(text: &[u8], most: u64) -> Option<u64> {
    if text.is_empty() || text.iter().any(|b| !b.is_ascii_digit()) {
        return None;
    }
    if text.len() > 1 && text[0] == b'0' {
        return None;
    }
    let mut n: u128 = 0;
    for b in text {
        n = n * 10 + u128::from(b - b'0');
        if n > u128::from(most) {
            return None;
        }
    }
    Some(n as u64)
}
