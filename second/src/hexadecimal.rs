//! Bytes as small hexadecimal letters.

/// "Hex is in small letters, an empty stretch or buffer is `-`."
pub fn hexadecimal(bytes: &[u8]) -> String {
    if bytes.is_empty() {
        return "-".to_string();
    }
    let digits = b"0123456789abcdef";
    let mut text = String::with_capacity(2 * bytes.len());
    for byte in bytes {
        for digit in [byte / 16, byte % 16] {
            text.push(char::from(digits[usize::from(digit)]));
        }
    }
    text
}
