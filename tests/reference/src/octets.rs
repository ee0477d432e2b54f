//! Bytes: little-endian numbers in them, and hex as the vector files write it.

/// The two-byte number at a position.
pub fn number(bytes: &[u8], at: usize) -> u16 {
    u16::from_le_bytes([bytes[at], bytes[at + 1]])
}

/// The four-byte number at a position.
pub fn wide_number(bytes: &[u8], at: usize) -> u32 {
    u32::from(number(bytes, at)) | u32::from(number(bytes, at + 2)) << 16
}

/// Lower-case hex, `-` for no bytes.
pub fn hex(bytes: &[u8]) -> String {
    if bytes.is_empty() {
        return "-".to_string();
    }
    bytes.iter().map(|byte| format!("{byte:02x}")).collect()
}

/// The bytes that `hex` wrote.
pub fn from_hex(text: &str) -> Option<Vec<u8>> {
    if text == "-" {
        return Some(Vec::new());
    }
    if !text.is_ascii() || text.len() % 2 != 0 {
        return None;
    }
    (0..text.len()).step_by(2).map(|at| u8::from_str_radix(&text[at..at + 2], 16).ok()).collect()
}

/// A variant's name in kebab case, as it is printed and taken on the command line.
pub fn kebab(name: &str) -> String {
    let mut text = String::new();
    let mut inside_number = false;
    for (at, letter) in name.chars().enumerate() {
        if at > 0 && (letter.is_uppercase() || letter.is_ascii_digit() && !inside_number) {
            text.push('-');
        }
        inside_number = letter.is_ascii_digit();
        text.push(letter.to_ascii_lowercase());
    }
    text
}
