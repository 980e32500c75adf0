//! Bytes in hexadecimal, and back.

/// Bytes in hexadecimal, `-` for none.
pub fn hex(bytes: &[u8]) -> String {
    if bytes.is_empty() {
        return "-".into();
    }
    let digit = |value: u8| char::from(b"0123456789abcdef"[usize::from(value)]);
    let digits = |byte: &u8| [digit(byte >> 4), digit(byte & 15)];
    bytes.iter().flat_map(digits).collect()
}

/// Bytes from hexadecimal, `-` for none.
pub fn unhex(text: &str) -> Result<Vec<u8>, String> {
    if text == "-" {
        return Ok(Vec::new());
    }
    if !text.is_ascii() || text.len() % 2 == 1 {
        return Err(format!("not hexadecimal: {text}"));
    }
    (0..text.len())
        .step_by(2)
        .map(|i| u8::from_str_radix(&text[i..i + 2], 16))
        .collect::<Result<_, _>>()
        .map_err(|error| format!("not hexadecimal: {error}"))
}

/// Bytes from hexadecimal with blanks and semicolons between them.
///
/// # Panics
/// If the text has anything else.
pub fn bytes(text: &str) -> Vec<u8> {
    let digits: String = text.split([' ', ';']).collect();
    if digits.is_empty() {
        return Vec::new();
    }
    unhex(&digits).expect("hexadecimal")
}

#[cfg(test)]
mod tests {
    use super::*;

    #[test]
    fn bytes_are_printed() {
        assert_eq!(hex(&[0, 0x9A, 0xFF]), "009aff");
        assert_eq!(hex(&[]), "-");
    }

    #[test]
    fn spaced_bytes_are_read() {
        assert_eq!(bytes("54 00;  47"), [0x54, 0, 0x47]);
        assert_eq!(bytes(" "), []);
    }
}
