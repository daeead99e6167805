//! Bytes as hexadecimal text.

/// Two lower-case digits for each byte.
pub fn to_hex(bytes: &[u8]) -> String {
    bytes.iter().map(|byte| format!("{byte:02x}")).collect()
}

/// The bytes of a text with two digits for each; panics on another text.
pub fn from_hex(text: &str) -> Vec<u8> {
    assert_eq!(text.len() % 2, 0, "odd number of digits: {text}");
    (0..text.len())
        .step_by(2)
        .map(|place| {
            let digits = &text[place..place + 2];
            u8::from_str_radix(digits, 16).unwrap_or_else(|_| panic!("not a byte: {digits}"))
        })
        .collect()
}

#[cfg(test)]
mod tests {
    use super::*;

    #[test]
    fn both_ways() {
        assert_eq!(to_hex(&[0x00, 0x1F, 0xA0]), "001fa0");
        assert_eq!(from_hex("001fA0"), [0x00, 0x1F, 0xA0]);
        assert!(from_hex("").is_empty());
    }
}
