//! Text in an XML document.

/// The text with what has a meaning in XML written otherwise. A character that
/// no XML 1.0 document may have is replaced.
pub fn escaped(text: &str) -> String {
    let mut escaped = String::new();
    for character in text.chars() {
        match character {
            '&' => escaped.push_str("&amp;"),
            '<' => escaped.push_str("&lt;"),
            '>' => escaped.push_str("&gt;"),
            '"' => escaped.push_str("&quot;"),
            '\'' => escaped.push_str("&apos;"),
            '\t' | '\n' | '\r' => escaped.push(' '),
            '\0'..=' ' if character != ' ' => escaped.push(char::REPLACEMENT_CHARACTER),
            '\u{FFFE}' | '\u{FFFF}' => escaped.push(char::REPLACEMENT_CHARACTER),
            plain => escaped.push(plain),
        }
    }
    escaped
}

/// The text, or its beginning and three points where it has more characters than
/// there is room for.
pub fn shortened(text: &str, room: usize) -> String {
    if text.chars().count() <= room {
        return String::from(text);
    }
    let kept: String = text.chars().take(room.saturating_sub(3)).collect();
    format!("{kept}...")
}

#[cfg(test)]
mod tests {
    use super::*;

    #[test]
    fn written_otherwise() {
        assert_eq!(
            escaped("a<b>&\"c' \t\u{1}\u{FFFF}\u{E9}"),
            "a&lt;b&gt;&amp;&quot;c&apos;  \u{FFFD}\u{FFFD}\u{E9}"
        );
    }

    #[test]
    fn with_and_without_room() {
        assert_eq!(shortened("\u{E9}234567", 7), "\u{E9}234567");
        assert_eq!(shortened("\u{E9}2345678", 7), "\u{E9}234...");
    }
}
