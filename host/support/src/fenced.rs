//! Blocks of a Markdown text that stand between fences.

/// The lines of the first block that is marked with this word. A text
/// without it is a fault of the test's data.
pub fn fenced<'a>(text: &'a str, word: &str) -> &'a str {
    let opening = format!("```{word}\n");
    let after = text.split_once(&opening).map(|(_, after)| after);
    let block = after.and_then(|after| Some(after.split_once("```")?.0));
    block.unwrap_or_else(|| panic!("no block {word}"))
}

#[cfg(test)]
mod tests {
    use super::*;

    const TEXT: &str = "a\n```c\none\n\ntwo\n```\n```rust\nthree\n```\n```c\nfour\n```\n";

    #[test]
    fn first_of_its_word() {
        assert_eq!(fenced(TEXT, "c"), "one\n\ntwo\n");
        assert_eq!(fenced(TEXT, "rust"), "three\n");
    }

    #[test]
    #[should_panic(expected = "no block text")]
    fn none_of_its_word() {
        fenced(TEXT, "text");
    }
}
