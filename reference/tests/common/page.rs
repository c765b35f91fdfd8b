//! What is read from the text of a page.

/// The texts between lines of three backquotes.
pub fn blocks(text: &str) -> Vec<&str> {
    text.split("```\n").skip(1).step_by(2).collect()
}

/// The text with each space and line end as one space.
pub fn on_one_line(text: &str) -> String {
    text.split_whitespace().collect::<Vec<_>>().join(" ")
}

/// The text between two others, the first such place.
pub fn between<'a>(text: &'a str, before: &str, after: &str) -> Option<&'a str> {
    Some(text.split_once(before)?.1.split_once(after)?.0)
}

/// The decimal numbers in a text.
pub fn numbers(text: &str) -> Vec<u8> {
    let digits = text.split(|c: char| !c.is_ascii_digit()).filter(|word| !word.is_empty());
    digits.map(|word| word.parse().expect("a number has one byte")).collect()
}

/// The bytes of a text that has nothing but pairs of hexadecimal digits.
pub fn hex_bytes(text: &str) -> Option<Vec<u8>> {
    let byte = |word: &str| (word.len() == 2).then(|| u8::from_str_radix(word, 16).ok()).flatten();
    text.split_whitespace().map(byte).collect()
}
