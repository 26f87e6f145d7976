//! Words and bytes as text.

/// Each word with a space before it, as eight capital hexadecimal digits.
pub fn hex_words(words: &[u32]) -> String {
    words.iter().map(|word| format!(" {word:08X}")).collect()
}

/// Two hexadecimal digits a byte, without spaces.
pub fn hex_bytes(bytes: &[u8]) -> String {
    bytes.iter().map(|byte| format!("{byte:02x}")).collect()
}

/// The first numbers of a list, each with a space before it, and how many more there are.
pub fn first_numbers(numbers: &[u64]) -> String {
    const SHOWN: usize = 40;
    let shown = &numbers[..numbers.len().min(SHOWN)];
    let mut text: String = shown.iter().map(|number| format!(" {number}")).collect();
    if shown.len() < numbers.len() {
        text += &format!(" and {} more", numbers.len() - shown.len());
    }
    text
}
