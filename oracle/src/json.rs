//! The little JSON that the oracle writes: floats stand as 16 hexadecimal
//! digits of their bits, in quotes.

pub fn word(word: u64) -> String {
    format!("\"{word:016x}\"")
}

pub fn words(words: &[u64]) -> String {
    let words: Vec<String> = words.iter().map(|&entry| word(entry)).collect();
    words.join(",")
}

pub fn float(value: f64) -> String {
    word(value.to_bits())
}

pub fn floats(values: &[f64]) -> String {
    let values: Vec<String> = values.iter().map(|&value| float(value)).collect();
    format!("[{}]", values.join(","))
}

/// An array of floats, or null.
pub fn optional_floats(values: Option<&[f64]>) -> String {
    values.map_or("null".to_string(), floats)
}

pub fn array(entries: impl Iterator<Item = String>) -> String {
    let entries: Vec<String> = entries.collect();
    format!("[{}]", entries.join(","))
}
