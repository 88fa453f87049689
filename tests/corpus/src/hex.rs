//! The smallest words of the format: bytes in hex, numbers, and lists of numbers.

/// Bytes in hex, `-` for none.
pub fn bytes(word: &str) -> Result<Vec<u8>, String> {
    if word == "-" {
        return Ok(Vec::new());
    }
    if !word.len().is_multiple_of(2) || !word.is_ascii() {
        return Err(format!("'{word}' is not hex"));
    }
    let pair = |i: usize| u8::from_str_radix(&word[2 * i..2 * i + 2], 16);
    (0..word.len() / 2).map(|i| pair(i).map_err(|_| format!("'{word}' is not hex"))).collect()
}

pub fn write_bytes(bytes: &[u8]) -> String {
    if bytes.is_empty() {
        return "-".to_string();
    }
    bytes.iter().map(|b| format!("{b:02x}")).collect()
}

pub fn number<N: std::str::FromStr>(word: &str) -> Result<N, String> {
    word.parse().map_err(|_| format!("'{word}' is not a number that fits here"))
}

/// Numbers with commas between, `-` for none.
pub fn list<N: std::str::FromStr>(word: &str) -> Result<Vec<N>, String> {
    if word == "-" {
        return Ok(Vec::new());
    }
    word.split(',').map(number).collect()
}

pub fn write_list<N: std::fmt::Display>(list: &[N]) -> String {
    if list.is_empty() {
        return "-".to_string();
    }
    list.iter().map(N::to_string).collect::<Vec<_>>().join(",")
}
