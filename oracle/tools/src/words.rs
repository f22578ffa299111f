//! Words of a line: from text to values and back (README.md, "Lines"). `None` where a word has another shape.

/// The byte of one hexadecimal digit.
fn digit(c: u8) -> Option<u8> {
    match c {
        b'0'..=b'9' => Some(c - b'0'),
        b'A'..=b'F' => Some(c - b'A' + 10),
        _ => None,
    }
}

/// A number of exactly `digits` hexadecimal digits.
pub fn number(word: &str, digits: usize) -> Option<u64> {
    if word.len() != digits {
        return None;
    }
    word.bytes()
        .try_fold(0, |n, c| Some(n << 4 | u64::from(digit(c)?)))
}

/// A number of one byte.
pub fn u8_of(word: &str) -> Option<u8> {
    number(word, 2).map(|n| n as u8)
}

/// A number of two bytes.
pub fn u16_of(word: &str) -> Option<u16> {
    number(word, 4).map(|n| n as u16)
}

/// A number of eight bytes.
pub fn u64_of(word: &str) -> Option<u64> {
    number(word, 16)
}

/// A place or a count: decimal, at most nine digits, and no zero in front but `0` itself.
pub fn decimal(word: &str) -> Option<usize> {
    let digits = word.len() <= 9 && word.bytes().all(|c| c.is_ascii_digit());
    let plain = word == "0" || !word.starts_with('0');
    if digits && plain {
        word.parse().ok()
    } else {
        None
    }
}

/// A flag.
pub fn flag(word: &str) -> Option<bool> {
    match word {
        "0" => Some(false),
        "1" => Some(true),
        _ => None,
    }
}

/// The pieces of a list, of `digits` digits each; `-` has none.
pub fn pieces(word: &str, digits: usize) -> Option<Vec<&str>> {
    if word == "-" {
        return Some(Vec::new());
    }
    if word.is_empty() || !word.len().is_multiple_of(digits) || !word.is_ascii() {
        return None;
    }
    Some(
        (0..word.len())
            .step_by(digits)
            .map(|i| &word[i..i + digits])
            .collect(),
    )
}

/// Bytes.
pub fn bytes(word: &str) -> Option<Vec<u8>> {
    pieces(word, 2)?.into_iter().map(u8_of).collect()
}

/// Clusters, and the four digits of each named value of a list.
pub fn clusters(word: &str) -> Option<Vec<u16>> {
    pieces(word, 4)?.into_iter().map(u16_of).collect()
}

/// Bytes as they are written.
pub fn show_bytes(bytes: &[u8]) -> String {
    show_list(bytes.iter().map(|b| format!("{b:02X}")))
}

/// Clusters as they are written.
pub fn show_clusters(clusters: &[u16]) -> String {
    show_list(clusters.iter().map(|c| format!("{c:04X}")))
}

/// A list as it is written.
pub fn show_list(pieces: impl Iterator<Item = String>) -> String {
    let all: String = pieces.collect();
    if all.is_empty() { "-".to_string() } else { all }
}

/// A flag as it is written.
pub fn show_flag(flag: bool) -> &'static str {
    if flag { "1" } else { "0" }
}
