//! How values are spelled: none of them has a blank, and what is missing is `-`.
use sigatuda::{Lsn, PageSet, Refusal};
use std::fmt::Write;

/// Bytes as hex digits.
pub fn hex(bytes: &[u8]) -> String {
    bytes.iter().fold(String::new(), |mut text, byte| {
        let _ = write!(text, "{byte:02x}");
        text
    })
}

/// The identifier that hex digits spell, at most 32 of them; zeros before them may be left out.
pub fn identifier(text: &str) -> Option<[u8; 16]> {
    let digits = (1..=32).contains(&text.len()) && text.bytes().all(|c| c.is_ascii_hexdigit());
    if !digits {
        return None;
    }
    u128::from_str_radix(text, 16).ok().map(u128::to_be_bytes)
}

/// A value, or `-`.
pub fn or_dash(value: Option<String>) -> String {
    value.unwrap_or_else(|| "-".to_string())
}

pub fn lsn(lsn: Option<Lsn>) -> String {
    or_dash(lsn.map(|lsn| lsn.get().to_string()))
}

/// Values with commas between them, or `-` for none.
pub fn list(values: impl Iterator<Item = String>) -> String {
    or_dash(values.reduce(|text, value| text + "," + &value))
}

/// The pages of a set as rising ranges, such as `1-3,7`, or `-` for none.
pub fn pages(set: &PageSet) -> String {
    let mut ranges: Vec<(u32, u32)> = Vec::new();
    for page in set.pages().map(|page| page.get()) {
        match ranges.last_mut() {
            Some((_, last)) if *last + 1 == page => *last = page,
            _ => ranges.push((page, page)),
        }
    }
    list(ranges.into_iter().map(|(first, last)| if first == last { first.to_string() } else { format!("{first}-{last}") }))
}

/// A page, or pages from one to another.
pub fn span(first: u64, last: u64) -> String {
    if first == last { format!("page {first}") } else { format!("pages {first} to {last}") }
}

/// The name of a tag: what is no visible ASCII character is `\xNN`.
pub fn name(bytes: &[u8]) -> String {
    bytes.escape_ascii().to_string().replace(' ', "\\x20")
}

/// A number with so many things of a kind.
pub fn counted(n: usize, one: &str, many: &str) -> String {
    format!("{n} {}", if n == 1 { one } else { many })
}

/// A refused call, with the way to learn more.
pub fn refused(refusal: Refusal) -> String {
    format!("{refusal} (see: desk explain {})", refusal.number())
}
