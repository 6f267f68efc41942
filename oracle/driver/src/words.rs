//! The words of the command language (../COMMANDS.md): fields in, bytes out.

use std::fmt::Write;

/// A command that isn't one: the answer is `bad`.
pub struct Bad;

/// The longest line, and the most bytes that may come out of one.
pub const LONGEST_LINE: usize = 32768;
const MOST_BYTES: usize = 66000;

pub type Fields<'a> = std::str::Split<'a, char>;

pub fn number<T: std::str::FromStr>(fields: &mut Fields) -> Result<T, Bad> {
    fields.next().and_then(|f| f.parse().ok()).ok_or(Bad)
}

pub fn word<'a>(fields: &mut Fields<'a>) -> Result<&'a str, Bad> {
    fields.next().ok_or(Bad)
}

fn pair(text: &[u8]) -> Result<u8, Bad> {
    let digit = |c: u8| (c as char).to_digit(16).ok_or(Bad);
    match text {
        [high, low, ..] => Ok((digit(*high)? * 16 + digit(*low)?) as u8),
        _ => Err(Bad),
    }
}

/// `-`, or pairs of hex digits and `*COUNT:PAIR` in any order.
pub fn bytes(text: &str) -> Result<Vec<u8>, Bad> {
    let mut out = Vec::new();
    let mut rest = text.as_bytes();
    if rest == b"-" {
        return Ok(out);
    }
    while let Some(first) = rest.first() {
        let mut times: usize = 1;
        if *first == b'*' {
            let colon = rest.iter().position(|c| *c == b':').ok_or(Bad)?;
            let count = std::str::from_utf8(&rest[1..colon]).map_err(|_| Bad)?;
            times = count.parse().map_err(|_| Bad)?;
            rest = &rest[colon + 1..];
        }
        if times > MOST_BYTES - out.len() {
            return Err(Bad);
        }
        out.resize(out.len() + times, pair(rest)?);
        rest = &rest[2..];
    }
    Ok(out)
}

pub fn six(text: &str) -> Result<[u8; 6], Bad> {
    bytes(text)?.try_into().map_err(|_| Bad)
}

/// FNV-1a, 64 bits.
pub fn checksum(bytes: &[u8]) -> u64 {
    bytes.iter().fold(0xcbf29ce484222325, |sum, byte| (sum ^ *byte as u64).wrapping_mul(0x100000001b3))
}

/// Up to 64 bytes as hex, `-` for none; above that `#LENGTH:CHECKSUM`.
pub fn shown(bytes: &[u8]) -> String {
    if bytes.is_empty() {
        return "-".into();
    }
    if bytes.len() > 64 {
        return format!("#{}:{:016x}", bytes.len(), checksum(bytes));
    }
    bytes.iter().fold(String::new(), |mut text, byte| {
        let _ = write!(text, "{byte:02x}");
        text
    })
}
