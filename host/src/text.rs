//! Bytes as text for people, and back: valid UTF-8 stands for itself but for control characters, a backslash is `\\`, any other byte `\xNN`.

use crate::failure::{Failure, Result};
use std::io::{ErrorKind, Write};

/// On standard output. A reader that has gone, as `head` does, has read enough.
pub fn print(text: impl AsRef<[u8]>) -> Result<()> {
    let mut out = std::io::stdout().lock();
    match out.write_all(text.as_ref()).and_then(|()| out.flush()) {
        Err(why) if why.kind() != ErrorKind::BrokenPipe => Err(Failure::system(format!("standard output: {why}"))),
        _ => Ok(()),
    }
}

pub fn shown(bytes: &[u8]) -> String {
    let mut text = String::with_capacity(bytes.len());
    for chunk in bytes.utf8_chunks() {
        for character in chunk.valid().chars() {
            match character {
                '\\' => text.push_str("\\\\"),
                _ if hidden(character) => text.push_str(&escaped(character.encode_utf8(&mut [0; 4]).as_bytes())),
                _ => text.push(character),
            }
        }
        text.push_str(&escaped(chunk.invalid()));
    }
    text
}

fn escaped(bytes: &[u8]) -> String {
    bytes.iter().map(|byte| format!("\\x{byte:02x}")).collect()
}

/// Control characters, and those that are not seen but change how the rest of a line is shown: marks of direction, joiners, ends of lines.
fn hidden(character: char) -> bool {
    character.is_control()
        || matches!(character, '\u{ad}' | '\u{61c}' | '\u{200b}'..='\u{200f}' | '\u{2028}'..='\u{202e}' | '\u{2060}'..='\u{206f}' | '\u{feff}')
}

/// The bytes that a text stands for. Bytes past ASCII stand for themselves, so that UTF-8 may be written as it is.
pub fn bytes_of(text: &[u8]) -> std::result::Result<Vec<u8>, String> {
    let mut bytes = Vec::with_capacity(text.len());
    let mut left = text;
    while let [first, rest @ ..] = left {
        left = match (first, rest) {
            (b'\\', [b'\\', after @ ..]) => {
                bytes.push(b'\\');
                after
            }
            (b'\\', [b'x', high, low, after @ ..]) => {
                let pair = [*high, *low];
                let digits = std::str::from_utf8(&pair).ok().filter(|pair| pair.bytes().all(|digit| digit.is_ascii_hexdigit()));
                bytes.push(digits.and_then(|pair| u8::from_str_radix(pair, 16).ok()).ok_or_else(|| wrong(text))?);
                after
            }
            (b'\\', _) => return Err(wrong(text)),
            _ => {
                bytes.push(*first);
                rest
            }
        };
    }
    Ok(bytes)
}

fn wrong(text: &[u8]) -> String {
    format!("'{}': a backslash is written \\\\, another byte \\xNN", String::from_utf8_lossy(text))
}

/// Document 003's names of algorithms, from 1 on.
pub const ALGORITHMS: [&str; 6] = ["SHA1", "SHA2", "SHA3", "CRC32C", "CRC64", "CRC32"];

/// An algorithm by its name, where it has one.
pub fn algorithm(number: i64) -> String {
    let found = (1..).zip(ALGORITHMS).find(|(known, _)| *known == number);
    found.map_or_else(|| number.to_string(), |(_, name)| name.to_string())
}

/// Rows in columns as wide as their widest words, under a head and a rule.
pub fn table(head: &[&str], rows: &[Vec<String>]) -> String {
    let width = |column: usize| rows.iter().map(|row| row[column].chars().count()).chain([head[column].len()]).max().unwrap_or(0);
    let widths: Vec<usize> = (0..head.len()).map(width).collect();
    let line = |words: Vec<String>| {
        let padded: Vec<String> = words.iter().zip(&widths).map(|(word, width)| format!("{word:width$}")).collect();
        format!("{}\n", padded.join("  ").trim_end())
    };
    let rule = widths.iter().map(|width| "-".repeat(*width)).collect();
    let top = line(head.iter().map(|word| word.to_string()).collect()) + &line(rule);
    rows.iter().fold(top, |all, row| all + &line(row.clone()))
}

#[cfg(test)]
mod tests {
    use super::*;

    #[test]
    fn every_byte_comes_back() {
        let all: Vec<u8> = (0..=255).collect();
        assert_eq!(bytes_of(shown(&all).as_bytes()).unwrap(), all);
        assert_eq!(shown(b"a\\b\n\xff"), "a\\\\b\\x0a\\xff");
    }

    #[test]
    fn utf_8_stands_for_itself_where_it_is_valid_and_seen() {
        assert_eq!(shown("Öl 31,4 °C 火".as_bytes()), "Öl 31,4 °C 火");
        assert_eq!(shown(b"\xc3\x96 \xc3"), "Ö \\xc3");
        for (unseen, escapes) in
            [("\u{85}", "\\xc2\\x85"), ("\u{202e}", "\\xe2\\x80\\xae"), ("\u{feff}", "\\xef\\xbb\\xbf"), ("\u{7f}", "\\x7f")]
        {
            assert_eq!(shown(unseen.as_bytes()), escapes);
            assert_eq!(bytes_of(escapes.as_bytes()).unwrap(), unseen.as_bytes());
        }
    }

    #[test]
    fn half_an_escape_is_refused() {
        for text in ["\\", "\\x", "\\x4", "\\xg0", "\\n", "\\x+1"] {
            assert!(bytes_of(text.as_bytes()).is_err(), "{text}");
        }
    }

    #[test]
    fn columns_are_as_wide_as_their_widest_word() {
        assert_eq!(table(&["a", "bcd"], &[vec!["long".into(), "x".into()]]), "a     bcd\n----  ---\nlong  x\n");
    }
}
