//! The file of readings (docs/OPERATING.md, "Readings"), as the 134 bytes that are lent to the box.

use crate::failure::Failure;
use crate::input;
use crate::keeper::Keeper;
use crate::library::READINGS;
use crate::log::{Level, Log};
use crate::text::bytes_of;
use std::path::PathBuf;
use std::time::Duration;

const MOST_FILE: usize = 65536;
const PLACE: usize = 22;
const MOST_TEMPERATURES: usize = 4;
const MOST_UTILIZATIONS: usize = 2;
const PAUSE: Duration = Duration::from_millis(500);

/// A file of readings, and what it said when it was last looked at.
pub struct ReadingsFile {
    path: PathBuf,
    last: Option<Result<Vec<u8>, String>>,
}

impl ReadingsFile {
    pub fn new(path: PathBuf) -> ReadingsFile {
        ReadingsFile { path, last: None }
    }

    /// Lends what the file says, if it says something new. What is bad is said once, and changes nothing.
    pub fn look(&mut self, keeper: &Keeper, log: &Log) {
        let text = self.text().map_err(|why| why.message);
        if self.last.as_ref() == Some(&text) {
            return;
        }
        match text.clone().and_then(|text| readings_of(&text).map_err(|why| format!("{}: {why}", self.path.display()))) {
            Ok(readings) => keeper.lend(readings),
            Err(why) => log.say(Level::Warning, "a bad file of readings", format!("{why}; the readings stay as they were")),
        }
        self.last = Some(text);
    }

    fn text(&self) -> crate::failure::Result<Vec<u8>> {
        let (text, length) = input::regular_start(&self.path, MOST_FILE)?;
        if length > MOST_FILE as u64 {
            return Err(Failure::data(format!("{}: over {MOST_FILE} bytes", self.path.display())));
        }
        Ok(text)
    }

    pub fn follow(mut self, keeper: &Keeper, log: &Log) -> ! {
        loop {
            std::thread::sleep(PAUSE);
            self.look(keeper, log);
        }
    }
}

fn readings_of(text: &[u8]) -> Result<[u8; READINGS], String> {
    let mut readings = [0; READINGS];
    for (number, line) in text.split(|byte| *byte == b'\n').enumerate() {
        let line = std::str::from_utf8(line).map_err(|_| format!("line {}: not UTF-8", number + 1))?;
        let words: Vec<&str> = line.split_whitespace().take_while(|word| !word.starts_with('#')).collect();
        read(&words, &mut readings).map_err(|why| format!("line {}: {why}", number + 1))?;
    }
    Ok(readings)
}

/// The words of one line, put into the first free place of their kind.
fn read(words: &[&str], readings: &mut [u8; READINGS]) -> Result<(), String> {
    let (kind, first, most, unit, name, value) = match words {
        [] => return Ok(()),
        ["temperature", name, value, "C"] => (0, 0, MOST_TEMPERATURES, 0, name, value),
        ["temperature", name, value, "F"] => (0, 0, MOST_TEMPERATURES, 1, name, value),
        ["utilization", name, value] => (1, MOST_TEMPERATURES, MOST_UTILIZATIONS, 0, name, value),
        _ => return Err("neither 'temperature NAME VALUE C', 'temperature NAME VALUE F' nor 'utilization NAME VALUE'".into()),
    };
    let name = bytes_of(name.as_bytes())?;
    if !(1..=16).contains(&name.len()) {
        return Err("a name has 1 to 16 bytes".into());
    }
    let count = usize::from(readings[kind]);
    if count == most {
        return Err(format!("more than {most} of its kind"));
    }
    let place = &mut readings[2 + PLACE * (first + count)..][..PLACE];
    place[0] = unit;
    place[1] = name.len() as u8;
    place[2..2 + name.len()].copy_from_slice(&name);
    place[18..].copy_from_slice(&value_of(value)?.to_be_bytes());
    readings[kind] += 1;
    Ok(())
}

/// The bits of a value; those of a silent sensor are not a number, so that its name is sent alone.
fn value_of(word: &str) -> Result<u32, String> {
    if word == "-" {
        return Ok(f32::NAN.to_bits());
    }
    let value = word.parse().ok().filter(|value: &f32| value.is_finite());
    value.map(f32::to_bits).ok_or_else(|| format!("'{word}' is not a number, nor '-' for a silent sensor"))
}

#[cfg(test)]
mod tests {
    use super::*;

    #[test]
    fn each_reading_stands_in_its_place() {
        let readings =
            readings_of(b"# site 4\ntemperature HDA 36.5 C\nutilization EN0 0.25 # of a second\ntemperature board - F\n").ok().unwrap();
        assert_eq!(readings[..2], [2, 1]);
        // 36.5 is 42120000 and 0.25 is 3E800000 in binary32 (IEEE 754)
        assert_eq!(readings[2..8], [0, 3, b'H', b'D', b'A', 0]);
        assert_eq!(readings[20..24], [0x42, 0x12, 0, 0]);
        assert_eq!(readings[24..31], [1, 5, b'b', b'o', b'a', b'r', b'd']);
        assert_eq!(readings[42] & 0x7f, 0x7f);
        assert_eq!(readings[90..95], [0, 3, b'E', b'N', b'0']);
        assert_eq!(readings[108..112], [0x3e, 0x80, 0, 0]);
    }

    #[test]
    fn what_is_wrong_is_named_with_its_line() {
        let five = "temperature t 1 C\n".repeat(5);
        let wrong = [
            (five.as_str(), 5),
            ("\nutilization EN0", 2),
            ("utilization EN0 inf", 1),
            ("temperature abcdefghijklmnopq 1 C", 1),
            ("temperature x 1 K", 1),
            ("heat x 1", 1),
        ];
        for (text, line) in wrong {
            assert!(readings_of(text.as_bytes()).err().unwrap().starts_with(&format!("line {line}: ")), "{text}");
        }
    }
}
