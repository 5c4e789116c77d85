//! The words after a command: options with a value (`--image FILE` or `--image=FILE`), flags (`--csv`), and plain words. After `--` every word is plain.

use crate::failure::{Failure, Result};
use std::collections::HashMap;
use std::ffi::{OsStr, OsString};
use std::os::unix::ffi::OsStrExt;
use std::path::PathBuf;

pub struct Arguments {
    options: HashMap<String, OsString>,
    flags: Vec<String>,
    pub plain: Vec<OsString>,
}

impl Arguments {
    /// `options` and `flags` are the names that the command knows, without their dashes.
    pub fn read(words: &[OsString], options: &[&str], flags: &[&str]) -> Result<Arguments> {
        let mut read = Arguments { options: HashMap::new(), flags: Vec::new(), plain: Vec::new() };
        let mut words = words.iter();
        while let Some(word) = words.next() {
            let Some(name) = word.to_str().and_then(|word| word.strip_prefix("--")) else {
                read.plain.push(word.clone());
                continue;
            };
            if name.is_empty() {
                read.plain.extend(words.cloned());
                break;
            }
            let (name, joined) = name.split_once('=').map_or((name, None), |(name, value)| (name, Some(OsString::from(value))));
            if flags.contains(&name) && joined.is_none() {
                read.flags.push(name.to_string());
            } else if options.contains(&name) {
                let value = joined.or_else(|| words.next().cloned()).ok_or_else(|| Failure::usage(format!("--{name} wants a value")))?;
                if read.options.insert(name.to_string(), value).is_some() {
                    return Err(Failure::usage(format!("--{name} is there twice")));
                }
            } else {
                return Err(Failure::usage(format!("--{name} is not an option of this command")));
            }
        }
        Ok(read)
    }

    pub fn flag(&self, name: &str) -> bool {
        self.flags.iter().any(|flag| flag == name)
    }

    pub fn option(&self, name: &str) -> Option<&OsStr> {
        self.options.get(name).map(OsString::as_os_str)
    }

    pub fn path(&self, name: &str) -> Result<PathBuf> {
        self.option(name).map(PathBuf::from).ok_or_else(|| Failure::usage(format!("--{name} FILE is missing")))
    }

    /// The value of an option that is UTF-8.
    pub fn words(&self, name: &str) -> Result<Option<&str>> {
        let Some(value) = self.option(name) else { return Ok(None) };
        value.to_str().map(Some).ok_or_else(|| Failure::usage(format!("--{name}: not UTF-8")))
    }

    /// A number within limits, or what stands for it where the option is missing.
    pub fn number(&self, name: &str, least: i64, most: i64, missing: i64) -> Result<i64> {
        let Some(text) = self.words(name)? else { return Ok(missing) };
        let number = text.parse().ok().filter(|number| (least..=most).contains(number));
        number.ok_or_else(|| Failure::usage(format!("--{name} {text}: a whole number from {least} to {most} is wanted")))
    }

    /// The bytes of an option's text (`\xNN` for any byte), or none where it is missing.
    pub fn bytes(&self, name: &str) -> Result<Option<Vec<u8>>> {
        let read = |value: &OsString| crate::text::bytes_of(value.as_bytes()).map_err(|why| Failure::usage(format!("--{name} {why}")));
        self.options.get(name).map(read).transpose()
    }

    /// The bytes of each plain word, which must be as many as are named.
    pub fn plain_bytes<const N: usize>(&self, names: [&str; N]) -> Result<[Vec<u8>; N]> {
        let read = |word: &OsString| crate::text::bytes_of(word.as_bytes()).map_err(Failure::usage);
        let words = self.plain.iter().map(read).collect::<Result<Vec<_>>>()?;
        words.try_into().map_err(|_| Failure::usage(format!("wanted: {}", if N == 0 { "no further word".into() } else { names.join(" ") })))
    }
}
