//! The keys of identities, which are never arguments.

use crate::arguments::Arguments;
use crate::failure::{Failure, Result};
use crate::input;
use std::os::unix::ffi::OsStringExt;
use std::path::Path;

const MOST_KEY: usize = 64;
const MOST_KEY_FILE: usize = 4096;

/// The key of `--key-file`, else of RIDGELADLE_KEY.
pub fn key_of(arguments: &Arguments) -> Result<Vec<u8>> {
    let key = match arguments.option("key-file") {
        Some(path) => from_file(Path::new(path))?,
        None => from_environment("RIDGELADLE_KEY")
            .ok_or_else(|| Failure::usage("no key: --key-file FILE is missing, and so is RIDGELADLE_KEY in the environment"))?,
    };
    if (1..=MOST_KEY).contains(&key.len()) {
        Ok(key)
    } else {
        Err(Failure::data(format!("the key is {} bytes, where 1 to {MOST_KEY} are wanted", key.len())))
    }
}

/// A file's bytes, less one newline at its end.
pub fn from_file(path: &Path) -> Result<Vec<u8>> {
    let mut key = input::file(path, MOST_KEY_FILE)?;
    if key.last() == Some(&b'\n') {
        key.pop();
    }
    Ok(key)
}

pub fn from_environment(name: &str) -> Option<Vec<u8>> {
    std::env::var_os(name).map(OsStringExt::into_vec)
}
