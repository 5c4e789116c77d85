//! Files that people name, read up to a limit.

use crate::failure::{Failure, Result};
use crate::system::O_NONBLOCK;
use std::fs::{File, OpenOptions};
use std::io::Read;
use std::os::unix::fs::OpenOptionsExt;
use std::path::Path;

pub fn file(path: &Path, most: usize) -> Result<Vec<u8>> {
    let file = File::open(path).map_err(|why| Failure::file(path, why))?;
    all(file, path, most)
}

/// The start of a regular file, and the whole's length. Whatever else has that name, a pipe for one, is not waited for.
pub fn regular_start(path: &Path, most: usize) -> Result<(Vec<u8>, u64)> {
    let failed = |why| Failure::file(path, why);
    let file = OpenOptions::new().read(true).custom_flags(O_NONBLOCK).open(path).map_err(failed)?;
    let there = file.metadata().map_err(failed)?;
    if !there.is_file() {
        return Err(Failure::data(format!("{} is not a file", path.display())));
    }
    let mut bytes = Vec::new();
    file.take(most as u64).read_to_end(&mut bytes).map_err(failed)?;
    Ok((bytes, there.len()))
}

/// All that there is to read; the path is for messages.
pub fn all(from: impl Read, path: &Path, most: usize) -> Result<Vec<u8>> {
    let mut bytes = Vec::new();
    from.take(most as u64 + 1).read_to_end(&mut bytes).map_err(|why| Failure::file(path, why))?;
    if bytes.len() > most {
        return Err(Failure::data(format!("{}: over {most} bytes", path.display())));
    }
    Ok(bytes)
}
