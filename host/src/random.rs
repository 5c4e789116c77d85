//! Numbers from the system's random source.

use std::fs::File;
use std::io::{self, Read};

/// 64 bits that nobody has seen before.
pub fn number() -> io::Result<u64> {
    let mut bytes = [0; 8];
    File::open("/dev/urandom")?.read_exact(&mut bytes)?;
    Ok(u64::from_be_bytes(bytes))
}
