//! The box as a program: a server over TCP, a client, and the care of its image, over the proved calls (docs/OPERATING.md).

pub mod arguments;
pub mod client;
pub mod commands;
pub mod failure;
pub mod format;
pub mod help;
pub mod image;
pub mod input;
pub mod keeper;
pub mod key;
pub mod library;
pub mod log;
pub mod peers;
pub mod place;
pub mod random;
pub mod readings_file;
pub mod rescue;
pub mod reset;
pub mod rows;
pub mod server;
pub mod show;
pub mod status;
pub mod system;
pub mod table_file;
pub mod tag;
pub mod text;
pub mod wire;

use std::fmt::Display;
use std::io::Write;

/// A line on standard error, why a command failed. What a server says while it serves goes through `log`.
pub fn say(words: impl Display) {
    let _ = writeln!(std::io::stderr(), "ridgeladle: {words}");
}
