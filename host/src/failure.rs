//! Why a command failed: a message for people, and the number that it exits with.

use std::fmt::Display;
use std::io;
use std::path::Path;

/// Exit codes from 2 to 20 are Kinetic's status codes (client commands); the rest are BSD's (sysexits).
pub struct Failure {
    pub code: u8,
    pub message: String,
}

pub type Result<T> = std::result::Result<T, Failure>;

impl Failure {
    /// The words of the command were wrong.
    pub fn usage(message: impl Display) -> Failure {
        Failure { code: 64, message: message.to_string() }
    }

    /// A file, or what a peer sent, is not what it should be.
    pub fn data(message: impl Display) -> Failure {
        Failure { code: 65, message: message.to_string() }
    }

    /// No box was reached, or the connection was lost.
    pub fn unreachable(message: impl Display) -> Failure {
        Failure { code: 69, message: message.to_string() }
    }

    /// The system could not do it: a file is missing, the disk is full, the port is in use.
    pub fn system(message: impl Display) -> Failure {
        Failure { code: 74, message: message.to_string() }
    }

    /// A limit that was asked about is reached.
    pub fn limit(message: impl Display) -> Failure {
        Failure { code: 75, message: message.to_string() }
    }

    /// The system could not do it to that file.
    pub fn file(path: &Path, why: io::Error) -> Failure {
        Failure::system(format!("{}: {why}", path.display()))
    }
}
