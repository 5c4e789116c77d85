//! The system's calls that Rust's library lacks. All `unsafe` that is not in `library` is in this file: each call gets numbers, or a
//! signal set of its own.
#![allow(unsafe_code)]

use std::io;
use std::net::TcpListener;
use std::os::fd::AsRawFd;

/// Flags of opening a file, on x86-64.
pub const O_NONBLOCK: i32 = 0o4000;
pub const O_NOFOLLOW: i32 = 0o400000;

const SIGINT: i32 = 2;
const SIGTERM: i32 = 15;
const SIGXFSZ: i32 = 25;
const SIG_IGN: usize = 1;
const SIG_BLOCK: i32 = 0;

/// A `sigset_t`: 1,024 bits on Linux.
#[repr(C)]
struct SignalSet([u64; 16]);

unsafe extern "C" {
    fn listen(socket: i32, backlog: i32) -> i32;
    fn signal(number: i32, handler: usize) -> usize;
    fn sigaddset(set: *mut SignalSet, number: i32) -> i32;
    fn pthread_sigmask(how: i32, set: *const SignalSet, old: *mut SignalSet) -> i32;
    fn sigwait(set: *const SignalSet, number: *mut i32) -> i32;
}

/// A file that would grow past a limit on its size is a failed write like others, and not the end of the program.
pub fn outlive_size_limit() {
    unsafe { signal(SIGXFSZ, SIG_IGN) };
}

/// Lets so many peers wait to be accepted; Rust's library says 128. Past that the system drops one, who tries again a second later.
pub fn queue(listener: &TcpListener, most: i32) -> io::Result<()> {
    if unsafe { listen(listener.as_raw_fd(), most) } == 0 { Ok(()) } else { Err(io::Error::last_os_error()) }
}

extern "C" fn never_called(_: i32) {}

/// SIGINT and SIGTERM, held back from the threads that are started after this, until someone waits for them.
pub struct EndSignals(SignalSet);

impl EndSignals {
    /// The handler is never called, since the signals are held back. It is there because POSIX leaves open whether a signal that is ignored, as whoever
    /// started this process may have it, is kept while it is held back. Linux keeps it, in process 1 too.
    pub fn hold_back() -> io::Result<EndSignals> {
        let mut set = SignalSet([0; 16]);
        for number in [SIGINT, SIGTERM] {
            unsafe {
                signal(number, never_called as *const () as usize);
                sigaddset(&mut set, number);
            }
        }
        match unsafe { pthread_sigmask(SIG_BLOCK, &set, std::ptr::null_mut()) } {
            0 => Ok(EndSignals(set)),
            number => Err(io::Error::from_raw_os_error(number)),
        }
    }

    /// The name of the signal that came.
    pub fn wait(&self) -> &'static str {
        let mut number = 0;
        while unsafe { sigwait(&self.0, &mut number) } != 0 {}
        if number == SIGINT { "SIGINT" } else { "SIGTERM" }
    }
}
