//! The three standard streams, and other open descriptors, as plain files.
//!
//! Rust's own handles hide what matters here: before `main` a closed stream is replaced by /dev/null, and a stream that can't
//! be read or written seems to be empty or to take everything. A sheet lost that way would count as written.

use std::ffi::c_int;
use std::fs::File;
use std::io;
use std::os::fd::FromRawFd;
use std::sync::atomic::{AtomicU8, Ordering};

pub const INPUT: c_int = 0;
pub const OUTPUT: c_int = 1;
pub const ERRORS: c_int = 2;

/// A file of its own over a descriptor that the process was given.
pub fn file(number: c_int) -> io::Result<File> {
    const F_DUPFD_CLOEXEC: c_int = 1030;
    if !was_given(number) {
        return Err(io::Error::other("it is closed"));
    }
    // SAFETY: a descriptor is copied or not; the copy is nobody else's.
    match unsafe { fcntl(number, F_DUPFD_CLOEXEC, ERRORS + 1) } {
        -1 => Err(io::Error::last_os_error()),
        copy => Ok(unsafe { File::from_raw_fd(copy) }),
    }
}

/// Whether a descriptor was open when the process began. Those that were opened since have the flag that closes them when
/// another program is begun; one that came to us from our caller can't have it. What stands for a closed stream has not.
fn was_given(number: c_int) -> bool {
    const FD_CLOEXEC: c_int = 1;
    let flags = flags(number);
    let closed = number <= ERRORS && CLOSED.load(Ordering::Relaxed) >> number & 1 == 1;
    flags != -1 && flags & FD_CLOEXEC == 0 && !closed
}

/// A descriptor's flags, -1 if it is closed.
fn flags(number: c_int) -> c_int {
    const F_GETFD: c_int = 1;
    // SAFETY: this only asks for the flags of a file descriptor, open or not.
    unsafe { fcntl(number, F_GETFD) }
}

/// Bit n is set if stream n was closed when the process began.
static CLOSED: AtomicU8 = AtomicU8::new(0);

/// Called by the system before Rust's own start.
#[used]
#[link_section = ".init_array"]
static AT_START: extern "C" fn() = note_closed;

extern "C" fn note_closed() {
    for number in INPUT..=ERRORS {
        if flags(number) == -1 {
            CLOSED.fetch_or(1 << number, Ordering::Relaxed);
        }
    }
}

extern "C" {
    fn fcntl(descriptor: c_int, command: c_int, ...) -> c_int;
}
