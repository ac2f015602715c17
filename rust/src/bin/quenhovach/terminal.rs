//! A terminal to draw a line on, which never has us wait. All of it may be called in a handler of signals.

use std::ffi::{c_int, c_short, c_ulong, c_ushort};

/// A terminal, by its descriptor.
pub struct Terminal(c_int);

impl Terminal {
    /// The most columns that `wipe` removes.
    pub const WIDEST: usize = 80;

    /// The terminal behind a descriptor, if it is one.
    pub fn behind(number: c_int) -> Option<Terminal> {
        // SAFETY: this only asks.
        (unsafe { isatty(number) } == 1).then_some(Terminal(number))
    }

    /// What is known to be one.
    pub fn of(number: c_int) -> Terminal {
        Terminal(number)
    }

    /// Whether it is ours to draw on, and takes something at once: not where another job is in front, whose lines would be
    /// drawn over (and `stty tostop` would stop us), nor where output is stopped (Ctrl-S).
    pub fn is_ready(&self) -> bool {
        const POLLOUT: c_short = 4;
        let mut asked = PollFd {
            descriptor: self.0,
            events: POLLOUT,
            returned: 0,
        };
        // SAFETY: these only ask; `asked` is one entry, as said, and outlives the call.
        let (in_front, found) = unsafe {
            let front = tcgetpgrp(self.0);
            // -1: it is no terminal that controls us, and knows nothing of jobs.
            (front == -1 || front == getpgrp(), poll(&mut asked, 1, 0))
        };
        in_front && found == 1 && asked.returned & POLLOUT != 0
    }

    /// Its width; 80 where it doesn't say.
    pub fn columns(&self) -> usize {
        const TIOCGWINSZ: c_ulong = 0x5413;
        let mut size = [0 as c_ushort; 4];
        // SAFETY: the call fills a `struct winsize`, four short numbers: rows, columns and two in pixels.
        let answer = unsafe { ioctl(self.0, TIOCGWINSZ, size.as_mut_ptr()) };
        match size[1] {
            columns @ 1.. if answer == 0 => columns.into(),
            _ => 80,
        }
    }

    /// Writes, as far as that goes: a line that is missing harms no one.
    pub fn write(&self, bytes: &[u8]) {
        // SAFETY: the pointer comes with the length of its slice.
        unsafe { write(self.0, bytes.as_ptr(), bytes.len()) };
    }

    /// Blanks over so many columns from the left, and the cursor to the left.
    pub fn wipe(&self, columns: usize) {
        const BLANKS: [u8; Terminal::WIDEST] = [b' '; Terminal::WIDEST];
        self.write(b"\r");
        self.write(&BLANKS[..columns.min(Terminal::WIDEST)]);
        self.write(b"\r");
    }
}

#[repr(C)]
struct PollFd {
    descriptor: c_int,
    events: c_short,
    returned: c_short,
}

extern "C" {
    fn isatty(descriptor: c_int) -> c_int;
    fn tcgetpgrp(descriptor: c_int) -> c_int;
    fn getpgrp() -> c_int;
    fn poll(entries: *mut PollFd, count: c_ulong, milliseconds: c_int) -> c_int;
    fn ioctl(descriptor: c_int, request: c_ulong, ...) -> c_int;
    fn write(descriptor: c_int, bytes: *const u8, count: usize) -> isize;
}
