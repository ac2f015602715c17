//! Work in a child process, so that a case that traps or does not end is reported and not only ends
//! the test.

use std::io::Write;
use std::ops::Range;
use std::panic::{catch_unwind, AssertUnwindSafe};

/// Functions of the C library and their constants on Linux.
pub mod libc {
    use std::ffi::c_void;

    pub const PROT_NONE: i32 = 0;
    pub const PROT_READ: i32 = 1;
    pub const PROT_WRITE: i32 = 2;
    pub const MAP_SHARED: i32 = 0x01;
    pub const MAP_PRIVATE: i32 = 0x02;
    pub const MAP_ANONYMOUS: i32 = 0x20;
    pub const MAP_NORESERVE: i32 = 0x4000;
    pub const SIGALRM: i32 = 14;
    pub const SIGSEGV: i32 = 11;

    extern "C" {
        pub fn fork() -> i32;
        pub fn waitpid(process: i32, status: *mut i32, options: i32) -> i32;
        pub fn alarm(seconds: u32) -> u32;
        pub fn mmap(
            at: *mut c_void,
            length: usize,
            protection: i32,
            flags: i32,
            file: i32,
            offset: i64,
        ) -> *mut c_void;
        pub fn munmap(at: *mut c_void, length: usize) -> i32;
        pub fn mprotect(at: *mut c_void, length: usize, protection: i32) -> i32;
        pub fn malloc(length: usize) -> *mut c_void;
        pub fn free(block: *mut c_void);
    }

    /// Fresh memory of this process, or shared with its children.
    pub fn map(length: usize, protection: i32, flags: i32) -> *mut u8 {
        // SAFETY: an anonymous mapping at an address of the system's choice.
        let start = unsafe {
            mmap(
                std::ptr::null_mut(),
                length,
                protection,
                flags | MAP_ANONYMOUS,
                -1,
                0,
            )
        };
        assert!(start as isize != -1, "mmap of {length} bytes failed");
        start.cast()
    }
}

/// The longest that one case may take, in seconds.
const PATIENCE: u32 = 60;
/// After so many failures a run stops.
const FAILURES: usize = 3;

/// How far a child came; both processes see it.
pub struct Progress(*mut u64);

impl Progress {
    fn new() -> Progress {
        Progress(libc::map(8, libc::PROT_READ | libc::PROT_WRITE, libc::MAP_SHARED).cast())
    }

    /// The child is about to run this case; from now on it has some time for it.
    pub fn at(&self, index: u64) {
        // SAFETY: the mapping holds one number.
        unsafe {
            self.0.write_volatile(index);
            libc::alarm(PATIENCE);
        }
    }

    /// What follows is no case and may take its time.
    pub fn rest() {
        // SAFETY: takes back the alarm of `at`.
        unsafe { libc::alarm(0) };
    }

    fn last(&self) -> u64 {
        // SAFETY: as above.
        unsafe { self.0.read_volatile() }
    }
}

impl Drop for Progress {
    fn drop(&mut self) {
        // SAFETY: the mapping was made by `new`.
        unsafe { libc::munmap(self.0.cast(), 8) };
    }
}

/// How a child ended.
#[derive(Clone, Copy, Debug, PartialEq, Eq)]
pub enum End {
    /// It came to its end, with this verdict.
    Verdict(bool),
    /// A signal ended it in this case.
    Killed { signal: i32, index: u64 },
    /// The test itself has a mistake.
    Panicked,
}

impl End {
    /// What to say of a child that was killed.
    pub fn shown(self) -> String {
        match self {
            End::Killed {
                signal: libc::SIGALRM,
                ..
            } => format!("did not end within {PATIENCE} seconds"),
            End::Killed {
                signal: libc::SIGSEGV,
                ..
            } => "reached outside of what was lent, or wrote to what is only read (SIGSEGV)"
                .to_string(),
            End::Killed { signal, .. } => format!("was ended by signal {signal}"),
            other => format!("{other:?}"),
        }
    }
}

/// Runs `work` in a child process and waits for it.
pub fn supervise(work: impl FnOnce(&Progress) -> bool) -> End {
    let progress = Progress::new();
    std::io::stdout().flush().expect("standard output");
    // SAFETY: this process has one thread.
    let child = unsafe { libc::fork() };
    assert!(child >= 0, "fork failed");
    if child == 0 {
        let verdict = catch_unwind(AssertUnwindSafe(|| work(&progress)));
        std::io::stdout().flush().expect("standard output");
        std::process::exit(match verdict {
            Ok(true) => 0,
            Ok(false) => 1,
            Err(_) => 101,
        });
    }
    let mut status = 0;
    // SAFETY: waits for the child just made.
    let waited = unsafe { libc::waitpid(child, &mut status, 0) };
    assert_eq!(waited, child, "waitpid failed");
    match (status & 0x7f, status >> 8 & 0xff) {
        (0, 0) => End::Verdict(true),
        (0, 1) => End::Verdict(false),
        (0, _) => End::Panicked,
        (signal, _) => End::Killed {
            signal,
            index: progress.last(),
        },
    }
}

/// Tries numbered cases in a child process and tells of each that fails. One that traps is told of
/// too, and the run goes on behind it.
pub fn try_each(
    indexes: Range<u64>,
    mut try_case: impl FnMut(u64) -> Result<(), String>,
    tell: impl Fn(u64, &str),
) -> bool {
    let mut from = indexes.start;
    let mut killed = 0;
    loop {
        let left = from..indexes.end;
        let end = supervise(|progress| all_pass(progress, left, &mut try_case, &tell));
        let End::Killed { index, .. } = end else {
            return end == End::Verdict(true) && killed == 0;
        };
        tell(index, &end.shown());
        killed += 1;
        if killed == FAILURES {
            return false;
        }
        from = index + 1;
    }
}

/// Tries numbered cases in this process and tells of each that fails.
pub fn all_pass(
    progress: &Progress,
    indexes: Range<u64>,
    mut try_case: impl FnMut(u64) -> Result<(), String>,
    tell: impl Fn(u64, &str),
) -> bool {
    let mut failed = 0;
    for index in indexes {
        progress.at(index);
        if let Err(what) = try_case(index) {
            tell(index, &what);
            failed += 1;
        }
        if failed == FAILURES {
            break;
        }
    }
    failed == 0
}
