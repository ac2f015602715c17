//! No temporary file outlives the process where a signal ends it, and a file that would grow over its limit (`ulimit -f`) is an
//! error of the write and no signal.
//!
//! A handler may run between any two instructions, and is allowed little: here it reads atomics and calls `unlink`, `signal`
//! and `raise`, and for the line of a long run `tcgetpgrp`, `getpgrp`, `poll` and `write`. POSIX lists them all as safe there.
//! It runs in the main thread, since any other is begun with these signals blocked.

use crate::progress;
use std::ffi::{c_char, c_int, CString};
use std::io;
use std::os::unix::ffi::OsStrExt;
use std::path::Path;
use std::ptr::null_mut;
use std::sync::atomic::{AtomicBool, AtomicI32, AtomicPtr, Ordering::SeqCst};

/// What people, timers and limits end a process with: SIGHUP, SIGINT, SIGQUIT, SIGUSR1, SIGUSR2, SIGALRM, SIGTERM, SIGXCPU.
const ENDING: [c_int; 8] = [1, 2, 3, 10, 12, 14, 15, 24];
const SIGXFSZ: c_int = 25;
const SIG_DFL: usize = 0;
const SIG_IGN: usize = 1;

/// Paths of the temporary files that are there, null where none is: one for the sheet and one for the report.
static WATCHED: [AtomicPtr<c_char>; 2] = [const { AtomicPtr::new(null_mut()) }; 2];
/// Whether signals wait, and the one that came meanwhile (0 if none).
static HELD: AtomicBool = AtomicBool::new(false);
static CAME: AtomicI32 = AtomicI32::new(0);

/// Called once, before any file is made.
pub fn prepare() {
    set(SIGXFSZ, SIG_IGN);
    held(|| ENDING.into_iter().for_each(take));
}

/// Has a signal handled, unless our caller has us ignore it (nohup).
fn take(number: c_int) {
    if set(number, handle as extern "C" fn(c_int) as usize) == SIG_IGN {
        set(number, SIG_IGN);
        let _ = CAME.compare_exchange(number, 0, SeqCst, SeqCst);
    }
}

/// Does what makes or removes a temporary file, together with its watch: a signal waits until both are done.
pub fn held<T>(work: impl FnOnce() -> T) -> T {
    HELD.store(true, SeqCst);
    let done = work();
    HELD.store(false, SeqCst);
    let came = CAME.load(SeqCst);
    if came != 0 {
        end_by(came);
    }
    done
}

/// Begins a thread in which none of the signals is handled: it has them blocked from its first instruction.
pub fn blocked<T>(begin: impl FnOnce() -> T) -> T {
    const SIG_BLOCK: c_int = 0;
    const SIG_SETMASK: c_int = 2;
    let (mut ending, mut before) = ([0; SET_WORDS], [0; SET_WORDS]);
    // SAFETY: these change sets of signals, which are ours, and which of them this thread has blocked.
    unsafe {
        sigemptyset(&mut ending);
        for number in ENDING {
            sigaddset(&mut ending, number);
        }
        pthread_sigmask(SIG_BLOCK, &ending, &mut before);
    }
    let begun = begin();
    // SAFETY: likewise; what was blocked before is again.
    unsafe { pthread_sigmask(SIG_SETMASK, &before, null_mut()) };
    begun
}

/// A file that is removed where a signal ends the process, until this is dropped.
pub struct Watch(&'static AtomicPtr<c_char>);

impl Watch {
    pub fn on(path: &Path) -> io::Result<Watch> {
        // Never freed, so that the handler finds it whole.
        let path = CString::new(path.as_os_str().as_bytes())?.into_raw();
        let free = |place: &&AtomicPtr<c_char>| {
            let taken = place.compare_exchange(null_mut(), path, SeqCst, SeqCst);
            taken.is_ok()
        };
        let place = WATCHED.iter().find(free);
        place.map(Watch).ok_or(io::ErrorKind::Other.into())
    }
}

impl Drop for Watch {
    fn drop(&mut self) {
        self.0.store(null_mut(), SeqCst);
    }
}

extern "C" fn handle(number: c_int) {
    if HELD.load(SeqCst) {
        CAME.store(number, SeqCst);
    } else {
        end_by(number);
    }
}

/// Removes what is watched and the line of a long run, and ends the process by the signal, so that its parent sees which. In the handler the signal is
/// blocked, and comes on the return.
fn end_by(number: c_int) {
    for place in &WATCHED {
        let path = place.load(SeqCst);
        if !path.is_null() {
            // SAFETY: it is a whole C string, and never freed.
            unsafe { unlink(path) };
        }
    }
    progress::wipe_at_signal();
    set(number, SIG_DFL);
    // SAFETY: a signal to ourselves, with its default action.
    unsafe { raise(number) };
}

/// Sets what a signal does; what it did before.
fn set(number: c_int, action: usize) -> usize {
    // SAFETY: the action is SIG_DFL, SIG_IGN or `handle`, which does only what a handler may.
    unsafe { signal(number, action) }
}

/// A `sigset_t` has 1,024 bits.
const SET_WORDS: usize = 16;
type SignalSet = [u64; SET_WORDS];

extern "C" {
    fn sigemptyset(set: *mut SignalSet) -> c_int;
    fn sigaddset(set: *mut SignalSet, number: c_int) -> c_int;
    fn pthread_sigmask(how: c_int, set: *const SignalSet, before: *mut SignalSet) -> c_int;
    fn signal(number: c_int, action: usize) -> usize;
    fn raise(number: c_int) -> c_int;
    fn unlink(path: *const c_char) -> c_int;
}
