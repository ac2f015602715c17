//! A long run is seen to live: where standard error is a terminal, a line there says for how long it has gone on, and is gone
//! when it ends.
//!
//! The work goes to a thread of its own, and the main thread waits for its end. So one thread draws the line, removes it and goes
//! on to what the run came to, and takes the signals too: no line can appear behind its end.

use crate::signals;
use crate::standard::ERRORS;
use crate::terminal::Terminal;
use std::panic::resume_unwind;
use std::sync::atomic::{AtomicUsize, Ordering::SeqCst};
use std::sync::mpsc::{channel, Receiver, RecvTimeoutError::Timeout};
use std::thread::{self, Builder};
use std::time::{Duration, Instant};

/// When the line appears, and how often it is renewed.
const FIRST: Duration = Duration::from_secs(2);
const EVERY: Duration = Duration::from_secs(1);
/// Twice what a call of the expander needs.
const STACK: usize = 2 << 20;

/// Columns of the line that stands on the terminal, 0 if none does.
static SHOWN: AtomicUsize = AtomicUsize::new(0);

/// Does the work, with the line if there is a terminal for it. The work is begun once only.
pub fn shown<T: Send>(mut work: impl FnMut() -> T + Send) -> T {
    let terminal = Terminal::behind(ERRORS);
    let done = terminal.and_then(|terminal| beside(&terminal, &mut work));
    done.unwrap_or_else(work)
}

/// Does the work beside the line; nothing if no thread can be had.
fn beside<T: Send>(terminal: &Terminal, work: impl FnOnce() -> T + Send) -> Option<T> {
    thread::scope(|scope| {
        let (end, ended) = channel::<()>();
        let worker = move || {
            let _end = end;
            work()
        };
        let builder = Builder::new().stack_size(STACK);
        let worker = signals::blocked(|| builder.spawn_scoped(scope, worker)).ok()?;
        tell_until(&ended, terminal);
        Some(worker.join().unwrap_or_else(|panic| resume_unwind(panic)))
    })
}

/// Draws the line again and again until the end comes, which no one sends: the other side is dropped.
fn tell_until(ended: &Receiver<()>, terminal: &Terminal) {
    let began = Instant::now();
    let mut wait = FIRST;
    while let Err(Timeout) = ended.recv_timeout(wait) {
        let worked = began.elapsed();
        draw(terminal, worked.as_secs());
        // Until the next whole second.
        wait = EVERY - Duration::from_nanos(worked.subsec_nanos().into());
    }
    wipe(terminal);
}

/// The cursor is left in front of the line, so that an echoed ^C goes with it.
fn draw(terminal: &Terminal, seconds: u64) {
    if terminal.is_ready() {
        let mut line = format!("quenhovach: still expanding, {seconds} s");
        line.truncate(terminal.columns().saturating_sub(1).min(Terminal::WIDEST));
        SHOWN.store(line.len(), SeqCst);
        terminal.write(format!("\r{line}\r").as_bytes());
    }
}

fn wipe(terminal: &Terminal) {
    let columns = SHOWN.load(SeqCst);
    if columns > 0 && terminal.is_ready() {
        terminal.wipe(columns);
    }
    SHOWN.store(0, SeqCst);
}

/// Removes the line where a signal ends the process. A handler may call it, in the thread that draws.
pub fn wipe_at_signal() {
    wipe(&Terminal::of(ERRORS));
}
