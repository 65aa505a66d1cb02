//! A line on standard error while work takes long: what is going on, how far it is where that is known, and for how long. On a terminal it is written anew
//! twice a second, and is gone at the end; elsewhere there is a line every half minute.
use std::io::{IsTerminal, Write};
use std::sync::atomic::{AtomicUsize, Ordering};
use std::sync::mpsc::{channel, RecvTimeoutError};
use std::time::{Duration, Instant};

const STEP: Duration = Duration::from_millis(500);
const RARE_STEP: Duration = Duration::from_secs(30);
static DONE: AtomicUsize = AtomicUsize::new(0);
static TOTAL: AtomicUsize = AtomicUsize::new(0);

/// Where work has parts: so many of so many are done.
pub fn step(done: usize, total: usize) {
    DONE.store(done, Ordering::Relaxed);
    TOTAL.store(total, Ordering::Relaxed);
}

fn line(what: &str, seconds: f32) -> String {
    match TOTAL.load(Ordering::Relaxed) {
        0 => format!("{what}: {seconds:.1} s"),
        total => format!("{what}: {} of {total}, {seconds:.1} s", DONE.load(Ordering::Relaxed)),
    }
}

/// Runs `work`, and tells of it where it takes longer than a step.
pub fn during<T>(what: &str, work: impl FnOnce() -> T) -> T {
    step(0, 0); // the parts of other work before it are not its own
    let terminal = std::io::stderr().is_terminal();
    let (done, ended) = channel::<()>();
    let what = what.to_string();
    let teller = std::thread::spawn(move || {
        let start = Instant::now();
        let mut said = false;
        while ended.recv_timeout(if terminal { STEP } else { RARE_STEP }) == Err(RecvTimeoutError::Timeout) {
            said = true;
            let line = line(&what, start.elapsed().as_secs_f32());
            // where nobody hears it the work goes on
            let _ = if terminal { write!(std::io::stderr(), "\r{line} ") } else { writeln!(std::io::stderr(), "tools/unit: {line}") };
        }
        if said && terminal {
            let _ = write!(std::io::stderr(), "\r\x1b[K");
        }
    });
    let found = work();
    drop(done);
    let _ = teller.join();
    found
}
