//! How far a comparison is, on standard error: on a terminal one line, written anew twice a second; elsewhere a line every half minute.
use std::io::{IsTerminal, Write};
use std::time::{Duration, Instant};

pub struct Progress {
    terminal: bool,
    last: Instant,
}

impl Progress {
    pub fn new() -> Self {
        Progress { terminal: std::io::stderr().is_terminal(), last: Instant::now() }
    }

    pub fn tell(&mut self, drawings: u64, compared: u64) {
        if self.last.elapsed() < Duration::from_millis(if self.terminal { 500 } else { 30_000 }) {
            return;
        }
        self.last = Instant::now();
        let said = format!("{drawings} drawings, {compared} answers compared");
        // where nobody hears it the comparison goes on
        let _ = if self.terminal { write!(std::io::stderr(), "\r{said} ") } else { writeln!(std::io::stderr(), "{said}") };
    }

    pub fn end(&self) {
        if self.terminal {
            eprint!("\r\x1b[K");
        }
    }
}
