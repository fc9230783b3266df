//! A line on the terminal that says how far a check has come, where somebody looks.

use std::io::{self, IsTerminal, Write};

pub struct Progress {
    is_on: bool,
    at: usize,
    of: usize,
}

impl Progress {
    pub fn new(of: usize) -> Self {
        Self { is_on: io::stderr().is_terminal(), at: 0, of }
    }

    /// One archive more is looked at.
    pub fn show(&mut self) {
        self.at += 1;
        self.tell(&format!("\rchecking {} of {}\x1b[K", self.at, self.of));
    }

    /// Makes room for a line of output, which may go to the same terminal.
    pub fn clear(&self) {
        self.tell("\r\x1b[K");
    }

    fn tell(&self, line: &str) {
        if self.is_on {
            // That it cannot be shown is no failure of the check.
            let _ = io::stderr().write_all(line.as_bytes());
        }
    }
}
