//! How far a survey is, on standard error where it is a terminal.

use std::io::{self, IsTerminal, Write};

pub struct Progress {
    label: &'static str,
    whole: usize,
    done: usize,
    // The hundredths shown last, where there is a terminal.
    shown: Option<usize>,
}

impl Progress {
    pub fn new(label: &'static str, whole: usize) -> Progress {
        let shown = io::stderr().is_terminal().then_some(0);
        Progress {
            label,
            whole,
            done: 0,
            shown,
        }
    }

    pub fn advance(&mut self, by: usize) {
        self.done += by;
        let hundredths = self.done * 100 / self.whole.max(1);
        if self.shown.is_some_and(|shown| shown < hundredths) {
            self.shown = Some(hundredths);
            let _ = write!(io::stderr(), "\r{} {hundredths} %", self.label);
        }
    }
}

// The line is cleared.
impl Drop for Progress {
    fn drop(&mut self) {
        if self.shown.is_some() {
            let _ = write!(io::stderr(), "\r\x1b[K");
        }
    }
}
