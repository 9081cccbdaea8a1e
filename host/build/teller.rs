//! Tells the user what is going on. Cargo keeps a build script's output to itself, so it goes to the terminal, if there
//! is one, as it comes; else cargo shows it as warnings when the script has ended.

use std::fs::{File, OpenOptions};
use std::io::Write;

pub struct Teller {
    terminal: Option<File>,
}

impl Teller {
    pub fn new() -> Teller {
        Teller { terminal: OpenOptions::new().write(true).open("/dev/tty").ok() }
    }

    pub fn tell(&mut self, news: &str) {
        // Cargo's own progress line stands where the cursor is: it is cleared first.
        let told = self.terminal.as_mut().map(|terminal| write!(terminal, "\r\x1b[K   Stephylax {news}\n"));
        if !matches!(told, Some(Ok(()))) {
            println!("cargo::warning={news}");
        }
    }
}
