//! A line on stderr that says how far a comparison has come: rewritten in place on a terminal, a
//! new one every few seconds elsewhere.

use std::io::{IsTerminal, stderr};
use std::time::{Duration, Instant};

pub struct Progress {
    name: String,
    terminal: bool,
    start: Instant,
    told: Instant,
    looked: Instant,
    count: u64,
    /// The count at which the clock is looked at next, and how many are between two looks.
    next: u64,
    stride: u64,
}

impl Progress {
    pub fn new(name: &str) -> Self {
        let now = Instant::now();
        Self {
            name: name.into(),
            terminal: stderr().is_terminal(),
            start: now,
            told: now,
            looked: now,
            count: 0,
            next: 1,
            stride: 1,
        }
    }

    pub fn count(&self) -> u64 {
        self.count
    }

    /// Cases a second.
    pub fn rate(&self) -> f64 {
        self.count as f64 / self.start.elapsed().as_secs_f64()
    }

    /// One case more.
    pub fn step(&mut self) {
        self.count += 1;
        if self.count >= self.next {
            self.look();
        }
    }

    /// Looks at the clock, so that it does so some ten to a hundred times a second.
    fn look(&mut self) {
        let now = Instant::now();
        self.stride = match now - self.looked {
            short if short < Duration::from_millis(10) => self.stride * 2,
            long if long > Duration::from_millis(100) => (self.stride / 2).max(1),
            _ => self.stride,
        };
        self.looked = now;
        self.next = self.count + self.stride;
        let pause = if self.terminal { 200 } else { 5_000 };
        if now - self.told >= Duration::from_millis(pause) {
            self.told = now;
            self.tell();
        }
    }

    fn tell(&self) {
        let (name, count, rate) = (&self.name, self.count, self.rate());
        let seconds = self.start.elapsed().as_secs();
        let line = format!("  {name}: {count} inputs, {rate:.0} a second, {seconds} s");
        if self.terminal {
            eprint!("\r{line}\x1b[K");
        } else {
            eprintln!("{line}");
        }
    }

    /// Takes the line from the terminal.
    pub fn end(&self) {
        if self.terminal {
            eprint!("\r\x1b[K");
        }
    }
}
