//! Counts cases and prints the first differences; what a test is told, and what it says of bytes.
#![allow(dead_code)]

pub struct Report {
    pub cases: u64,
    pub differences: u64,
}

impl Report {
    pub fn new() -> Report {
        Report {
            cases: 0,
            differences: 0,
        }
    }

    /// One thing that must hold; `what` is printed where it does not.
    pub fn expect<F: FnOnce() -> String>(&mut self, holds: bool, what: F) {
        if !holds {
            self.differences += 1;
            if self.differences <= 10 {
                println!("DIFFERENCE: {}", what());
            }
        }
    }

    /// The last line, and the exit status: 0 where nothing differs and at least so many cases were tried.
    pub fn end(&self, name: &str, at_least: u64) -> ! {
        println!("{}: {} cases, {} differences", name, self.cases, self.differences);
        if self.cases < at_least {
            println!("{}: too few cases, at least {} were to be tried", name, at_least);
        }
        std::process::exit(if self.differences == 0 && self.cases >= at_least {
            0
        } else {
            1
        });
    }
}

/// The words that start the program under test: this test's arguments.
pub fn program_words(test: &str) -> Vec<String> {
    let words: Vec<String> = std::env::args().skip(1).collect();
    if words.is_empty() {
        eprintln!("usage: {} PROGRAM..", test);
        std::process::exit(2);
    }
    words
}

/// Bytes in hex, cut after 80.
pub fn hex(bytes: &[u8]) -> String {
    let mut s: Vec<String> = bytes.iter().take(80).map(|b| format!("{:02X}", b)).collect();
    if bytes.len() > 80 {
        s.push(format!(".. ({} bytes)", bytes.len()));
    }
    s.join(" ")
}

/// Where two strings differ first.
pub fn first_difference(expected: &[u8], got: &[u8]) -> String {
    match expected.iter().zip(got).position(|(a, b)| a != b) {
        Some(i) => format!("byte {} is {:02X} and should be {:02X}", i, got[i], expected[i]),
        None if expected.len() != got.len() => format!("{} bytes, and should be {}", got.len(), expected.len()),
        None => "no difference".to_string(),
    }
}
