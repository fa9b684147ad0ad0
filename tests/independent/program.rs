//! Runs a program on an input and compares all that it writes with what is expected.

use crate::report::{first_difference, hex, program_words, Report};
use std::fs::File;
use std::io::{Read, Write};
use std::process::{Command, Stdio};
use std::time::Duration;

/// How the input reaches the program.
#[derive(Clone, Copy, PartialEq)]
pub enum By {
    Pipe,
    Pieces,
    File,
}

/// A program, and what it is to write for an input.
pub struct Program {
    name: &'static str,
    words: Vec<String>,
    expected: fn(&[u8]) -> String,
    report: Report,
}

impl Program {
    /// The program that this one's arguments start.
    pub fn new(name: &'static str, expected: fn(&[u8]) -> String) -> Program {
        Program {
            name,
            words: program_words(name),
            expected,
            report: Report::new(),
        }
    }

    pub fn try_on(&mut self, input: &[u8], by: By) {
        let mut command = Command::new(&self.words[0]);
        command
            .args(&self.words[1..])
            .stdout(Stdio::piped())
            .stderr(Stdio::piped());
        let path = std::env::temp_dir().join(format!("{}-input-{}", self.name, std::process::id()));
        if by == By::File {
            File::create(&path)
                .and_then(|mut f| f.write_all(input))
                .expect("a temporary file");
            command.stdin(File::open(&path).expect("a temporary file"));
        } else {
            command.stdin(Stdio::piped());
        }
        let mut child = command.spawn().expect("the program starts");
        if let Some(mut pipe) = child.stdin.take() {
            // the program may stop reading once it has too much, so a broken pipe is no fault
            if by == By::Pieces {
                let size = input.len() / 5 + 1;
                for piece in input.chunks(size) {
                    if pipe.write_all(piece).and_then(|_| pipe.flush()).is_err() {
                        break;
                    }
                    std::thread::sleep(Duration::from_millis(2));
                }
            } else {
                let _ = pipe.write_all(input);
            }
        }
        let mut out = Vec::new();
        let mut err = Vec::new();
        child
            .stdout
            .take()
            .unwrap()
            .read_to_end(&mut out)
            .expect("standard output");
        child
            .stderr
            .take()
            .unwrap()
            .read_to_end(&mut err)
            .expect("standard error");
        let status = child.wait().expect("the program ends");
        if by == By::File {
            let _ = std::fs::remove_file(&path);
        }
        let expected = (self.expected)(input);
        self.report.cases += 1;
        self.report.expect(out == expected.as_bytes(), || {
            format!(
                "input {}\n  {}\n--- expected\n{}--- got\n{}---",
                hex(input),
                first_difference(expected.as_bytes(), &out),
                expected,
                String::from_utf8_lossy(&out)
            )
        });
        self.report.expect(err.is_empty() && status.success(), || {
            format!(
                "input {}\n  {}; standard error: {}",
                hex(input),
                status,
                String::from_utf8_lossy(&err)
            )
        });
    }

    pub fn on(&mut self, input: &[u8]) {
        self.try_on(input, By::Pipe);
    }

    /// As many characters as the input has bytes; the input, by every way.
    pub fn on_length(&mut self, input: &[u8]) {
        self.on(&vec![0x41; input.len()]);
        for by in [By::Pipe, By::File, By::Pieces] {
            self.try_on(input, by);
        }
    }

    pub fn end(&self, at_least: u64) -> ! {
        self.report.end(self.name, at_least)
    }
}
