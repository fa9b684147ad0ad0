//! A pseudo-terminal with the independent module at its end, and a host program that sends to it.
#![allow(dead_code)]

use crate::module::{Condition, Tally};
use crate::rng::Rng;
use std::ffi::CStr;
use std::fs::{File, OpenOptions};
use std::io::{BufRead, BufReader, Read, Write};
use std::os::raw::{c_char, c_int};
use std::os::unix::fs::OpenOptionsExt;
use std::os::unix::io::{AsRawFd, FromRawFd};
use std::process::{Child, Command, Stdio};
use std::sync::mpsc::{channel, Receiver};
use std::sync::{Arc, Condvar, Mutex, MutexGuard};
use std::time::{Duration, Instant};

extern "C" {
    fn posix_openpt(flags: c_int) -> c_int;
    fn grantpt(file: c_int) -> c_int;
    fn unlockpt(file: c_int) -> c_int;
    fn ptsname(file: c_int) -> *const c_char;
    fn tcgetattr(file: c_int, settings: *mut Settings) -> c_int;
    fn tcsetattr(file: c_int, when: c_int, settings: *const Settings) -> c_int;
    fn kill(process: c_int, signal: c_int) -> c_int;
    fn waitpid(process: c_int, status: *mut c_int, options: c_int) -> c_int;
}
const O_RDWR: c_int = 2;
const O_NOCTTY: c_int = 0o400;
const O_CLOEXEC: c_int = 0o2_000_000;
const SIGCONT: c_int = 18;
const SIGSTOP: c_int = 19;
const WUNTRACED: c_int = 2;
/// A terminal's settings; more room than they need.
type Settings = [u64; 32];

/// No wait is longer, whatever the load.
const PATIENCE: Duration = Duration::from_secs(30);

/// The module's end. While an `end` is awaited the bytes are held: those before it are the host's.
struct Line {
    module: Condition,
    received: Tally,
    end: Vec<u8>,
    held: Vec<u8>,
}

impl Line {
    fn byte(&mut self, b: u8) {
        self.held.push(b);
        if self.held.ends_with(&self.end) {
            let own = self.held.len() - self.end.len();
            for &b in &self.held[..own] {
                self.received.count(self.module.flickerless, self.module.take(b));
            }
            self.held.clear();
            self.end.clear();
        }
    }
}

/// The terminal stays open here, so that a host that is killed does not hang up.
pub struct Wire {
    pub tty: String,
    terminal: File,
    settings: Settings,
    line: Arc<(Mutex<Line>, Condvar)>,
}

impl Wire {
    pub fn new() -> Wire {
        let (mut far_end, tty) = unsafe {
            let file = posix_openpt(O_RDWR | O_NOCTTY | O_CLOEXEC);
            assert!(
                file >= 0 && grantpt(file) == 0 && unlockpt(file) == 0,
                "a pseudo-terminal"
            );
            let name = CStr::from_ptr(ptsname(file)).to_str().expect("its name");
            (File::from_raw_fd(file), name.to_string())
        };
        let mut options = OpenOptions::new();
        options.read(true).write(true).custom_flags(O_NOCTTY);
        let terminal = options.open(&tty).expect("the pseudo-terminal");
        let mut settings = [0; 32];
        assert_eq!(unsafe { tcgetattr(terminal.as_raw_fd(), &mut settings) }, 0);
        let line = Line {
            module: Condition::power_up(0),
            received: Tally::ZERO,
            end: Vec::new(),
            held: Vec::new(),
        };
        let line = Arc::new((Mutex::new(line), Condvar::new()));
        let shared = Arc::clone(&line);
        std::thread::spawn(move || {
            let mut buffer = [0; 4096];
            loop {
                let n = far_end.read(&mut buffer).expect("bytes of the pseudo-terminal");
                let mut line = shared.0.lock().unwrap();
                buffer[..n].iter().for_each(|&b| line.byte(b));
                shared.1.notify_all();
            }
        });
        Wire {
            tty,
            terminal,
            settings,
            line,
        }
    }

    fn line(&self) -> MutexGuard<'_, Line> {
        self.line.0.lock().unwrap()
    }

    pub fn module(&self) -> Condition {
        self.line().module.clone()
    }

    /// What the module received since it was put there.
    pub fn received(&self) -> Tally {
        self.line().received
    }

    /// Another module in its place, or what became of it.
    pub fn put(&mut self, module: Condition) {
        let mut line = self.line();
        line.module = module;
        line.received = Tally::ZERO;
    }

    /// Waits until the module has received so many bytes.
    pub fn wait_for(&self, bytes: u64) {
        let short = |l: &mut Line| l.received.bytes < bytes;
        drop(self.line.1.wait_timeout_while(self.line(), PATIENCE, short));
    }

    /// Waits until the module has taken all that was sent. What is written to the terminal may come out
    /// later, so 16 random bytes are sent behind it: when they come out, all has. Nobody else may be
    /// sending.
    pub fn drain(&mut self, rng: &mut Rng) {
        let end: Vec<u8> = (0..16).map(|_| 0xA0 + rng.byte() % 0x60).collect();
        self.line().end = end.clone();
        self.terminal.write_all(&end).expect("the pseudo-terminal");
        let awaited = |l: &mut Line| !l.end.is_empty();
        let (line, late) = self.line.1.wait_timeout_while(self.line(), PATIENCE, awaited).unwrap();
        drop(line);
        assert!(!late.timed_out(), "what is sent to the pseudo-terminal comes out");
    }

    /// The terminal's first settings again, by which 0Ah is sent as 0Dh 0Ah: each host makes its own.
    pub fn put_settings_back(&self) {
        assert_eq!(unsafe { tcsetattr(self.terminal.as_raw_fd(), 0, &self.settings) }, 0);
    }
}

/// A host that runs. It is killed when it goes out of use.
pub struct Host {
    child: Child,
    lines: Receiver<String>,
}

impl Host {
    /// Starts it; what it says on standard error comes into a file.
    pub fn start(words: &[String], said: &str) -> Host {
        let mut command = Command::new(&words[0]);
        command.args(&words[1..]).stdin(Stdio::null());
        let said = File::create(said).expect("a file for what it says");
        let command = command.stdout(Stdio::piped()).stderr(said);
        let mut child = command.spawn().expect("the host starts");
        let mut out = BufReader::new(child.stdout.take().unwrap());
        let (sender, lines) = channel();
        std::thread::spawn(move || {
            let mut line = String::new();
            // half a line, left by a kill, says nothing
            while out.read_line(&mut line).unwrap_or(0) > 0 && line.ends_with('\n') {
                let _ = sender.send(line.trim_end_matches('\n').to_string());
                line.clear();
            }
        });
        Host { child, lines }
    }

    /// The next line that it prints.
    pub fn line(&self) -> String {
        let line = self.lines.recv_timeout(PATIENCE);
        line.unwrap_or_else(|e| format!("no line: {}", e))
    }

    /// Its exit status when it has ended by itself.
    pub fn status(mut self) -> Option<i32> {
        let began = Instant::now();
        while began.elapsed() < PATIENCE {
            if let Some(status) = self.child.try_wait().expect("the host's status") {
                return status.code();
            }
            std::thread::sleep(Duration::from_millis(1));
        }
        None
    }

    /// Stops it where it is.
    pub fn hold(&self) {
        let (process, mut status) = (self.child.id() as c_int, 0);
        assert_eq!(unsafe { kill(process, SIGSTOP) }, 0);
        assert_eq!(unsafe { waitpid(process, &mut status, WUNTRACED) }, process);
    }

    pub fn go_on(&self) {
        assert_eq!(unsafe { kill(self.child.id() as c_int, SIGCONT) }, 0);
    }
}

impl Drop for Host {
    fn drop(&mut self) {
        let _ = self.child.kill();
        let _ = self.child.wait();
    }
}
