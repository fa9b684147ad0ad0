//! A tool that is called with the names of files, in a folder: calls of it, what it is to say, and a bench that makes
//! the calls, holds all that they leave against what they should, and counts what was met.
#![allow(dead_code)]

use crate::folder::{self, allow, other_things, Ended, Folder, Things};
use crate::report::{program_words, Report};
use crate::rng::Rng;
use std::collections::BTreeSet;
use std::ffi::{OsStr, OsString};
use std::fs;
use std::os::unix::ffi::OsStrExt;
use std::process::{Command, Stdio};

extern "C" {
    fn geteuid() -> u32;
}

/// May this user do everything?
pub fn is_root() -> bool {
    unsafe { geteuid() == 0 }
}

/// Whose name stands before the system's words: the call's, by its place, or that of the temporary file beside it.
#[derive(Clone, Copy)]
pub enum Whose {
    Name(usize),
    Temporary(usize),
}

/// What stands on standard error.
pub enum Said<'a> {
    Nothing,
    /// One of these names, and the system's words.
    Failed(&'a [Whose], &'a str),
    Usage,
    /// A line, whatever it says: that of a name which cannot be a path.
    ALine,
}

/// One call of the tool: its names, and all with which it is started.
pub struct Call {
    pub names: Vec<OsString>,
    pub command: Command,
    /// What comes through standard input, where that is a pipe.
    pub given: Vec<u8>,
}

impl Call {
    fn named(&self, whose: Whose, process: u32) -> Vec<u8> {
        match whose {
            Whose::Name(i) => self.names[i].as_bytes().to_vec(),
            Whose::Temporary(i) => [self.names[i].as_bytes(), format!(".{}.part", process).as_bytes()].concat(),
        }
    }
}

/// A line with 0 for each number.
fn without_numbers(line: &str) -> String {
    let number = |word: &str| if word.bytes().all(|b| b.is_ascii_digit()) { "0" } else { word }.to_string();
    line.split(' ').map(number).collect::<Vec<_>>().join(" ")
}

/// The first line that differs, for what is printed of a difference.
fn first_line(expected: &str, got: &str) -> String {
    let (mut right, mut is) = (expected.lines(), got.lines());
    loop {
        match (right.next(), is.next()) {
            (None, None) => return "the lines end otherwise".to_string(),
            (right, is) if right != is => {
                let word = |line: Option<&str>| line.map_or("no line".to_string(), |l| format!("'{}'", l));
                return format!("{} is printed and should be {}", word(is), word(right));
            }
            _ => {}
        }
    }
}

pub struct Bench {
    name: &'static str,
    /// What the tool calls its names, in its usage.
    labels: &'static [&'static str],
    pub words: Vec<OsString>,
    pub folder: Folder,
    pub report: Report,
    pub rng: Rng,
    /// The lines and the failures that were met, without their numbers and names.
    met: BTreeSet<String>,
    /// How many files were laid, which decides what stands there besides and how they are named.
    pub files: usize,
}

impl Bench {
    /// The bench for the tool that this program's arguments start. It runs in another folder, so that they must be
    /// whole paths.
    pub fn new(name: &'static str, labels: &'static [&'static str], seed: u64) -> Bench {
        let found = |word: String| match fs::canonicalize(&word) {
            Ok(path) if word.contains('/') => path.into_os_string(),
            _ => word.into(),
        };
        Bench {
            name,
            labels,
            words: program_words(name).into_iter().map(found).collect(),
            folder: Folder::new(name),
            report: Report::new(),
            rng: Rng::new(seed),
            met: BTreeSet::new(),
            files: 0,
        }
    }

    /// The tool on any arguments, in the folder.
    pub fn command<N: AsRef<OsStr>>(&self, words: &[OsString], arguments: &[N]) -> Command {
        let mut command = Command::new(&words[0]);
        command.args(&words[1..]).args(arguments).env("LC_ALL", "C");
        command.current_dir(self.folder.path()).stdin(Stdio::null());
        command
    }

    pub fn call_with<N: AsRef<OsStr>>(&self, words: &[OsString], names: &[N]) -> Call {
        let names: Vec<OsString> = names.iter().map(|name| name.as_ref().to_owned()).collect();
        Call { command: self.command(words, &names), names, given: vec![] }
    }

    /// The tool, started by a line of the shell as `"$@"`.
    pub fn call_in_shell<N: AsRef<OsStr>>(&self, line: &str, names: &[N]) -> Call {
        let shell = ["sh", "-c", line, "sh"].map(OsString::from);
        self.call_with(&[&shell[..], &self.words[..]].concat(), names)
    }

    /// Is this what the tool should have said?
    pub fn is_right(&self, call: &Call, said: &Said, ended: &Ended) -> bool {
        match said {
            Said::Nothing => ended.err.is_empty(),
            Said::Usage => ended.err == format!("{}\n", self.usage()).as_bytes(),
            Said::ALine => {
                ended.err.len() > 1 && ended.err.iter().position(|&b| b == b'\n') == Some(ended.err.len() - 1)
            }
            Said::Failed(names, words) => names.iter().any(|&whose| {
                let name = call.named(whose, ended.process);
                ended.err == [&name, &b": "[..], words.as_bytes(), b"\n"].concat()
            }),
        }
    }

    pub fn usage(&self) -> String {
        format!("usage: {} {}", self.name, self.labels.join(" "))
    }

    /// What it said, with the usage's words for its names, so that it can be counted.
    fn failure(&self, call: &Call, ended: &Ended) -> String {
        let places = (0..call.names.len().min(self.labels.len())).rev();
        let all = places.clone().map(Whose::Temporary).chain(places.map(Whose::Name));
        let is = |whose: &Whose| {
            ended.err.starts_with(&[call.named(*whose, ended.process), b": ".to_vec()].concat())
        };
        let (name, label) = match all.into_iter().find(is) {
            Some(whose @ Whose::Name(i)) => (call.named(whose, 0), self.labels[i].to_string()),
            Some(whose @ Whose::Temporary(i)) => {
                (call.named(whose, ended.process), format!("{}.0.part", self.labels[i]))
            }
            None => (vec![], String::new()),
        };
        let words = String::from_utf8_lossy(&ended.err[name.len()..]);
        format!("{}{}", label, words.trim_end())
    }

    /// Makes the call and holds all that it leaves against what it should.
    pub fn judge(&mut self, what: &str, mut call: Call, printed: &str, said: Said, after: &Things) {
        let ended = folder::run(&mut call.command, &call.given);
        let things = self.folder.things();
        let shown = format!("{}: {:?}", what, call.names).chars().take(300).collect::<String>();
        let right = self.is_right(&call, &said, &ended);
        self.report.cases += 1;
        self.report.expect(ended.out == printed.as_bytes(), || {
            format!("{}: {}", shown, first_line(printed, &String::from_utf8_lossy(&ended.out)))
        });
        self.report.expect(right, || {
            format!("{}: standard error: '{}'", shown, String::from_utf8_lossy(&ended.err))
        });
        self.report.expect(ended.status.map_or(false, |s| s.code() == Some(0)), || {
            format!("{}: it ends with {:?}", shown, ended.status)
        });
        self.report.expect(things == *after, || format!("{}: {}", shown, other_things(after, &things)));
        for line in String::from_utf8_lossy(&ended.out).lines() {
            self.met.insert(without_numbers(line));
        }
        if !ended.err.is_empty() {
            self.met.insert(self.failure(&call, &ended));
        }
    }

    /// This line or failure must have been met.
    pub fn demand(&mut self, what: &str) {
        let met = self.met.contains(what);
        self.report.expect(met, || format!("'{}' was not met", what));
    }

    /// A call that prints this and changes nothing.
    pub fn prints(&mut self, what: &str, call: Call, printed: &str) {
        let before = self.folder.things();
        self.judge(what, call, printed, Said::Nothing, &before);
    }

    /// A call that fails and changes nothing: one of these names, and the system's words.
    pub fn fails(&mut self, what: &str, call: Call, names: &[Whose], words: &str) {
        let before = self.folder.things();
        self.judge(what, call, "", Said::Failed(names, words), &before);
    }

    /// A call with a name that cannot be a path.
    pub fn is_no_path(&mut self, call: Call) {
        let before = self.folder.things();
        self.judge("a name too long", call, "", Said::ALine, &before);
    }

    /// Another number of arguments than the tool has names.
    pub fn is_usage<N: AsRef<OsStr>>(&mut self, arguments: &[N]) {
        let call = self.call_with(&self.words, arguments);
        let before = self.folder.things();
        self.judge("arguments", call, "", Said::Usage, &before);
    }

    /// A name in the folder, in turn of each kind.
    pub fn named(&self, name: &str) -> OsString {
        match self.files % 4 {
            0 | 1 => OsString::from(name),
            2 => OsString::from(format!("./{}", name)),
            _ => self.folder.at(name).into_os_string(),
        }
    }

    /// The words that start the tool as a user who may not do everything: this one or, if that is root, another.
    /// None where there is no way.
    pub fn as_another(&self) -> Option<Vec<OsString>> {
        if !is_root() {
            return Some(self.words.clone());
        }
        let setpriv = ["setpriv", "--reuid=65534", "--regid=65534", "--clear-groups"].map(OsString::from);
        // a copy that everybody may run, wherever the program itself stands
        let (program, copy) = (self.words.last()?, self.folder.outside("program"));
        fs::copy(program, &copy).ok()?;
        allow(&copy, 0o755);
        let mut trial = self.command(&setpriv, &["sh", "-c", "test -r \"$0\" && test -x \"$0\""]);
        let status = trial.arg(&copy).stderr(Stdio::null()).status();
        if !status.map_or(false, |s| s.success()) {
            return None;
        }
        let words = [&setpriv[..], &self.words[..self.words.len() - 1], &[copy.into_os_string()]];
        Some(words.concat())
    }
}

/// So long a way to a name in the folder.
pub fn long_name(name: &str, length: usize) -> String {
    let left = length - name.len();
    format!("{}{}{}", "./".repeat(left / 2), "/".repeat(left % 2), name)
}
