//! The tool `salvage` in a folder: calls of it on two files, and all that such a call is to leave there.

use crate::bench::{Bench, Call, Said, Whose};
use crate::card::Block;
use crate::folder::Thing;
use crate::module::{salvage, BLOCK, MOST_BLOCKS};
use std::ffi::{OsStr, OsString};
use std::fs;
use std::os::raw::c_int;
use std::os::unix::process::CommandExt;
use std::path::Path;

extern "C" {
    fn signal(number: c_int, what: usize) -> usize;
    fn setrlimit(what: c_int, limits: *const [u64; 2]) -> c_int;
}
const SIGXFSZ: c_int = 25;
const SIG_IGN: usize = 1;
const RLIMIT_FSIZE: c_int = 1;

/// The first file, the second one, and the temporary file that becomes the second one.
pub const IN: Whose = Whose::Name(0);
pub const OUT: Whose = Whose::Name(1);
pub const TEMPORARY: Whose = Whose::Temporary(1);

impl Call {
    /// Its files cannot become longer than this; a write that would make one so fails, and does not kill it.
    pub fn with_room_for(mut self, bytes: u64) -> Call {
        let limit = move || unsafe {
            signal(SIGXFSZ, SIG_IGN);
            assert_eq!(setrlimit(RLIMIT_FSIZE, &[bytes, bytes]), 0);
            Ok(())
        };
        unsafe { self.command.pre_exec(limit) };
        self
    }
}

impl Bench {
    pub fn call<N: AsRef<OsStr>>(&self, from: N, to: N) -> Call {
        self.call_by(&self.words, from, to)
    }

    pub fn call_by<N: AsRef<OsStr>>(&self, words: &[OsString], from: N, to: N) -> Call {
        self.call_with(words, &[from, to])
    }

    /// A call that reads this file, and whose second file stands in the folder under this name.
    pub fn works<N: AsRef<Path>>(&mut self, what: &str, call: Call, file: &[u8], second: N) {
        let right = salvage(file);
        let mut after = self.folder.things();
        if let Some(bytes) = right.second {
            after.insert(second.as_ref().into(), Thing::File(bytes));
        }
        self.judge(what, call, &right.printed, Said::Nothing, &after);
    }

    /// A folder with `in` of this content, and with an old `out` where one is given. That has a second name,
    /// by which it must stay as it was: a new file takes its place, and nobody writes to the old one.
    pub fn lay(&self, file: &[u8], old: Option<&[u8]>) {
        self.folder.clear();
        self.folder.put("in", file);
        if let Some(old) = old {
            self.folder.put("out", old);
            fs::hard_link(self.folder.at("out"), self.folder.at("old")).expect("a second name");
        }
    }

    /// One file of these blocks and this tail; in turn without an old second file and with one of each
    /// length, and with names of each kind.
    pub fn on(&mut self, what: &str, blocks: &[Block], tail: &[u8]) {
        let file = [&blocks.concat(), tail].concat();
        self.on_bytes(what, &file);
    }

    pub fn on_bytes(&mut self, what: &str, file: &[u8]) {
        let length = file.len() / BLOCK * BLOCK;
        let old = match self.files % 6 {
            0 | 3 => None,
            1 => Some(0),
            2 => Some(length / 2),
            4 => Some(length),
            _ => Some(length + 700),
        };
        self.lay(file, old.map(|n| vec![0x6F; n]).as_deref());
        let call = self.call(self.named("in"), self.named("out"));
        self.works(what, call, file, "out");
        self.files += 1;
    }

    /// The second file is salvaged: all blocks are kept, and it comes out as it was.
    pub fn again(&mut self, what: &str) {
        let second = fs::read(self.folder.at("out")).unwrap_or_default();
        let mut after = self.folder.things();
        after.insert("again".into(), Thing::File(second.clone()));
        let printed = format!("kept {} changed 0\n", second.len() / BLOCK);
        let call = self.call("out", "again");
        self.judge(&format!("{}, again", what), call, &printed, Said::Nothing, &after);
    }

    /// As many files as these blocks need.
    pub fn on_all(&mut self, what: &str, blocks: &[Block]) {
        for some in blocks.chunks(MOST_BLOCKS) {
            self.on(what, some, &[]);
        }
    }
}
