//! A folder of its own below the temporary one, all that stands in it, and a program that is run with
//! patience.
#![allow(dead_code)]

use std::collections::BTreeMap;
use std::ffi::CString;
use std::fs::{self, File};
use std::io::{Read, Write};
use std::os::raw::{c_char, c_int};
use std::os::unix::ffi::OsStrExt;
use std::os::unix::fs::{FileTypeExt, PermissionsExt};
use std::path::{Path, PathBuf};
use std::process::{Child, Command, ExitStatus, Stdio};
use std::thread::JoinHandle;
use std::time::{Duration, Instant};

extern "C" {
    fn mkfifo(path: *const c_char, mode: u32) -> c_int;
}

/// No program takes longer, whatever the load.
const PATIENCE: Duration = Duration::from_secs(60);

/// Of a file above this only the length is looked at.
const LONG: u64 = 1 << 26;

/// What stands under a name.
#[derive(Clone, Debug, PartialEq, Eq)]
pub enum Thing {
    File(Vec<u8>),
    LongFile(u64),
    Link(PathBuf),
    Directory,
    Pipe,
    Other,
}

impl Thing {
    fn at(path: &Path) -> Thing {
        let found = fs::symlink_metadata(path).expect("what stands in the folder");
        let kind = found.file_type();
        if kind.is_symlink() {
            Thing::Link(fs::read_link(path).expect("a link"))
        } else if kind.is_dir() {
            Thing::Directory
        } else if kind.is_fifo() {
            Thing::Pipe
        } else if !kind.is_file() {
            Thing::Other
        } else if found.len() > LONG {
            Thing::LongFile(found.len())
        } else {
            // one that may not be read is as an empty one
            Thing::File(fs::read(path).unwrap_or_default())
        }
    }

    /// In a word, for what is printed of a difference.
    fn in_short(&self) -> String {
        match self {
            Thing::File(bytes) => format!("{} bytes", bytes.len()),
            other => format!("{:?}", other),
        }
    }
}

/// All that stands in a folder, below it too.
pub type Things = BTreeMap<PathBuf, Thing>;

/// Where what stands there is not what should: each name.
pub fn other_things(expected: &Things, got: &Things) -> String {
    let mut said = Vec::new();
    for name in expected.keys().chain(got.keys().filter(|name| !expected.contains_key(*name))) {
        let (right, is) = (expected.get(name), got.get(name));
        if right != is {
            let in_short = |thing: Option<&Thing>| thing.map_or("nothing".to_string(), Thing::in_short);
            said.push(format!("{:?} is {} and should be {}", name, in_short(is), in_short(right)));
            if let (Some(Thing::File(right)), Some(Thing::File(is))) = (right, is) {
                said.push(crate::report::first_difference(right, is));
            }
        }
    }
    said.join("; ")
}

/// A folder in which a program runs. It may be entered, and written to, by anybody.
pub struct Folder {
    outer: PathBuf,
    path: PathBuf,
}

impl Folder {
    /// A new one, inside another that is for the test's own files.
    pub fn new(name: &str) -> Folder {
        let outer = std::env::temp_dir().join(format!("{}-{}", name, std::process::id()));
        let _ = fs::remove_dir_all(&outer); // what a test that was killed left there
        let path = outer.join("folder");
        fs::create_dir_all(&path).expect("a temporary directory");
        let folder = Folder { outer, path };
        allow(&folder.outer, 0o755);
        allow(&folder.path, 0o777);
        folder
    }

    pub fn path(&self) -> &Path {
        &self.path
    }

    pub fn at<N: AsRef<Path>>(&self, name: N) -> PathBuf {
        self.path.join(name)
    }

    /// A place outside of it, for a file of the test's own.
    pub fn outside(&self, name: &str) -> PathBuf {
        self.outer.join(name)
    }

    pub fn put<N: AsRef<Path>>(&self, name: N, content: &[u8]) {
        fs::write(self.at(name), content).expect("a file in the folder");
    }

    /// A file that reads as zeros behind this content; false where there can be none of that length.
    pub fn put_long<N: AsRef<Path>>(&self, name: N, content: &[u8], length: u64) -> bool {
        let mut file = File::create(self.at(name)).expect("a file in the folder");
        file.write_all(content).expect("a file in the folder");
        file.set_len(length).is_ok()
    }

    pub fn put_pipe<N: AsRef<Path>>(&self, name: N) {
        let path = CString::new(self.at(name).as_os_str().as_bytes()).expect("a path");
        assert_eq!(unsafe { mkfifo(path.as_ptr(), 0o666) }, 0, "a named pipe");
    }

    pub fn put_link<N: AsRef<Path>>(&self, name: N, to: &str) {
        std::os::unix::fs::symlink(to, self.at(name)).expect("a link in the folder");
    }

    pub fn put_directory<N: AsRef<Path>>(&self, name: N) {
        fs::create_dir(self.at(name)).expect("a directory in the folder");
    }

    pub fn things(&self) -> Things {
        let mut things = Things::new();
        gather(&self.path, Path::new(""), &mut things);
        things
    }

    pub fn clear(&self) {
        for entry in fs::read_dir(&self.path).expect("the folder").flatten() {
            let path = entry.path();
            if entry.file_type().map_or(false, |kind| kind.is_dir()) {
                allow(&path, 0o777);
                fs::remove_dir_all(&path).expect("a directory goes");
            } else {
                fs::remove_file(&path).expect("a file goes");
            }
        }
    }

    pub fn remove(&self) {
        self.clear();
        fs::remove_dir_all(&self.outer).expect("the temporary directory");
    }
}

fn gather(path: &Path, name: &Path, things: &mut Things) {
    // what may not be read is empty
    for entry in fs::read_dir(path).into_iter().flatten().flatten() {
        let name = name.join(entry.file_name());
        let thing = Thing::at(&entry.path());
        if thing == Thing::Directory {
            gather(&entry.path(), &name, things);
        }
        things.insert(name, thing);
    }
}

/// What the owner, the group and others may do with it.
pub fn allow(path: &Path, mode: u32) {
    fs::set_permissions(path, fs::Permissions::from_mode(mode)).expect("permissions");
}

/// What a program that ended leaves.
pub struct Ended {
    pub process: u32,
    pub out: Vec<u8>,
    pub err: Vec<u8>,
    /// None where it did not end, and was killed.
    pub status: Option<ExitStatus>,
}

/// Runs a program. These bytes are given to it where its standard input is a pipe.
pub fn run(command: &mut Command, given: &[u8]) -> Ended {
    command.stdout(Stdio::piped()).stderr(Stdio::piped());
    let mut child = command.spawn().expect("the program starts");
    if let Some(mut pipe) = child.stdin.take() {
        let _ = pipe.write_all(given); // it need not read them
    }
    let out = read_all(child.stdout.take().unwrap());
    let err = read_all(child.stderr.take().unwrap());
    let status = wait_for(&mut child);
    Ended {
        process: child.id(),
        out: out.join().expect("standard output"),
        err: err.join().expect("standard error"),
        status,
    }
}

/// All that comes, read at once by a thread, so that nobody waits to write it.
pub fn read_all<R: Read + Send + 'static>(mut from: R) -> JoinHandle<Vec<u8>> {
    std::thread::spawn(move || {
        let mut all = Vec::new();
        from.read_to_end(&mut all).expect("what the program writes");
        all
    })
}

/// Its status when it has ended; one that does not end is killed.
pub fn wait_for(child: &mut Child) -> Option<ExitStatus> {
    let began = Instant::now();
    while began.elapsed() < PATIENCE {
        if let Some(status) = child.try_wait().expect("its status") {
            return Some(status);
        }
        std::thread::sleep(Duration::from_micros(200));
    }
    let _ = child.kill();
    let _ = child.wait();
    None
}
