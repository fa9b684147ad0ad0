//! Runs the tool `vet` on many blocks, pictures and strings and compares what it prints with the independent program:
//! the excess, or the reason. What cannot be read is said in one line and nothing is printed; no file changes.
//! Usage: vet PROGRAM.. (the words with which the tool is started).

mod bench;
mod folder;
mod inputs;
mod module;
mod report;
mod rng;
mod strings;
mod wants;

use bench::{long_name, Bench, Call, Whose};
use folder::allow;
use inputs::{any_condition, damage, define, place, reached_condition, some_bytes};
use module::*;
use std::ffi::{OsStr, OsString};
use std::fs::OpenOptions;
use std::io::Write;
use std::os::unix::ffi::OsStringExt;
use std::os::unix::fs::OpenOptionsExt;
use std::path::{Path, PathBuf};
use std::process::Stdio;
use std::thread::JoinHandle;
use std::time::Duration;
use strings::*;

/// What must have been met; the numbers in a line are written 0.
const LINES: [&str; 5] = ["yes excess 0", "no, byte 0", "no, cell 0", "no, cursor", "refused 0"];
const FAILURES: [&str; 10] = [
    "usage: vet BLOCK PICTURE STRING",
    "BLOCK: No such file or directory",
    "PICTURE: No such file or directory",
    "STRING: No such file or directory",
    "BLOCK: Is a directory",
    "PICTURE: Is a directory",
    "STRING: Is a directory",
    "BLOCK: Not a directory",
    "BLOCK: File name too long",
    "STRING: Too many levels of symbolic links",
];
/// Those that only another user than root can meet.
const DENIED: [&str; 3] =
    ["BLOCK: Permission denied", "PICTURE: Permission denied", "STRING: Permission denied"];

const NAMES: [&str; 3] = ["block", "picture", "string"];
const MISSING: &str = "No such file or directory";

/// What the three files hold.
type Files = [Vec<u8>; 3];

fn files(want: &Want, bytes: &[u8]) -> Files {
    [want.block.clone(), [&want.codes[..], &[want.asked as u8]].concat(), bytes.to_vec()]
}

struct Vet {
    b: Bench,
    moves: Moves,
    /// Lines by what is refused, and yes with an excess, to show that each was met.
    refused: [u64; 10],
    longer: u64,
}

impl Vet {
    /// A folder with these three files alone.
    fn lay(&self, files: &Files) {
        self.b.folder.clear();
        for (name, content) in NAMES.iter().zip(files) {
            self.b.folder.put(name, content);
        }
    }

    fn call<N: AsRef<OsStr>>(&self, names: &[N]) -> Call {
        self.b.call_with(&self.b.words, names)
    }

    /// The line that is due to these three contents.
    fn line(&mut self, [block, picture, string]: &Files) -> String {
        let line = vet_line(block, picture, string, &self.moves);
        if let Some(n) = line.strip_prefix("refused ") {
            self.refused[n.trim_end().parse::<usize>().expect("a refusal")] += 1;
        }
        self.longer += (line.starts_with("yes") && line != "yes excess 0\n") as u64;
        line
    }

    /// A call whose three names lead to these contents.
    fn prints(&mut self, what: &str, call: Call, files: &Files) {
        let line = self.line(files);
        self.b.prints(what, call, &line);
    }

    /// Three files of these contents, with names of each kind in turn.
    fn on(&mut self, what: &str, files: &Files) {
        self.lay(files);
        let call = self.call(&NAMES.map(|name| self.b.named(name)));
        self.prints(what, call, files);
        self.b.files += 1;
    }

    /// Three files that make a yes.
    fn some_files(&mut self) -> Files {
        let (c, want) = some_picture(&mut self.b.rng);
        files(&want, &long_way(&c, &want, &mut self.b.rng, &self.moves))
    }
}

/// Pictures of every kind: plans, right strings by long ways, strings changed at some place, strings of any bytes.
fn pictures(v: &mut Vet) {
    for _ in 0..180 {
        let (c, want) = some_picture(&mut v.b.rng);
        let bytes = want.plan(&c, &v.moves);
        v.on("a plan", &files(&want, &bytes));
        let longer = long_way(&c, &want, &mut v.b.rng, &v.moves);
        v.on("a long way", &files(&want, &longer));
        let at = v.b.rng.below(longer.len() + 1);
        for other in changed_at(&want, &longer, at, &mut v.b.rng) {
            v.on("a string changed", &files(&want, &other));
        }
    }
    for i in 0..300 {
        let rng = &mut v.b.rng;
        let c = if i % 2 == 0 { any_condition(rng) } else { reached_condition(rng) };
        let mut want = Want::new(&c, &c.codes, place(rng));
        if i % 3 == 0 {
            damage(&mut want.block, rng);
        }
        let length = rng.below(60);
        let bytes = if i % 5 == 0 { rng.bytes(length) } else { some_bytes(rng, length) };
        v.on("anything", &files(&want, &bytes));
    }
}

/// Each kind of line, by strings that are short enough to see why; bytes of every kind behind a clear.
fn reasons(v: &mut Vet) {
    let c = Condition::power_up(0).after(&define(0x01, [1; 5]));
    let full = c.after(&[0x42; CELLS]);
    for c in [&c, &full] {
        let want = Want::left_by(&c.after(&[CLEAR]), &[0x41, 0x0A, 0x01]);
        let want = Want { block: c.to_block().to_vec(), ..want };
        for bytes in [
            &[][..],
            &[CLEAR, 0x41, 0x0A, 0x01],
            &[0x0C, CLEAR, 0x41, 0x0A, 0x01],
            &[0x41, 0x0A, 0x01, 0x0C],
            &[0x41, 0x0A, 0x01, 0x1B],
            &[0x41, 0x0A, 0x01, 0x1B, 0x48],
            &[0x41, 0x0A, 0x01, 0x1B, 0x48, 0x28],
            &[0x41, 0x0A, 0x01, 0x1B, 0x48, 0x16],
            &[0x42, 0x0C, 0x41, 0x0A, 0x01],
            &[0x41, 0x0A, 0x02],
        ] {
            v.on("a reason", &files(&want, bytes));
        }
        for b in 0..=255u8 {
            // of those that are written one in four
            if b < 0x20 || b % 4 == 0 {
                v.on("each byte", &files(&want, &[CLEAR, b, 0x0A, 0x01]));
            }
        }
    }
    // every cell may be the lowest that is wrong
    for cell in 0..CELLS {
        let mut want = Want::new(&c, &[0x41; CELLS], cell);
        let bytes = [&[0x0C], &want.codes[..], &jump(cell)].concat();
        v.on("all forty", &files(&want, &bytes));
        want.codes[cell..].fill(0x42);
        v.on("all forty", &files(&want, &bytes));
    }
}

/// Files of each length, alone and with the others wrong as well. Those of four gigabytes and some, which read as zeros
/// behind a right content, are made where that can be.
fn lengths(v: &mut Vet) {
    let right = v.some_files();
    let each: [&[usize]; 3] = [
        &[0, 1, 3, 511, 512, 513, 1_024, 5_000, 1 << 20],
        &[0, 1, 39, 40, 41, 42, 82, 512, 1 << 20],
        &[0, 1, 32_767, 32_768, 32_769, 65_536, 65_537, 98_304, 1 << 20],
    ];
    for (i, lengths) in each.into_iter().enumerate() {
        for &length in lengths {
            let mut files = right.clone();
            files[i].resize(length, 0x0C);
            v.on("a length", &files);
        }
        let some = right[i].len() as u64;
        for length in [(1 << 32) + some, 1 << 32] {
            v.lay(&right);
            if !v.b.folder.put_long(NAMES[i], &right[i], length) {
                println!("vet: no file of {} bytes can be made here: not tried", length);
                continue;
            }
            let call = v.call(&NAMES);
            v.b.prints("a long file", call, if i == 2 { "refused 4\n" } else { "refused 1\n" });
        }
    }
    for _ in 0..20 {
        let (c, want) = some_picture(&mut v.b.rng);
        for length in [LONGEST_RUN - 1, LONGEST_RUN, LONGEST_RUN + 1] {
            let bytes = right_of_length(&c, &want, length, &mut v.b.rng, &v.moves);
            v.on("the longest", &files(&want, &bytes));
        }
    }
}

/// Every mixture of what is refused: a wrong length, a wrong check, an unused place, the asked cursor, a string too
/// long, half a command, the mode, a user character on a move, a wanted code that has none.
fn order_of_refusals(v: &mut Vet) {
    for way in 0..1 << 9 {
        let wrong = |bit: usize| way >> bit & 1 == 1;
        let mut c = Condition::power_up(0);
        if wrong(7) {
            c = c.after(&define(0x0D, [1; 5]));
        }
        if wrong(6) {
            c = c.after(&[0x12]);
        }
        if wrong(5) {
            c = c.after(&[0x1B, 0x48]);
        }
        let mut want = Want::new(&c, &[if wrong(8) { 0x1F } else { 0x20 }; CELLS], 0);
        want.asked = if wrong(3) { 40 } else { 0 };
        if wrong(2) {
            want.block[200] = 1;
            seal(&mut want.block);
        }
        if wrong(1) {
            want.block[510] ^= 1;
        }
        let mut files = files(&want, &vec![0x0C; if wrong(4) { LONGEST_RUN + 1 } else { 0 }]);
        if wrong(0) {
            files[way % 2].push(0);
        }
        v.on("a mixture of refusals", &files);
    }
    for asked in (0..8).chain(36..44).chain([63, 64, 127, 128, 200, 255]) {
        let want = Want { asked, ..Want::left_by(&Condition::power_up(1), &[]) };
        v.on("asked cursors", &files(&want, &jump(asked as usize)));
    }
}

/// The same file under two names of the call, or under all three; a link.
fn same_file(v: &mut Vet) {
    for _ in 0..5 {
        let files = v.some_files();
        for places in [[0, 0, 2], [0, 1, 1], [0, 1, 0], [1, 1, 2], [2, 1, 2], [0, 0, 0], [1, 1, 1], [2, 2, 2]] {
            v.lay(&files);
            let call = v.call(&places.map(|i| NAMES[i]));
            v.prints("the same file", call, &places.map(|i| files[i].clone()));
        }
        v.lay(&files);
        v.b.folder.put_link("link", "string");
        let call = v.call(&["block", "picture", "link"]);
        v.prints("a link", call, &files);
    }
}

/// What is said of a name that is not UTF-8: the tool's library takes names as text alone.
const NO_TEXT: &str = "Invalid or incomplete multibyte or wide character";

/// Names of every kind; the longest that can be paths, and longer ones.
fn names(v: &mut Vet) {
    let files = v.some_files();
    let long = "n".repeat(255);
    let odd: [&[u8]; 8] = [b"a b", b"-", b"-n", b"--help", b"%s%n", b"f\xC3\xBCr", b"\xFF\xFE", long.as_bytes()];
    for name in odd.map(|name| OsString::from_vec(name.to_vec())) {
        for i in 0..3 {
            let mut names = NAMES.map(OsString::from);
            names[i] = name.clone();
            v.lay(&files);
            let missing = if name.to_str().is_some() { MISSING } else { NO_TEXT };
            let call = v.call(&names);
            v.b.fails("an odd name, missing", call, &[Whose::Name(i)], missing);
            v.b.folder.put(&name, &files[i]);
            let call = v.call(&names);
            if name.to_str().is_some() {
                v.prints("an odd name", call, &files);
            } else {
                v.b.fails("a name that is no text", call, &[Whose::Name(i)], NO_TEXT);
            }
        }
    }
    v.lay(&files);
    let call = v.call(&NAMES.map(|name| long_name(name, 4_095)));
    v.prints("long names", call, &files);
    for i in 0..3 {
        for length in [4_096, 4_097, 5_000, 100_000] {
            let mut names = NAMES.map(str::to_string);
            names[i] = long_name(NAMES[i], length);
            v.b.is_no_path(v.call(&names));
        }
        let mut names = NAMES.map(str::to_string);
        names[i] = "n".repeat(256);
        v.b.fails("a name of 256 bytes", v.call(&names), &[Whose::Name(i)], "File name too long");
    }
}

/// Any number of arguments but three.
fn arguments(v: &mut Vet) {
    let files = v.some_files();
    v.lay(&files);
    for arguments in [
        &[][..],
        &["block"],
        &["block", "picture"],
        &["block", "picture", "string", "string"],
        &["block", "picture", "string", ""],
        &["missing"],
        &["missing", "missing", "missing", "missing", "missing"],
    ] {
        v.b.is_usage(arguments);
    }
}

/// Files that cannot be read, at each place and at several: the first is said. It is said too where what was read
/// before it would be refused: nothing is printed before all is read.
fn unreadable(v: &mut Vet) {
    let right = v.some_files();
    let ways = [
        ("missing", MISSING),
        ("missing/in", MISSING),
        ("nowhere", MISSING),
        ("", MISSING),
        ("block/", "Not a directory"),
        ("block/in", "Not a directory"),
        ("itself", "Too many levels of symbolic links"),
        ("directory", "Is a directory"),
        (".", "Is a directory"),
        ("to-directory", "Is a directory"),
    ];
    for refused in [false, true] {
        let mut files = right.clone();
        if refused {
            files.iter_mut().for_each(|content| content.resize(40_000, 0));
        }
        v.lay(&files);
        v.b.folder.put_directory("directory");
        v.b.folder.put_link("nowhere", "missing");
        v.b.folder.put_link("itself", "itself");
        v.b.folder.put_link("to-directory", "directory");
        for (name, words) in ways {
            for set in 1..8 {
                let names = [0, 1, 2].map(|i| if set >> i & 1 == 1 { name } else { NAMES[i] });
                let first = (0..3).find(|i| set >> i & 1 == 1).expect("a place");
                v.b.fails("it cannot be read", v.call(&names), &[Whose::Name(first)], words);
            }
        }
    }
}

/// Writes to a pipe once somebody reads it, in so many pieces, and again and again where it has no end.
fn feed(path: PathBuf, content: Vec<u8>, pieces: usize, endless: bool) -> JoinHandle<()> {
    std::thread::spawn(move || {
        let mut pipe = OpenOptions::new().write(true).open(path).expect("the pipe");
        loop {
            for piece in content.chunks(content.len() / pieces + 1) {
                // the tool may stop reading once it has too much
                if pipe.write_all(piece).is_err() {
                    return;
                }
                if pieces > 1 {
                    std::thread::sleep(Duration::from_millis(2));
                }
            }
            if !endless {
                return;
            }
        }
    })
}

/// Who waits to write to a pipe that nobody has read goes on.
fn release(path: &Path) {
    const O_NONBLOCK: i32 = 0o4000;
    drop(OpenOptions::new().read(true).custom_flags(O_NONBLOCK).open(path));
}

/// Each file, and all three, from a pipe, whole and in pieces; too long, and without end; standard input.
fn pipes(v: &mut Vet) {
    for case in 0..60 {
        let mut files = v.some_files();
        let set = 1 + case % 7;
        if case % 5 == 4 {
            let (i, more) = (case % 3, v.b.rng.pick(&[1, 100, 70_000]));
            files[i].extend(vec![0; if i == 2 { LONGEST_RUN + more } else { more }]);
        }
        v.lay(&files);
        let piped: Vec<usize> = (0..3).filter(|i| set >> i & 1 == 1).collect();
        let pieces = [1, 5][case / 7 % 2];
        let mut writers = Vec::new();
        for &i in &piped {
            let name = format!("pipe-{}", i);
            v.b.folder.put_pipe(&name);
            writers.push(feed(v.b.folder.at(&name), files[i].clone(), pieces, false));
        }
        let call = v.call(&[0, 1, 2].map(|i| match piped.contains(&i) {
            true => format!("pipe-{}", i),
            false => NAMES[i].to_string(),
        }));
        v.prints("pipes", call, &files);
        for (i, writer) in piped.iter().zip(writers) {
            release(&v.b.folder.at(format!("pipe-{}", i)));
            writer.join().expect("a writer ends");
        }
    }
    let files = v.some_files();
    for (i, line) in ["refused 1\n", "refused 1\n", "refused 4\n"].into_iter().enumerate() {
        v.lay(&files);
        v.b.folder.put_pipe("endless");
        let path = v.b.folder.at("endless");
        let writer = feed(path.clone(), vec![0x0C; 5_000], 1, true);
        let mut names = NAMES;
        names[i] = "endless";
        v.b.prints("a pipe without end", v.call(&names), line);
        release(&path);
        writer.join().expect("a writer ends");
        let mut names = NAMES;
        names[i] = "/dev/stdin";
        if Path::new("/dev/stdin").exists() {
            let mut call = v.call(&names);
            call.command.stdin(Stdio::piped());
            call.given = files[i].clone();
            v.prints("standard input", call, &files);
        }
    }
}

/// Started without standard input or error it prints the same; without standard output it changes no file. (What is
/// then said is not looked at.)
fn closed(v: &mut Vet) {
    let files = v.some_files();
    v.lay(&files);
    for closing in ["0<&-", "2>&-", "0<&- 2>&-"] {
        let call = v.b.call_in_shell(&format!("exec \"$@\" {}", closing), &NAMES);
        v.prints(closing, call, &files);
    }
    for closing in ["1>&-", "0<&- 1>&-", "1>&- 2>&-", "0<&- 1>&- 2>&-"] {
        let before = v.b.folder.things();
        let mut call = v.b.call_in_shell(&format!("exec \"$@\" {}", closing), &NAMES);
        let ended = folder::run(&mut call.command, &[]);
        let kept = v.b.folder.things() == before && ended.status.map_or(false, |s| s.code() == Some(0));
        v.b.report.cases += 1;
        v.b.report.expect(kept && ended.out.is_empty(), || format!("without standard output: {:?}", ended.status));
    }
}

/// The longest string with half a megabyte of stack, and there is no heap.
fn small_stack(v: &mut Vet) {
    let (c, want) = some_picture(&mut v.b.rng);
    let bytes = right_of_length(&c, &want, LONGEST_RUN, &mut v.b.rng, &v.moves);
    let files = files(&want, &bytes);
    v.lay(&files);
    let call = v.b.call_in_shell("ulimit -s 512 && exec \"$@\"", &NAMES);
    v.prints("half a megabyte of stack", call, &files);
}

/// What a user may not read: a file, or a directory on the way to it.
fn denied(v: &mut Vet, words: &[OsString]) {
    let files = v.some_files();
    v.lay(&files);
    let call = v.b.call_with(words, &NAMES);
    v.prints("a user's files", call, &files);
    for i in 0..3 {
        v.lay(&files);
        allow(&v.b.folder.at(NAMES[i]), 0);
        let call = v.b.call_with(words, &NAMES);
        v.b.fails("closed", call, &[Whose::Name(i)], "Permission denied");
        let mut names = NAMES;
        names[i] = "directory/file";
        v.b.folder.put_directory("directory");
        v.b.folder.put("directory/file", &files[i]);
        allow(&v.b.folder.at(NAMES[i]), 0o644);
        allow(&v.b.folder.at("directory"), 0);
        let call = v.b.call_with(words, &names);
        v.b.fails("a closed directory", call, &[Whose::Name(i)], "Permission denied");
        allow(&v.b.folder.at("directory"), 0o777);
    }
}

fn main() {
    let mut v = Vet {
        b: Bench::new("vet", &["BLOCK", "PICTURE", "STRING"], 14),
        moves: Moves::new(),
        refused: [0; 10],
        longer: 0,
    };
    pictures(&mut v);
    reasons(&mut v);
    lengths(&mut v);
    order_of_refusals(&mut v);
    same_file(&mut v);
    names(&mut v);
    arguments(&mut v);
    unreadable(&mut v);
    pipes(&mut v);
    // an emulator has descriptors and a stack of its own
    if v.b.words.len() == 1 {
        closed(&mut v);
        small_stack(&mut v);
    }
    let mut demanded = [&LINES[..], &FAILURES].concat();
    match v.b.as_another() {
        Some(words) => {
            denied(&mut v, &words);
            demanded.extend(DENIED);
        }
        None => println!("vet: no way to another user (setpriv): permissions are not tried"),
    }
    demanded.iter().for_each(|what| v.b.demand(what));
    println!(
        "vet: yes with an excess {}, refused 1, 2, 3, 4, 6, 7, 8, 9: {:?}",
        v.longer,
        [1, 2, 3, 4, 6, 7, 8, 9].map(|n| v.refused[n])
    );
    for (n, &met) in v.refused.iter().enumerate().filter(|&(n, _)| n != 0 && n != 5) {
        v.b.report.expect(met > 0, || format!("nothing was refused by {}", n));
    }
    let longer = v.longer;
    v.b.report.expect(longer > 100, || format!("only {} strings were longer than the shortest", longer));
    v.b.folder.remove();
    v.b.report.end("vet", 2_940)
}
