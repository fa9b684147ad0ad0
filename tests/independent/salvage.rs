//! Runs the tool `salvage` on many files of blocks and compares all that it prints, and all that stands in
//! its folder after it, with the independent program: the second file is right, the first as it was, and
//! nothing else is left. What fails must say why and change nothing, and a tool that is killed must leave
//! the old second file or the whole new one.
//! Usage: salvage PROGRAM.. (the words with which the tool is started).
//!
//! A card or a disk that fails while it is read or written is not tried: what fails here is a write that
//! would make a file too long.

mod bench;
mod card;
mod folder;
mod inputs;
mod module;
mod report;
mod rng;
mod tool;

use bench::{is_root, long_name, Bench, Said};
use card::{is_good, mixture, some_bad, some_good, with, Block};
use folder::{allow, other_things, Ended, Thing};
use module::{check_of, salvage, Condition, BLOCK, MOST_BLOCKS};
use report::first_difference;
use rng::Rng;
use std::ffi::{OsStr, OsString};
use std::fs::{self, File, OpenOptions};
use std::io::Write;
use std::os::unix::ffi::OsStringExt;
use std::os::unix::net::UnixListener;
use std::os::unix::process::ExitStatusExt;
use std::path::Path;
use std::process::{Child, Command, Stdio};
use std::sync::atomic::{AtomicBool, AtomicUsize, Ordering};
use std::time::{Duration, Instant};
use tool::{IN, OUT, TEMPORARY};

extern "C" {
    fn kill(process: i32, signal: i32) -> i32;
}
const SIGKILL: i32 = 9;
const SIGCONT: i32 = 18;
const SIGSTOP: i32 = 19;

/// So long something is awaited that comes at once, whatever the load.
const WHILE: Duration = Duration::from_secs(20);

/// Tails that are dropped, and none.
const TAILS: [usize; 5] = [0, 1, 17, 256, 511];

/// What must have been met. The numbers in a line, and in the temporary file's name, are written 0.
const LINES: [&str; 5] =
    ["block 0 repeated 0", "block 0 power-up", "tail 0 dropped", "kept 0 changed 0", "refused 0"];
const FAILURES: [&str; 10] = [
    "usage: salvage IN OUT",
    "IN: No such file or directory",
    "IN: Is a directory",
    "IN: Not a directory",
    "IN: File name too long",
    "IN: not a regular file",
    "OUT: Is a directory",
    "OUT: not a regular file",
    "OUT.0.part: No such file or directory",
    "OUT.0.part: File too large",
];
/// Those that only another user than root can meet.
const DENIED: [&str; 3] =
    ["IN: Permission denied", "OUT: Permission denied", "OUT.0.part: Permission denied"];

/// Nothing; each rule of document 01 on what a block may be, alone between others and all in one file.
fn rules(b: &mut Bench) {
    for tail in TAILS {
        b.on("no block", &[], &vec![0x56; tail]);
    }
    let start = Condition::power_up(0).to_block();
    let mut all = Vec::new();
    for (i, (what, places, good)) in card::RULES.iter().enumerate() {
        let block = with(&start, places);
        b.report
            .expect(is_good(&block) == *good, || format!("the independent program is wrong on '{}'", what));
        let between = with(&start, &[(11, i as u8)]);
        all.extend([block, between]);
        b.on(what, &[block, between, block, block], &[]);
        b.again(what);
    }
    b.on("all rules", &all, &[]);
}

/// Each of the 512 places changed, with the check as it was and made right again; the tails have each length.
fn places(b: &mut Bench) {
    for place in 0..BLOCK {
        let (first, second, third) = (some_good(&mut b.rng), some_good(&mut b.rng), some_good(&mut b.rng));
        let mut worn = first;
        worn[place] ^= 1 << b.rng.below(8);
        let right = with(&first, &[(place, worn[place])]);
        b.on(&format!("place {}", place), &[worn, second, worn, right], &third[..place]);
    }
}

/// Each value at each place, under a right check: many leave the block good. Places without use get fewer.
fn values(b: &mut Bench) {
    for c in [Condition::power_up(0), inputs::rich(), card::without_escape()] {
        let good = c.to_block();
        b.report.expect(is_good(&good), || "a good block is none".to_string());
        let mut blocks = Vec::new();
        for place in 0..510 {
            for value in (0..=255).filter(|v| place < 200 || [1, 2, 0x10, 0x80, 0xFF].contains(v)) {
                blocks.push(with(&good, &[(place, value)]));
            }
            blocks.push(good);
        }
        b.on_all("each value", &blocks);
    }
}

/// Each bit of a block turned over. Two changes that leave the sum as it was. Every check, of a block for
/// which one of the wrong ones is right but for 65,521.
fn checks(b: &mut Bench) {
    let good = inputs::rich().to_block();
    let mut blocks = Vec::new();
    for bit in 0..8 * BLOCK {
        let mut worn = good;
        worn[bit / 8] ^= 1 << (bit % 8);
        blocks.extend([worn, with(&good, &[(11, bit as u8)])]);
    }
    for place in (0..254).filter(|&i| good[i] <= 253 && good[2 * i + 1] >= 1) {
        let mut worn = good;
        worn[place] += 2;
        worn[2 * place + 1] -= 1;
        blocks.push(worn);
    }
    b.on_all("bits", &blocks);
    let low = card::low_check(&mut b.rng);
    let check = check_of(&low);
    b.report.expect(check < 15 && is_good(&low), || "a block with a low check".to_string());
    let with_check = |check: u16| {
        let mut block = low;
        block[510..].copy_from_slice(&check.to_le_bytes());
        block
    };
    let all: Vec<Block> = (0..=65_535).map(with_check).collect();
    b.report.expect(!is_good(&all[65_521 + check as usize]), || "a check above 65,520".to_string());
    b.on_all("each check", &all);
}

/// Every row of up to six good and bad blocks, with tails.
fn rows(b: &mut Bench) {
    for n in 1..=6 {
        for set in 0..1usize << n {
            let block = |i: usize| match set >> i & 1 {
                0 => some_bad(&mut b.rng),
                _ => some_good(&mut b.rng),
            };
            let blocks: Vec<Block> = (0..n).map(block).collect();
            let tail = b.rng.bytes(TAILS[set % 5]);
            let what = format!("the row {:0n$b}, read from the right", set, n = n);
            b.on(&what, &blocks, &tail);
            b.again(&what);
        }
    }
    for font in [0, 1] {
        let power_up = Condition::power_up(font).to_block();
        let bad = some_bad(&mut b.rng);
        for blocks in
            [vec![power_up], vec![power_up; 3], vec![power_up, bad], vec![bad, power_up, bad, bad, power_up]]
        {
            b.on("power-up", &blocks, &power_up[..17]);
            b.again("power-up");
        }
    }
}

/// Mixtures of every kind, and bytes of any kind.
fn random(b: &mut Bench) {
    for i in 0..200 {
        let n = b.rng.below(if i % 20 == 0 { 400 } else { 40 });
        let good_in = b.rng.pick(&[1, 2, 2, 5, 20, 1_000]);
        let blocks = mixture(&mut b.rng, n, good_in);
        let tail = match b.rng.below(3) {
            0 => vec![],
            1 => some_good(&mut b.rng)[..b.rng.below(BLOCK)].to_vec(),
            _ => some_bad(&mut b.rng)[b.rng.below(BLOCK)..][1..].to_vec(),
        };
        b.on("a mixture", &blocks, &tail);
        if i % 4 == 0 {
            b.again("a mixture");
        }
    }
    for _ in 0..60 {
        let n = b.rng.below(5_000);
        let bytes = b.rng.bytes(n);
        b.on_bytes("random bytes", &bytes);
    }
    // bytes lost somewhere: from there on no block is where it should
    for _ in 0..20 {
        let mut bytes = mixture(&mut b.rng, 30, 1).concat();
        let from = b.rng.below(bytes.len() - 600);
        bytes.drain(from..from + b.rng.pick(&[1, 2, 511, 512, 513]));
        b.on_bytes("bytes lost", &bytes);
    }
}

/// One block, two, and around 10,000, with few and with all of them bad, and with one good one, the first or
/// the last.
fn lengths(b: &mut Bench) {
    let good = some_good(&mut b.rng);
    let few = mixture(&mut b.rng, MOST_BLOCKS + 1, 1);
    let all: Vec<Block> = (0..=MOST_BLOCKS).map(|_| some_bad(&mut b.rng)).collect();
    for n in [1, 2, MOST_BLOCKS - 1, MOST_BLOCKS, MOST_BLOCKS + 1] {
        for length in [0, 1, 511] {
            let tail = b.rng.bytes(length);
            let mut some = few[..n].to_vec();
            for _ in 0..5 {
                some[b.rng.below(n)] = some_bad(&mut b.rng);
            }
            b.on("few bad", &some, &tail);
            b.on("all bad", &all[..n], &tail);
            let mut last = all[..n].to_vec();
            last[n - 1] = good;
            b.on("the last good", &last, &tail);
            let mut first = all[..n].to_vec();
            first[0] = good;
            b.on("the first good", &first, &tail);
            if n == MOST_BLOCKS {
                b.again("the first good");
            }
        }
    }
}

/// The longest report of all: a good block wherever that makes the numbers after it longer.
fn longest_report(b: &mut Bench) {
    let (good, bad) = (some_good(&mut b.rng), some_bad(&mut b.rng));
    let mut blocks = vec![bad; MOST_BLOCKS];
    for number in [0, 10, 100, 1_000] {
        blocks[number] = good;
    }
    b.on("the longest report", &blocks, &bad[..511]);
    let file = blocks.concat();
    b.lay(&file, None);
    let call = b.call("in", "in");
    b.works("the longest report, the same file", call, &file, "in");
}

/// Nobody reads what it prints, which is more than a pipe takes: the whole second file comes all the same,
/// since the lines come after it.
fn unread(b: &mut Bench) {
    let bad = some_bad(&mut b.rng);
    let file = vec![bad; MOST_BLOCKS].concat();
    let right = salvage(&file);
    b.lay(&file, None);
    let out = b.folder.at("out");
    let mut child = b.call("in", "out").command.stdout(Stdio::piped()).spawn().expect("the tool starts");
    let began = Instant::now();
    while !out.exists() && began.elapsed() < WHILE {
        std::thread::sleep(Duration::from_millis(1));
    }
    let second = fs::read(&out).ok();
    let reader = folder::read_all(child.stdout.take().expect("standard output"));
    folder::wait_for(&mut child);
    let printed = reader.join().expect("standard output");
    b.report.cases += 1;
    b.report.expect(second == right.second, || "the second file waits for who reads the lines".to_string());
    b.report.expect(printed == right.printed.as_bytes(), || {
        format!("read late: {}", first_difference(right.printed.as_bytes(), &printed))
    });
}

/// Files far above 10,000 blocks, some so long that their length, or the count of their blocks, does not fit
/// into a number of 16, 31 or 32 bits. Where there can be no such file it is passed over.
fn long_files(b: &mut Bench) {
    let start = mixture(&mut b.rng, 20, 2).concat();
    let sizes = [10_002, 20_000, 32_768, 65_535, 65_536, 65_537].map(|blocks: u64| 512 * blocks);
    let longer = [1 << 31, 1 << 32, (1 << 32) + 3 * 512, 1 << 41, (1 << 41) + 3 * 512 + 17];
    for (i, length) in sizes.into_iter().chain(longer).enumerate() {
        b.lay(&[], if i % 2 == 0 { None } else { Some(b"old") });
        if !b.folder.put_long("in", &start, length) {
            println!("salvage: no file of {} bytes can be made here: not tried", length);
            continue;
        }
        let (call, before) = (b.call("in", "out"), b.folder.things());
        b.judge("a long file", call, "refused 4\n", Said::Nothing, &before);
    }
    // refused before the second name is looked at
    let file = vec![0; (MOST_BLOCKS + 1) * BLOCK];
    for out in ["directory", "link", "pipe", "missing/out", "in/out", "in"] {
        b.lay(&file, None);
        b.folder.put_directory("directory");
        b.folder.put_link("link", "in");
        b.folder.put_pipe("pipe");
        let call = b.call("in", out);
        b.works("refused first", call, &file, "out");
    }
}

/// The first file is the second one, by the same name and by two; the first behind a link or standard input.
fn same_file(b: &mut Bench) {
    for case in 0..40 {
        let n = b.rng.below(20);
        let good_in = b.rng.pick(&[1, 2, 4]);
        let mut file = mixture(&mut b.rng, n, good_in).concat();
        let tail = b.rng.pick(&TAILS);
        file.extend(b.rng.bytes(tail));
        b.lay(&file, None);
        let absolute = b.folder.at("in").into_os_string();
        let (from, to): (OsString, OsString) = match case % 5 {
            0 => ("in".into(), "in".into()),
            1 => ("in".into(), "./in".into()),
            2 => ("./in".into(), absolute),
            3 => {
                // the other name keeps the old file
                fs::hard_link(b.folder.at("in"), b.folder.at("second")).expect("a second name");
                ("in".into(), "second".into())
            }
            _ => {
                b.folder.put_link("link", "in");
                ("link".into(), "in".into())
            }
        };
        let second = if case % 5 == 3 { "second" } else { "in" };
        let call = b.call(from, to);
        b.works("the same file", call, &file, second);
    }
    let file = [&mixture(&mut b.rng, 9, 2).concat()[..], b"tail"].concat();
    b.lay(&file, Some(b"old"));
    b.folder.put_link("link", "in");
    let call = b.call("link", "out");
    b.works("a link to the first file", call, &file, "out");
    if Path::new("/dev/stdin").exists() {
        b.lay(&file, None);
        let mut call = b.call("/dev/stdin", "out");
        call.command.stdin(File::open(b.folder.at("in")).expect("a file"));
        b.works("a file as standard input", call, &file, "out");
    }
}

/// What is said of a name that is not UTF-8: the tool's library takes names as text alone.
const NO_TEXT: &str = "Invalid or incomplete multibyte or wide character";

/// Names of every kind, read and written; the longest that can be paths, and longer ones.
fn names(b: &mut Bench) {
    let file = mixture(&mut b.rng, 9, 2).concat();
    let long = "n".repeat(240);
    let odd: [&[u8]; 9] =
        [b"a b", b"-", b"-n", b"--help", b"%s%n", b"f\xC3\xBCr", b"\xFF\xFE", b"out.1.part", long.as_bytes()];
    for name in odd.map(|name| OsString::from_vec(name.to_vec())) {
        b.lay(&file, None);
        if name.to_str().is_none() {
            let call = b.call(OsStr::new("in"), &name);
            b.fails("a name that is no text", call, &[OUT], NO_TEXT);
            let call = b.call(&name[..], OsStr::new("out"));
            b.fails("a name that is no text, missing", call, &[IN], NO_TEXT);
            b.folder.put(&name, &file);
            let call = b.call(&name[..], OsStr::new("out"));
            b.fails("a name that is no text", call, &[IN], NO_TEXT);
            let call = b.call(OsStr::new("in"), &name);
            b.fails("a name that is no text", call, &[OUT], NO_TEXT);
            continue;
        }
        let call = b.call(OsStr::new("in"), &name);
        b.works("an odd name", call, &file, &name);
        let second = fs::read(b.folder.at(&name)).unwrap_or_default();
        let call = b.call(&name[..], OsStr::new("again"));
        b.works("an odd name, again", call, &second, "again");
        let missing = [&name, OsStr::new("?")].into_iter().collect::<OsString>();
        let call = b.call(&missing[..], OsStr::new("out"));
        b.fails("an odd name, missing", call, &[IN], "No such file or directory");
    }
    b.lay(&file, Some(b"old"));
    let call = b.call(long_name("in", 4_095), long_name("out", 4_000));
    b.works("long names", call, &file, "out");
    for length in [4_096, 4_097, 4_098, 5_000, 10_000, 100_000] {
        for name in [long_name("in", length), "i".repeat(length)] {
            b.is_no_path(b.call(&name[..], "out"));
        }
    }
    // of the first of these only the temporary file's name is too long
    for length in [4_095, 4_096, 4_097, 5_000, 10_000, 100_000] {
        for name in [long_name("out", length), "o".repeat(length)] {
            b.is_no_path(b.call("in", &name[..]));
        }
    }
    let call = b.call(&"i".repeat(256)[..], "out");
    b.fails("a name of 256 bytes", call, &[IN], "File name too long");
    for length in [250, 255, 256] {
        let call = b.call("in", &"o".repeat(length)[..]);
        b.fails("no room for .part", call, &[TEMPORARY, OUT], "File name too long");
    }
}

/// Any number of arguments but two.
fn arguments(b: &mut Bench) {
    let file = some_good(&mut b.rng);
    b.lay(&file, Some(b"old"));
    for arguments in
        [&[][..], &["in"], &["in", "out", "out"], &["in", "out", ""], &["in", "out", "in", "out"]]
    {
        b.is_usage(arguments);
    }
}

/// First files that cannot be read, with and without an old second one.
fn no_first_file(b: &mut Bench) {
    for old in [None, Some(&b"old"[..])] {
        let file = some_good(&mut b.rng);
        b.lay(&file, old);
        b.folder.put_directory("directory");
        b.folder.put_pipe("pipe");
        b.folder.put_link("nowhere", "missing");
        b.folder.put_link("itself", "itself");
        b.folder.put_link("to-directory", "directory");
        b.folder.put_link("to-pipe", "pipe");
        // a writer at its other end, so that nobody waits for one, and a good block
        let options = OpenOptions::new().read(true).write(true).open(b.folder.at("pipe"));
        let mut writer = options.expect("the pipe");
        writer.write_all(&some_good(&mut b.rng)).expect("the pipe");
        for (name, words) in [
            ("missing", "No such file or directory"),
            ("missing/in", "No such file or directory"),
            ("nowhere", "No such file or directory"),
            ("", "No such file or directory"),
            ("in/", "Not a directory"),
            ("in/in", "Not a directory"),
            ("itself", "Too many levels of symbolic links"),
            ("directory", "Is a directory"),
            ("directory/", "Is a directory"),
            (".", "Is a directory"),
            ("to-directory", "Is a directory"),
            ("pipe", "not a regular file"),
            ("to-pipe", "not a regular file"),
            ("/dev/null", "not a regular file"),
            ("/dev/zero", "not a regular file"),
            ("/proc/version", "not a regular file"),
        ] {
            let call = b.call(name, "out");
            b.fails("a first file that is none", call, &[IN], words);
        }
        for name in ["/dev/stdin", "/proc/self/fd/0"] {
            if Path::new(name).exists() {
                let mut call = b.call(name, "out");
                call.command.stdin(Stdio::piped());
                call.given = some_good(&mut b.rng).to_vec();
                b.fails("a pipe as standard input", call, &[IN], "not a regular file");
            }
        }
    }
}

/// Second files that cannot be made. (A device is only tried by another user than root: a wrong tool would
/// put a file into its place.)
fn no_second_file(b: &mut Bench) {
    let file = mixture(&mut b.rng, 9, 2).concat();
    b.lay(&file, None);
    b.folder.put("file", b"text");
    b.folder.put_directory("directory");
    b.folder.put_directory("full");
    b.folder.put("full/file", b"text");
    b.folder.put_pipe("pipe");
    for (name, to) in [
        ("to-file", "file"),
        ("to-first", "in"),
        ("nowhere", "missing"),
        ("itself", "itself"),
        ("to-directory", "directory"),
        ("to-pipe", "pipe"),
    ] {
        b.folder.put_link(name, to);
        let call = b.call("in", name);
        b.fails("a link as second file", call, &[OUT], "not a regular file");
    }
    // a disk's own device, where one can be made: root alone can. The system may have none with these numbers
    let made = Command::new("mknod").arg(b.folder.at("disk")).args(["b", "7", "0"]).stderr(Stdio::null()).status();
    if made.map_or(false, |status| status.success()) {
        let before = b.folder.things();
        b.judge("a disk's own device", b.call("in", "disk"), "", Said::ALine, &before);
    }
    let _socket = UnixListener::bind(b.folder.at("socket")).expect("a socket");
    let either = &[OUT, TEMPORARY][..];
    for (name, whose, words) in [
        ("missing/out", &[TEMPORARY][..], "No such file or directory"),
        ("missing/", &[TEMPORARY], "No such file or directory"),
        ("directory/missing/out", &[TEMPORARY], "No such file or directory"),
        ("directory", &[OUT], "Is a directory"),
        ("directory/", &[OUT], "Is a directory"),
        ("full", &[OUT], "Is a directory"),
        (".", &[OUT], "Is a directory"),
        ("pipe", &[OUT], "not a regular file"),
        ("socket", &[OUT], "No such device or address"),
        ("", either, "No such file or directory"),
        ("file/out", either, "Not a directory"),
        ("file/", either, "Not a directory"),
    ] {
        let call = b.call("in", name);
        b.fails("a second file that can be none", call, whose, words);
    }
}

/// Writes that fail, at the start of a block and in the middle of one, and just enough room.
fn no_room(b: &mut Bench) {
    for n in [1, 2, 5, MOST_BLOCKS] {
        let file = [&mixture(&mut b.rng, n, 2).concat()[..], b"tail"].concat();
        let whole = (n * BLOCK) as u64;
        let rooms = [0, 1, 511, 512, 513, 700, 1_024, 1_500, whole / 2, whole - 1, whole, whole + 1];
        for (i, room) in rooms.into_iter().enumerate() {
            b.lay(&file, if i % 3 == 0 { None } else { Some(b"old") });
            let call = b.call("in", "out").with_room_for(room);
            if room < whole {
                b.fails("no room", call, &[TEMPORARY], "File too large");
            } else {
                b.works("just room", call, &file, "out");
            }
        }
        // where both files are the same
        b.lay(&file, None);
        let call = b.call("in", "in").with_room_for(whole - 1);
        b.fails("no room, the same file", call, &[TEMPORARY], "File too large");
    }
    b.lay(b"short", None);
    let call = b.call("in", "out").with_room_for(0);
    b.works("no room needed", call, b"short", "out");
}

/// The temporary file's name is taken: the shell takes it, and the tool gets its number. What stands there
/// is not the tool's own, and stays; nor does the tool write to what a link there leads to.
fn name_taken(b: &mut Bench) {
    let file = mixture(&mut b.rng, 9, 2).concat();
    for taking in ["echo text >\"out.$$.part\"", "ln -s victim \"out.$$.part\""] {
        b.lay(&file, Some(b"old"));
        b.folder.put("victim", b"text\n");
        let mut call = b.call_in_shell(&format!("{} && exec \"$@\"", taking), &["in", "out"]);
        let before = b.folder.things();
        let ended = folder::run(&mut call.command, &[]);
        let mut things = b.folder.things();
        let taken = things.remove(Path::new(&format!("out.{}.part", ended.process)));
        let failed = b.is_right(&call, &Said::Failed(&[TEMPORARY], "File exists"), &ended);
        let stays = matches!(taken, Some(Thing::File(_) | Thing::Link(_))) && things == before;
        b.report.cases += 1;
        b.report.expect(failed && ended.out.is_empty() && stays, || {
            let said = String::from_utf8_lossy(&ended.err).into_owned();
            format!("{}: said '{}', {}", taking, said, other_things(&before, &things))
        });
    }
}

/// Started without standard input, output or error, so that the files get their numbers: the second file is
/// right all the same, and that the lines cannot be printed is said where there is standard error.
fn closed(b: &mut Bench) {
    let file = mixture(&mut b.rng, 9, 2).concat();
    let right = salvage(&file);
    for closing in ["0<&-", "1>&-", "0<&- 1>&-", "2>&-", "1>&- 2>&-", "0<&- 1>&- 2>&-"] {
        b.lay(&file, Some(b"old"));
        let mut call = b.call_in_shell(&format!("exec \"$@\" {}", closing), &["in", "out"]);
        let mut after = b.folder.things();
        after.insert("out".into(), Thing::File(right.second.clone().unwrap_or_default()));
        let ended = folder::run(&mut call.command, &[]);
        let printed = if closing.contains("1>") { "" } else { &right.printed };
        let unheard = closing.contains("1>") && !closing.contains("2>");
        let said = if unheard { "standard output: Bad file descriptor\n" } else { "" };
        let things = b.folder.things();
        b.report.cases += 1;
        b.report.expect(ended.out == printed.as_bytes() && ended.err == said.as_bytes(), || {
            format!("{}: said '{}'", closing, String::from_utf8_lossy(&ended.err))
        });
        b.report.expect(things == after, || format!("{}: {}", closing, other_things(&after, &things)));
    }
}

/// The longest file, and the longest report, with half a megabyte of stack, and there is no heap: memory does
/// not grow with the file.
fn small_stack(b: &mut Bench) {
    let file = mixture(&mut b.rng, MOST_BLOCKS, 50).concat();
    b.lay(&file, None);
    let call = b.call_in_shell("ulimit -s 512 && exec \"$@\"", &["in", "out"]);
    b.works("half a megabyte of stack", call, &file, "out");
}

/// The first file gets shorter while it is read: the tool is held once it has its temporary file, and goes on
/// when the file was cut, in five ways. Answers how often it was held in time.
fn shrinking(b: &mut Bench) -> usize {
    let file = mixture(&mut b.rng, MOST_BLOCKS, 3).concat();
    let mut met = 0;
    for _ in 0..100 {
        if met == 5 {
            break;
        }
        b.lay(&file, Some(b"old"));
        let mut call = b.call("in", "out");
        call.command.stdout(Stdio::piped()).stderr(Stdio::piped());
        let mut child = call.command.spawn().expect("the tool starts");
        let temporary = format!("out.{}.part", child.id());
        let (began, path) = (Instant::now(), b.folder.at(&temporary));
        while !path.exists() && began.elapsed() < WHILE {
            if child.try_wait().map_or(true, |status| status.is_some()) {
                break;
            }
        }
        unsafe { kill(child.id() as i32, SIGSTOP) };
        let written = fs::metadata(&path).map_or(0, |m| m.len() as usize / BLOCK);
        let held = path.exists() && written < MOST_BLOCKS - 100;
        let left = [0, 1, written * BLOCK, written * BLOCK + 256, (MOST_BLOCKS - 1) * BLOCK][met];
        if held {
            let first = OpenOptions::new().write(true).open(b.folder.at("in")).expect("the first file");
            first.set_len(left as u64).expect("it gets shorter");
        }
        unsafe { kill(child.id() as i32, SIGCONT) };
        let process = child.id();
        let (out, err) = (child.stdout.take().unwrap(), child.stderr.take().unwrap());
        let (out, err) = (folder::read_all(out), folder::read_all(err));
        let status = folder::wait_for(&mut child);
        let (out, err) = (out.join().expect("its lines"), err.join().expect("its words"));
        let ended = Ended { process, out, err, status };
        if !held {
            continue;
        }
        met += 1;
        let said = Said::Failed(&[IN], "it became shorter while it was read");
        let old = fs::read(b.folder.at("out")).ok();
        b.report.cases += 1;
        b.report.expect(b.is_right(&call, &said, &ended) && ended.out.is_empty(), || {
            format!("cut to {} bytes: '{}'", left, String::from_utf8_lossy(&ended.err))
        });
        b.report.expect(old.as_deref() == Some(b"old") && !path.exists(), || {
            format!("cut to {} bytes: the old second file is gone, or the temporary one is not", left)
        });
    }
    met
}

/// What a user may not read, write or replace, and devices.
fn denied(b: &mut Bench, words: &[OsString]) {
    const NO: &str = "Permission denied";
    let file = mixture(&mut b.rng, 9, 2).concat();
    let lay = |b: &mut Bench| {
        b.lay(&file, None);
        b.folder.put("out", b"old");
        b.folder.put("closed", &file);
        b.folder.put_directory("directory");
        b.folder.put("directory/in", &file);
        b.folder.put("directory/out", b"old");
        for (name, mode) in [("in", 0o444), ("out", 0o666), ("closed", 0), ("directory", 0o777)] {
            allow(&b.folder.at(name), mode);
        }
        for name in ["directory/in", "directory/out"] {
            allow(&b.folder.at(name), 0o666);
        }
    };
    lay(b);
    let either = &[OUT, TEMPORARY][..];
    b.works("a user's files", b.call_by(words, "in", "out"), &file, "out");
    let second = fs::read(b.folder.at("out")).unwrap_or_default();
    b.works("a user's files", b.call_by(words, "out", "directory/new"), &second, "directory/new");
    b.fails("closed", b.call_by(words, "closed", "out"), &[IN], NO);
    b.fails("closed, no second file", b.call_by(words, "closed", "new"), &[IN], NO);
    b.fails("may not be written", b.call_by(words, "in", "closed"), &[OUT], NO);
    b.fails("may not be written, the same file", b.call_by(words, "in", "in"), &[OUT], NO);
    for device in ["/dev/null", "/dev/zero"] {
        b.fails("a device", b.call_by(words, "in", device), &[OUT], "not a regular file");
        b.fails("a device", b.call_by(words, device, "out"), &[IN], "not a regular file");
    }
    // a directory that may be entered alone; one that may not even be entered
    allow(&b.folder.at("directory"), 0o555);
    b.works("to elsewhere", b.call_by(words, "directory/in", "new"), &file, "new");
    b.fails("no new file", b.call_by(words, "in", "directory/more"), &[TEMPORARY], NO);
    b.fails("no file in its place", b.call_by(words, "in", "directory/out"), &[TEMPORARY], NO);
    let before = b.folder.things();
    allow(&b.folder.at("directory"), 0o666);
    let calls = [
        (b.call_by(words, "directory/in", "out"), &[IN][..]),
        (b.call_by(words, "in", "directory/out"), either),
        (b.call_by(words, "in", "directory/more"), either),
    ];
    for (mut call, whose) in calls {
        let ended = folder::run(&mut call.command, &[]);
        allow(&b.folder.at("directory"), 0o555); // to look into it
        let right = ended.out.is_empty() && b.is_right(&call, &Said::Failed(whose, NO), &ended);
        let kept = b.folder.things() == before;
        allow(&b.folder.at("directory"), 0o666);
        b.report.cases += 1;
        b.report.expect(right && kept, || {
            let said = String::from_utf8_lossy(&ended.err).into_owned();
            format!("a closed directory, {:?}: said '{}'", call.names, said)
        });
    }
    // it may be written, and nobody but its owner may put another into its place: the last step fails
    if is_root() {
        lay(b);
        allow(&b.folder.at("directory"), 0o1777);
        let call = b.call_by(words, "in", "directory/out");
        b.fails("it stays in its place", call, either, "Operation not permitted");
    }
}

/// What was met when the tool was killed.
#[derive(Default)]
struct Kills {
    /// Before it had a temporary file; with one; with the new second file; not at all, because it had ended.
    before: u64,
    between: u64,
    after: u64,
    ended: u64,
}

/// Killed at any time, or some time after its temporary file is there; in some cases both files are the
/// same. The second file is the old one, and then not a line is printed, or the whole new one; what is
/// printed is the start of the right lines.
fn kills(b: &mut Bench) -> Kills {
    let file = mixture(&mut b.rng, MOST_BLOCKS, 3).concat();
    let right = salvage(&file);
    let (second, lines) = (right.second.unwrap_or_default(), right.printed.into_bytes());
    let printed = b.folder.outside("printed");
    let start = |b: &Bench, out: &str| {
        let lines = File::create(&printed).expect("a file for what it prints");
        let mut command = b.call("in", out).command;
        command.stdout(lines).spawn().expect("the tool starts")
    };
    b.lay(&file, None);
    let began = Instant::now();
    folder::wait_for(&mut start(b, "out"));
    let whole = began.elapsed().as_micros() as usize;
    let mut met = Kills::default();
    for case in 0..600 {
        if case >= 60 && met.between > 0 {
            break;
        }
        let (out, old) = if case % 3 == 2 { ("in", &file[..]) } else { ("out", &b"old"[..]) };
        b.lay(&file, None);
        b.folder.put(out, old);
        let before = b.folder.things();
        let mut after = before.clone();
        after.insert(out.into(), Thing::File(second.clone()));
        let mut child = start(b, out);
        let temporary = format!("{}.{}.part", out, child.id());
        if case % 2 == 1 {
            let (began, path) = (Instant::now(), b.folder.at(&temporary));
            let runs = |child: &mut Child| child.try_wait().map_or(false, |status| status.is_none());
            while !path.exists() && runs(&mut child) && began.elapsed() < WHILE {}
        }
        let longest = (whole + whole / 10) / b.rng.pick(&[1, 1, 20]);
        std::thread::sleep(Duration::from_micros(b.rng.below(longest) as u64));
        let _ = child.kill(); // where it has ended there is nobody to kill
        let killed = child.wait().expect("its status").signal() == Some(SIGKILL);
        let mut things = b.folder.things();
        let left = things.remove(Path::new(&temporary)).is_some();
        let is_new = things == after;
        match (killed, is_new, left) {
            (false, ..) => met.ended += 1,
            (_, true, _) => met.after += 1,
            (_, _, true) => met.between += 1,
            _ => met.before += 1,
        }
        let got = fs::read(&printed).expect("what it printed");
        b.report.cases += 1;
        b.report.expect(is_new || killed && things == before, || {
            format!("killed {}: {}", killed, other_things(&before, &things))
        });
        b.report.expect(killed || !left, || "it ended and left its temporary file".to_string());
        let all = if is_new { &lines[..] } else { &[] };
        b.report.expect(all.starts_with(&got) && (killed || got == all), || {
            format!("killed {}: printed: {}", killed, first_difference(all, &got))
        });
    }
    met
}

/// The numbers of the last line, and of the tail: the length of the file of which the tool speaks.
fn length_read(printed: &str) -> Option<usize> {
    let number = |line: &str, place: usize| line.split(' ').nth(place)?.parse::<usize>().ok();
    let last = printed.lines().last()?;
    let tail = printed.lines().find(|line| line.starts_with("tail "));
    Some((number(last, 1)? + number(last, 3)?) * BLOCK + tail.map_or(Some(0), |line| number(line, 1))?)
}

/// Blocks are appended while the tool reads, by pieces of any length. Its answer must be that for a file
/// which stood there at some time. Answers how many bytes came while it ran.
fn growing(b: &mut Bench) -> usize {
    let mut came = 0;
    for case in 0..16 {
        // some become too long
        let (first, most) = if case % 4 == 3 { (9_990, 10_300) } else { (2_000, MOST_BLOCKS) };
        let all = mixture(&mut b.rng, most, 3).concat();
        let length = first * BLOCK + b.rng.pick(&TAILS);
        b.lay(&all[..length], None);
        let mut pieces = Rng::new(case);
        let mut end = OpenOptions::new().append(true).open(b.folder.at("in")).expect("the first file");
        let (stop, written) = (AtomicBool::new(false), AtomicUsize::new(length));
        let mut command = b.call("in", "out").command;
        let (ended, then) = std::thread::scope(|scope| {
            scope.spawn(|| {
                let mut at = length;
                while at < all.len() && !stop.load(Ordering::SeqCst) {
                    let next = all.len().min(at + 1 + pieces.below(1_400));
                    end.write_all(&all[at..next]).expect("the first file");
                    at = next;
                    written.store(at, Ordering::SeqCst);
                    std::thread::sleep(Duration::from_micros(10));
                }
            });
            let ended = folder::run(&mut command, &[]);
            stop.store(true, Ordering::SeqCst);
            (ended, written.load(Ordering::SeqCst))
        });
        let longest = written.into_inner();
        came += then - length;
        let printed = String::from_utf8_lossy(&ended.out).into_owned();
        let second = fs::read(b.folder.at("out")).ok();
        let refused = printed == "refused 4\n" && longest / BLOCK > MOST_BLOCKS && second.is_none();
        let fits = |n: &usize| (length..=longest).contains(n);
        let right = length_read(&printed).filter(fits).map(|n| salvage(&all[..n]));
        let worked = right.map_or(false, |right| right.printed == printed && right.second == second);
        let names: Vec<_> = b.folder.things().into_keys().collect();
        let alone = names.iter().all(|name| name == Path::new("in") || name == Path::new("out"));
        b.report.cases += 1;
        b.report.expect((refused || worked) && ended.err.is_empty() && alone, || {
            let said = String::from_utf8_lossy(&ended.err).into_owned();
            let last = printed.lines().last().unwrap_or("nothing").to_string();
            format!(
                "a file that grows from {} to {} bytes: '{}', {:?}, '{}'",
                length, longest, last, names, said
            )
        });
    }
    came
}

/// Four at once, each with a first file of its own and all with the same second one: it is that of one of
/// them.
fn at_once(b: &mut Bench) {
    for _ in 0..10 {
        b.lay(&[], Some(b"old"));
        let files: Vec<Vec<u8>> = (1..=4).map(|n| mixture(&mut b.rng, 100 * n, 2).concat()).collect();
        let names = ["a", "b", "c", "d"];
        for (name, file) in names.iter().zip(&files) {
            b.folder.put(name, file);
        }
        let before = b.folder.things();
        let start = |name: &&str| {
            let mut command = b.call(*name, "out").command;
            std::thread::spawn(move || folder::run(&mut command, &[]))
        };
        let started: Vec<_> = names.iter().map(start).collect();
        let ended: Vec<Ended> = started.into_iter().map(|s| s.join().expect("it ends")).collect();
        let things = b.folder.things();
        let mut one = false;
        for (file, ended) in files.iter().zip(&ended) {
            let right = salvage(file);
            let mut after = before.clone();
            after.insert("out".into(), Thing::File(right.second.unwrap_or_default()));
            one |= things == after;
            b.report.expect(ended.out == right.printed.as_bytes() && ended.err.is_empty(), || {
                format!("four at once: standard error: '{}'", String::from_utf8_lossy(&ended.err))
            });
        }
        b.report.cases += 1;
        b.report.expect(one, || "four at once: the second file is that of none".to_string());
    }
}

fn main() {
    let mut b = Bench::new("salvage", &["IN", "OUT"], 10);
    rules(&mut b);
    places(&mut b);
    values(&mut b);
    checks(&mut b);
    rows(&mut b);
    random(&mut b);
    lengths(&mut b);
    longest_report(&mut b);
    unread(&mut b);
    long_files(&mut b);
    same_file(&mut b);
    names(&mut b);
    arguments(&mut b);
    no_first_file(&mut b);
    no_second_file(&mut b);
    no_room(&mut b);
    name_taken(&mut b);
    // an emulator has descriptors and a stack of its own
    if b.words.len() == 1 {
        closed(&mut b);
        small_stack(&mut b);
    }
    let mut demanded = [&LINES[..], &FAILURES].concat();
    match b.as_another() {
        Some(words) => {
            denied(&mut b, &words);
            demanded.extend(DENIED);
        }
        None => println!("salvage: no way to another user (setpriv): permissions and devices are not tried"),
    }
    let killed = kills(&mut b);
    let cut = shrinking(&mut b);
    let came = growing(&mut b);
    at_once(&mut b);
    demanded.iter().for_each(|what| b.demand(what));
    b.report.expect(killed.between > 0, || "no kill came between start and end".to_string());
    b.report.expect(cut == 5, || format!("only {} files got shorter while they were read", cut));
    b.report.expect(came > 0, || "no file grew while it was read".to_string());
    b.folder.remove();
    println!(
        "salvage: killed before a temporary file {}, with one {}, after the new file {}; ended before {}",
        killed.before, killed.between, killed.after, killed.ended
    );
    b.report.end("salvage", 1_690)
}
