//! Runs the host of examples/station.c on a wire with the independent module at its end. The host is
//! killed at any moment and started again, the module loses its power, the state is damaged, the disk
//! is full: each time the glass must show the picture, and the module must be in the condition of the
//! state. A host without a mark, and one that is not told of a loss, must be seen wrong: otherwise the
//! test could not fail.
//! Usage: station PROGRAM.. (the words with which the host is started); STATION_SEED=n: other cases.

mod inputs;
mod module;
mod report;
mod rng;
mod wire;

use module::{Condition, Half, User, BLOCK, CELLS, TALLY};
use report::{first_difference, Report};
use rng::Rng;
use std::fs;
use std::path::Path;
use std::time::Duration;
use wire::{Host, Wire};

/// In the first two 0Ah goes down in the same column: 0Dh 0Ah would not do.
const TEXTS: [[&[u8]; 2]; 12] = [
    [b"Gate", b"    > 4"],
    [b"123456789", b"         9 8 7"],
    [b"Welcome aboard", b"Gate 4 opens 10:30"],
    [b"Welcome aboard", b"Gate 4 opens 10:45"],
    [b"Welcome to Rimevalley", b"Gate 4 >>> 10:45"],
    [b"Rimevalley       >>>", b"> Platform 2   12:05"],
    [b"12345678901234567890", b"abcdefghijklmnopqrst"],
    [b"", b"                   >"],
    [b"Fare \xAD 3.50", b"> > > > > > > > > > "],
    [b"> > > > >", b"Gate 7 opens 10:45"],
    [b"Delayed by 10 minutes", b""],
    [b"", b""],
];

/// The dots of the station's '>', by rows.
const ARROW: &[u8] = b"..... ..#.. ...#. ##### ...#. ..#.. .....";

/// How long a picture stays where the station is to rest on it, in milliseconds.
const REST: &str = "600000";
/// The state: the mark, the block, the tally, the terminal's path, the boot.
const TALLY_AT: usize = 1 + BLOCK;
const TTY_AT: usize = TALLY_AT + TALLY;
const BOOT_AT: usize = TTY_AT + 256;
const STATE_SIZE: usize = BOOT_AT + 40;

struct Bench {
    words: Vec<String>,
    wire: Wire,
    rng: Rng,
    report: Report,
    directory: String,
    state: String,
    j6: u8,
    /// The first picture of the last start.
    picture: [u8; CELLS],
    kills: u64,
    marks: u64,
    halves: u64,
}

fn printed(codes: &[u8]) -> String {
    let printed = codes.iter().map(|&c| if c <= 0x7E { c as char } else { '?' });
    printed.collect()
}

impl Bench {
    fn beside(&self, end: &str) -> String {
        format!("{}{}", self.state, end)
    }

    fn saved(&self) -> Vec<u8> {
        fs::read(&self.state).unwrap_or_default()
    }

    fn is_marked(&self) -> bool {
        self.saved().first() == Some(&b'D')
    }

    fn touch_lost(&self) {
        fs::write(self.beside(".lost"), "").expect("STATE.lost");
    }

    /// Starts the station on these lines.
    fn start_on(&mut self, lines: &[&[u8]], tty: &str, hold: &str) -> Host {
        self.picture = [0x20; CELLS];
        for (line, text) in lines.iter().take(2).enumerate() {
            let seen = text.len().min(20);
            self.picture[20 * line..20 * line + seen].copy_from_slice(&text[..seen]);
        }
        let pictures = format!("{}/pictures", self.directory);
        fs::write(&pictures, lines.join(&b'\n')).expect("a file of pictures");
        let mut words = self.words.clone();
        words.extend([tty, &self.state, &pictures, &self.j6.to_string(), hold].map(String::from));
        self.wire.put_settings_back();
        Host::start(&words, &format!("{}/said", self.directory))
    }

    /// Starts it on six pictures, one of them random, in any order.
    fn start(&mut self, hold: &str) -> Host {
        let random: Vec<u8> = (0..40).map(|_| 0x20 + self.rng.byte() % 0xE0).collect();
        let mut chosen: Vec<[&[u8]; 2]> = (0..6).map(|_| self.rng.pick(&TEXTS)).collect();
        chosen[self.rng.below(6)] = [&random[..20], &random[20..]];
        let tty = self.wire.tty.clone();
        self.start_on(&chosen.concat(), &tty, hold)
    }

    /// Lets it rest on its first picture. Answers it, and what is wrong.
    fn rest(&mut self) -> (Host, Option<String>) {
        let station = self.start(REST);
        let line = station.line();
        let wrong = self.wrong(&line);
        (station, wrong)
    }

    /// Starts it and kills it after some time, or after some bytes.
    fn kill_somewhere(&mut self) {
        self.wire.put(self.wire.module());
        let station = self.start("0");
        match self.rng.below(3) {
            0 => self.wire.wait_for(1 + self.rng.below(25) as u64),
            1 => self.wire.wait_for(1 + self.rng.below(100) as u64),
            _ => std::thread::sleep(Duration::from_micros(self.rng.below(60_000) as u64)),
        }
        drop(station);
        self.wire.drain(&mut self.rng);
        self.kills += 1;
        self.marks += self.is_marked() as u64;
        self.halves += (self.wire.module().half != Half::Nothing) as u64;
    }

    /// The condition that the module must be in with the first picture.
    fn wanted(&self) -> Condition {
        let mut dots = [0; 5];
        for (i, &dot) in ARROW.iter().filter(|&&d| d != b' ').enumerate() {
            dots[i / 8] |= ((dot == b'#') as u8) << (i % 8);
        }
        let mut c = Condition::power_up(self.j6);
        c.codes = self.picture;
        c.luminance = 2;
        c.euro = true;
        c.users[0] = User { code: b'>', dots };
        c.count = 1;
        c
    }

    /// What the station says where its last block is that of a lost module.
    fn says_lost(&self) -> bool {
        let said = fs::read_to_string(format!("{}/said", self.directory)).unwrap_or_default();
        said.contains("the sign may be lost, switch it off and on, then touch")
    }

    fn glass_is_wrong(&self) -> bool {
        let (module, wanted) = (self.wire.module(), self.wanted());
        module.codes != wanted.codes || module.fonts != wanted.fonts
    }

    /// What is wrong, now that the station has printed this line and rests.
    fn wrong(&mut self, line: &str) -> Option<String> {
        self.wire.drain(&mut self.rng);
        let (module, wanted, saved) = (self.wire.module(), self.wanted(), self.saved());
        let (top, bottom) = wanted.codes.split_at(20);
        let expected = format!("shown 1: [{}|{}]", printed(top), printed(bottom));
        if line != expected {
            Some(format!("it said '{}' and not '{}'", line, expected))
        } else if self.glass_is_wrong() {
            Some(format!("the glass shows '{}' after '{}'", printed(&module.codes), line))
        } else if module != wanted {
            let difference = first_difference(&wanted.to_block(), &module.to_block());
            Some(format!("the module is in another condition: {}", difference))
        } else if saved.len() != STATE_SIZE || saved[0] != b'C' || saved[1..TALLY_AT] != module.to_block() {
            Some("the state is not that of the module".to_string())
        } else {
            None
        }
    }

    fn expect(&mut self, holds: bool, what: &str) {
        self.report.cases += 1;
        self.report.expect(holds, || what.to_string());
    }

    fn judge(&mut self, when: &str, wrong: Option<String>) {
        self.expect(wrong.is_none(), &format!("{}: {}", when, wrong.unwrap_or_default()));
    }

    /// The station ends with status 1 and says why, and nothing at all is sent.
    fn ends(&mut self, why: &str, station: Host) {
        let status = station.status();
        self.wire.drain(&mut self.rng);
        let sent = self.wire.received().bytes;
        let said = fs::read_to_string(format!("{}/said", self.directory)).unwrap_or_default();
        let what = format!("'{}': status {:?}, {} bytes sent, said '{}'", why, status, sent, said);
        self.expect(status == Some(1) && sent == 0 && said.contains(why), &what);
    }

    /// Any condition that a module can be brought back from: 1Bh is no user character, nor made one.
    fn any_module(&mut self) -> Condition {
        loop {
            let mut c = match self.rng.below(3) {
                0 => inputs::reached_condition(&mut self.rng),
                _ => inputs::any_condition(&mut self.rng),
            };
            c.default_font = self.j6;
            if !c.is_user(0x1B) && !matches!(c.half, Half::UserData { code: 0x1B, .. }) {
                return c;
            }
        }
    }

    /// A sign that was just switched on, and no state: the tally is what the module received, too.
    fn first_start(&mut self) {
        let (_station, wrong) = self.rest();
        self.judge("first start", wrong);
        let tally = self.wire.received().to_bytes();
        self.expect(self.saved().get(TALLY_AT..TTY_AT) == Some(&tally[..]), "the tally");
    }

    fn kills(&mut self) {
        for _ in 0..200 {
            for _ in 0..self.rng.pick(&[1, 1, 2, 3]) {
                self.kill_somewhere();
            }
            let (_station, wrong) = self.rest();
            self.judge("after a kill", wrong);
        }
    }

    /// A host without a mark: it is wiped off before each start. Answers how many kills it stood.
    fn kills_without_mark(&mut self) -> Option<u64> {
        for kills in 1..=100 {
            self.kill_somewhere();
            let mut state = self.saved();
            state[0] = b'C';
            fs::write(&self.state, state).expect("the state");
            let (_station, _) = self.rest();
            if self.glass_is_wrong() {
                self.touch_lost();
                return Some(kills);
            }
        }
        None
    }

    /// The module loses its power, or gets bytes from elsewhere, while the station rests.
    fn losses(&mut self) {
        for case in 0..50 {
            let (station, wrong) = self.rest();
            self.judge("before a loss", wrong);
            let module = match self.rng.below(2) {
                0 => Condition::power_up(self.j6),
                _ => self.any_module(),
            };
            self.wire.put(module);
            self.touch_lost();
            let wrong = if case % 2 == 0 {
                let ms = self.rng.pick(&[0, 0, 0, 50, 100, 105, 110, 120, 130, 140]);
                std::thread::sleep(Duration::from_millis(ms));
                drop(station);
                self.wire.drain(&mut self.rng);
                self.rest().1
            } else {
                let line = station.line();
                self.wrong(&line)
            };
            self.judge("after a loss", wrong);
            self.expect(!Path::new(&self.beside(".lost")).exists(), "STATE.lost is gone");
        }
    }

    /// Nobody tells the station, and it starts again. Answers on how many pictures the glass is wrong.
    fn losses_untold(&mut self) -> u64 {
        let (tty, mut wrong) = (self.wire.tty.clone(), 0);
        for text in &TEXTS {
            for _ in 0..2 {
                self.wire.put(Condition::power_up(self.j6));
                let station = self.start_on(text, &tty, REST);
                let line = station.line();
                self.wrong(&line);
            }
            wrong += self.glass_is_wrong() as u64;
        }
        self.touch_lost();
        let told = self.rest().1;
        self.judge("told at last", told);
        wrong
    }

    /// The state does not fit, and the module is in any condition. (Damage to the tally alone is left
    /// out: the block is right then, and it is taken.)
    fn states(&mut self) {
        let faults = "missing, empty, short, long, with a tally of 12 bytes, marked, damaged, random, \
                      of other settings, of other dots, of another J6, of another TTY, of a TTY with a longer path, \
                      of another boot, of no boot";
        for fault in std::iter::repeat(faults).take(4).flat_map(|f| f.split(", ")) {
            let mut state = self.saved();
            let path_end = TTY_AT + self.wire.tty.len();
            match fault {
                "empty" => state.clear(),
                "short" => state.truncate(1 + self.rng.below(STATE_SIZE - 1)),
                "long" => state.push(0),
                "with a tally of 12 bytes" => drop(state.drain(TTY_AT - 4..TTY_AT)),
                "marked" => state[0] = b'D',
                "damaged" => {
                    let any = self.rng.below(STATE_SIZE - TALLY);
                    state[(any + TTY_AT) % STATE_SIZE] ^= 1 << self.rng.below(8);
                }
                "random" => state = self.rng.bytes(STATE_SIZE),
                "of other settings" => state[1..TALLY_AT].copy_from_slice(&Condition::power_up(self.j6).to_block()),
                "of other dots" => {
                    let c = self.wire.module().after(&inputs::define(b'>', [1; 5]));
                    state[1..TALLY_AT].copy_from_slice(&c.to_block());
                }
                "of another J6" => self.j6 = 1 - self.j6,
                "of another TTY" => state[path_end - 1] ^= 1,
                "of a TTY with a longer path" => state[path_end] = b'0',
                "of another boot" => state[BOOT_AT + self.rng.below(36)] ^= 1,
                "of no boot" => state[BOOT_AT..].fill(0),
                _ => fs::remove_file(&self.state).expect("the state"),
            }
            if fault != "missing" {
                fs::write(&self.state, state).expect("the state");
            }
            let module = self.any_module();
            self.wire.put(module);
            let wrong = self.rest().1;
            self.judge(&format!("a state that is {}", fault), wrong);
            let says_lost = self.says_lost();
            self.expect(!says_lost, &format!("a state that is {} is not lost", fault));
        }
    }

    /// The module is lost, and so is the block of a state with the mark: the station says what to do, the glass is wrong,
    /// and the mark stands, so that it is said again at the next start. Then the module is switched off and on, and the
    /// station is told.
    fn lost_modules(&mut self) {
        for given in 0..=5 {
            let sent = inputs::define(0x1B, [1, 2, 3, 4, 5]);
            let module = self.wire.module().after(&sent[..3 + given]);
            let mut state = self.saved();
            state[0] = b'D';
            state[1..TALLY_AT].copy_from_slice(&module.to_block());
            fs::write(&self.state, state).expect("the state");
            self.wire.put(module);
            for start in ["first", "second"] {
                let _ = self.rest();
                let marked = self.saved().first() == Some(&b'L');
                let right = self.says_lost() && self.glass_is_wrong() && marked;
                self.expect(right, &format!("a lost module, {} bytes given, {} start", given, start));
            }
            // told while it runs, while it does not, and killed before it has saved
            let running = if given % 3 == 0 { Some(self.rest().0) } else { None };
            self.wire.put(Condition::power_up(self.j6));
            self.touch_lost();
            if given % 3 == 1 {
                let killed = self.start(REST);
                self.wire.wait_for(5);
                drop(killed);
                self.wire.drain(&mut self.rng);
            }
            let wrong = match running {
                Some(station) => {
                    let line = station.line();
                    self.wrong(&line)
                }
                None => self.rest().1,
            };
            self.judge("a lost module, switched off and on", wrong);
            let (_station, wrong) = self.rest();
            self.judge("a lost module, long since switched off and on", wrong);
            let says_lost = self.says_lost();
            self.expect(!says_lost, "it is no longer lost");
        }
    }

    /// A user character that came after the station's own is no other setting: nothing is made again.
    /// Answers the codes that the module then has, the oldest first.
    fn younger(&mut self) -> Vec<u8> {
        let module = self.wire.module().after(&inputs::define(0x02, [1, 2, 3, 4, 5]));
        let mut state = self.saved();
        state[1..TALLY_AT].copy_from_slice(&module.to_block());
        fs::write(&self.state, state).expect("the state");
        self.wire.put(module);
        let _ = self.rest();
        let now = self.wire.module();
        let glass_is_right = !self.glass_is_wrong();
        self.expect(glass_is_right, "the glass with a younger user character");
        now.users[..now.count].iter().map(|u| u.code).collect()
    }

    /// Now STATE.new is on a disk without room.
    fn fill_disk(&self) {
        assert!(Path::new("/dev/full").exists(), "this system has /dev/full");
        std::os::unix::fs::symlink("/dev/full", self.beside(".new")).expect("STATE.new");
    }

    fn disk_full(&mut self) {
        let usual = self.state.clone();
        let faults = [
            ("/nowhere/state", "cannot open the directory"),
            ("-full", "cannot write"),
            ("-directory", "cannot save"),
        ];
        for (end, why) in faults {
            self.state = format!("{}{}", usual, end);
            match end {
                "-full" => self.fill_disk(),
                "-directory" => fs::create_dir(&self.state).expect("a directory"),
                _ => {}
            }
            self.wire.put(self.wire.module());
            let station = self.start(REST);
            self.ends(why, station);
        }
        self.state = usual;

        // the mark cannot be put: the state still holds, and so does STATE.lost
        let (station, wrong) = self.rest();
        self.judge("before the disk is full", wrong);
        self.wire.put(self.wire.module());
        self.fill_disk();
        self.touch_lost();
        self.ends("cannot write", station);
        let told = fs::remove_file(self.beside(".lost")).is_ok();
        self.expect(told && !self.is_marked(), "STATE.lost stays until there is a mark");

        // it cannot be taken off: it stays. The station is held while it sends; too late: once more
        let mut stays = false;
        for _ in 0..100 {
            let _ = fs::remove_file(self.beside(".new"));
            let _ = fs::remove_file(&self.state);
            self.wire.put(self.wire.module());
            let station = self.start(REST);
            self.wire.wait_for(9);
            station.hold();
            if self.is_marked() && !Path::new(&self.beside(".new")).exists() {
                self.fill_disk();
                station.go_on();
                stays = station.status() == Some(1) && self.is_marked();
                break;
            }
        }
        self.expect(stays, "a mark that cannot be taken off stays");
        let _ = fs::remove_file(self.beside(".new"));
        self.wire.drain(&mut self.rng);
        let wrong = self.rest().1;
        self.judge("after the disk was full", wrong);
    }

    fn wires_and_pictures(&mut self) {
        let (first, _) = self.rest();
        self.wire.put(self.wire.module());
        let second = self.start(REST);
        self.ends("another station has", second);
        drop(first);
        let plain = self.beside("-plain");
        fs::write(&plain, "text").expect("a file");
        let none = self.beside("-none");
        for (tty, why) in [
            ("/dev/null", "is not a tty"),
            (&plain, "is not a tty"),
            (&none, "cannot open"),
        ] {
            let station = self.start_on(&[b"A"], tty, REST);
            self.ends(why, station);
        }
        self.expect(
            fs::read(&plain).ok() == Some(b"text".to_vec()),
            "a file that is no tty is left alone",
        );
        let tty = self.wire.tty.clone();
        let station = self.start_on(&[], &tty, REST);
        self.ends("has no picture", station);
        let station = self.start_on(&[b"A\tB", b"", b"", b"\x00", b"\x1B"], &tty, "0");
        self.expect(station.status() == Some(1), "every picture is refused");
        let station = self.start_on(&[b"A\tB", b"", b"one line >"], &tty, REST);
        let line = station.line();
        self.expect(
            line.starts_with("shown 2: [one line >  "),
            "a refused picture is passed over",
        );
    }
}

fn main() {
    let words = report::program_words("station");
    let seed = std::env::var("STATION_SEED").ok().and_then(|s| s.parse().ok());
    let directory = std::env::temp_dir().join(format!("station-{}", std::process::id()));
    let _ = fs::remove_dir_all(&directory); // what a test that was killed left there
    fs::create_dir(&directory).expect("a temporary directory");
    let mut b = Bench {
        words,
        wire: Wire::new(),
        rng: Rng::new(seed.unwrap_or(11)),
        report: Report::new(),
        directory: directory.display().to_string(),
        state: directory.join("state").display().to_string(),
        j6: 0,
        picture: [0; CELLS],
        kills: 0,
        marks: 0,
        halves: 0,
    };
    b.first_start();
    b.kills();
    let (kills, marks, halves) = (b.kills, b.marks, b.halves);
    b.expect(marks >= 50 && halves >= 3, "the kills came while it was sending");
    // where the boot is not known the station recovers at each start, and cannot be seen wrong
    let boot_known = Path::new("/proc/sys/kernel/random/boot_id").exists();
    let without_mark = b.kills_without_mark();
    b.expect(
        without_mark.is_some() || !boot_known,
        "a host without a mark is seen wrong",
    );
    b.losses();
    let untold = b.losses_untold();
    b.expect(untold > 0 || !boot_known, "a loss that nobody told is seen wrong");
    b.states();
    b.lost_modules();
    let codes = b.younger();
    b.expect(
        codes == [b'>', 0x02] || !boot_known,
        "with a younger user character nothing is made again",
    );
    b.touch_lost();
    let told = b.rest().1;
    b.judge("told, with a younger user character", told);
    b.disk_full();
    b.wires_and_pictures();
    fs::remove_dir_all(&directory).expect("the temporary directory");
    println!(
        "station: {} kills, {} left the mark, {} a command half received",
        kills, marks, halves
    );
    println!(
        "station: seen wrong: without the mark at kill {}, untold of a loss on {} of {} pictures",
        without_mark.unwrap_or(0),
        untold,
        TEXTS.len()
    );
    b.report.end("station", 400)
}
