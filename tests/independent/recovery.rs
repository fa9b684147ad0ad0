//! Calls sign_recover for all kinds of blocks, right and wrong, and compares each answer and each byte of each buffer
//! with the independent program, which searches for a way back. Where it is accepted the eight bytes are run, by both
//! interpreters; where it is refused by 11 many strings are. Linked with libsign.a.

mod inputs;
mod module;
mod report;
mod rng;
mod sign;

use inputs::{any_condition, any_started, commands, damage, define, reached_condition, some_bytes, Flavour};
use module::*;
use report::{first_difference, hex, Report};
use rng::Rng;
use sign::Lent;

/// What the customer believes of a well-formed condition that nothing brings back.
fn believed_lost(c: &Condition) -> bool {
    c.is_user(0x1B) || matches!(c.half, Half::UserData { code: 0x1B, .. })
}

/// Refusals go up to 11.
const NUMBERS: usize = 12;

struct Recovery {
    report: Report,
    rng: Rng,
    /// Answers by refusal (0: accepted), to show that each was met; and those with too little room.
    met: [u64; NUMBERS],
    met_short: [u64; NUMBERS],
    /// Strings that were run on a lost condition.
    strings: u64,
}

impl Recovery {
    fn new(seed: u64) -> Recovery {
        Recovery {
            report: Report::new(),
            rng: Rng::new(seed),
            met: [0; NUMBERS],
            met_short: [0; NUMBERS],
            strings: 0,
        }
    }

    /// One call, compared in all it leaves; answers the refusal, 0 for none.
    fn call(&mut self, block: &[u8], room: usize) -> usize {
        let fill = self.rng.byte();
        let mut out_after = vec![fill; room];
        let expected = host_recover(block, &mut out_after);
        let b = Lent::new(block, &mut self.rng);
        let mut o = Lent::new(&vec![fill; room], &mut self.rng);
        let got = sign::recover(b.bytes(), o.bytes_mut());
        self.report.cases += 1;
        let refusal = if expected < 256 { 0 } else { expected as usize - 256 };
        self.met[refusal] += 1;
        self.met_short[refusal] += (room < 8) as u64;
        let call = || {
            format!(
                "sign_recover, block of {} with head {} and users {}, room {}",
                block.len(),
                hex(&block[..block.len().min(24)]),
                hex(&block[block.len().min(104)..block.len().min(200)]),
                room
            )
        };
        self.report.expect(got == expected, || {
            format!("{}: answer {} and should be {}", call(), got, expected)
        });
        self.report.expect(o.bytes() == &out_after[..], || {
            format!("{}: output, {}", call(), first_difference(&out_after, o.bytes()))
        });
        self.report
            .expect(b.untouched() && o.guarded(), || format!("{}: wrote outside", call()));
        if got >= 256 {
            self.report
                .expect(o.untouched(), || format!("{}: refused, and changed something", call()));
        }
        refusal
    }

    /// A well-formed condition, and what its answer means; `strings` are run where it is lost.
    fn judge(&mut self, c: &Condition, strings: usize) {
        let block = c.to_block();
        let room = self.rng.pick(&[8, 8, 9, 44]);
        let refusal = self.call(&block, room);
        let belief = believed_lost(c);
        self.report.expect((refusal == 11) == belief, || {
            format!(
                "refused by {} where it is {} that ESC is a user character or is being made one",
                refusal,
                belief
            )
        });
        match refusal {
            0 => self.serves(c, &block),
            11 => (0..strings).for_each(|_| self.stays_lost(c, &block)),
            _ => self.report.expect(false, || {
                format!("a well-formed condition with room {} is refused by {}", room, refusal)
            }),
        }
    }

    /// The eight bytes lead to power-up for the default font, by both interpreters.
    fn serves(&mut self, c: &Condition, block: &[u8]) {
        let mut power_up = [0; BLOCK];
        let mut after = block.to_vec();
        let mut bytes = [0; 8];
        let answers = (
            sign::power_up(c.default_font as u32, &mut power_up),
            sign::recover(block, &mut bytes),
            sign::run(&mut after, &mut [0; TALLY], &bytes),
        );
        self.report.expect(
            answers == (0, 8, 0) && after == power_up && c.after(&BACK).at_power_up(),
            || format!("the bytes do not serve: answers {:?}, block {}", answers, hex(&after)),
        );
    }

    /// A long string, with Initialise strewn in, never passes through power-up, and ends where nothing helps.
    fn stays_lost(&mut self, c: &Condition, block: &[u8]) {
        let mut bytes = match self.rng.below(4) {
            0 => self.rng.bytes(2_000),
            1 => commands(&mut self.rng, 2_000, Flavour::UserCharacters, true),
            _ => some_bytes(&mut self.rng, 2_000),
        };
        for _ in 0..20 {
            let at = self.rng.below(bytes.len());
            let put = if self.rng.once_in(2) { &BACK[..] } else { &BACK[6..] };
            bytes.splice(at..at, put.iter().copied());
        }
        let mut after = c.clone();
        let mut passed = false;
        for &b in &bytes {
            after.take(b);
            passed |= after.at_power_up();
        }
        self.strings += 1;
        self.report
            .expect(!passed, || format!("a lost condition came back by {}", hex(&bytes)));
        let mut left = block.to_vec();
        let ran = sign::run(&mut left, &mut [0; TALLY], &bytes);
        self.report.expect(ran == 0 && left == after.to_block(), || {
            format!(
                "a lost condition after {}: {}",
                hex(&bytes),
                first_difference(&after.to_block(), &left)
            )
        });
        let refusal = self.call(&left, 8);
        self.report
            .expect(refusal == 11, || format!("lost, and then refused by {}", refusal));
    }
}

/// Lists of user characters, some of them on ESC, on the bytes that get a module back, and with all places in use.
fn lists() -> Vec<Vec<u8>> {
    let many = |n: u8| (0x40..0x40 + n).collect::<Vec<u8>>();
    let mut lists = vec![
        vec![],
        vec![0x00],
        vec![0x49],
        vec![0x00, 0x1A, 0x1C, 0x43, 0x49],
        many(15),
        many(16),
        vec![0x1B],
        vec![0x00, 0x1B, 0x49],
    ];
    // the oldest, one in the middle and the youngest of 16
    for place in [0, 7, 15] {
        let mut list = many(16);
        list[place] = 0x1B;
        lists.push(list);
    }
    lists
}

/// Every kind of half-received command, with each code and each number of bytes held.
fn halves(rng: &mut Rng) -> Vec<Half> {
    let mut halves = vec![
        Half::Nothing,
        Half::Esc,
        Half::Position,
        Half::Luminance,
        Half::Speed,
        Half::UserCode,
    ];
    for code in 0..=255 {
        for count in 0..=4 {
            let mut held = [0; 4];
            held[..count].copy_from_slice(&rng.bytes(count));
            halves.push(Half::UserData { code, count, held });
        }
    }
    halves
}

/// All of these with all lists, from conditions of every other kind. Where ESC is a user character and a command is half
/// received the condition is not well formed.
fn every_half(r: &mut Recovery) {
    for list in lists() {
        for half in halves(&mut r.rng) {
            let mut c = any_condition(&mut r.rng);
            c.users = Condition::power_up(0).users;
            c.count = list.len();
            for (user, &code) in c.users.iter_mut().zip(&list) {
                *user = User {
                    code,
                    dots: [code, 1, 2, 4, 8],
                };
            }
            c.half = half;
            if c.well_formed() {
                r.judge(&c, 2);
            } else {
                let room = r.rng.below(10);
                let refusal = r.call(&c.to_block(), room);
                r.report.expect(refusal == 3, || {
                    format!("{:?} with {:?}: refused by {}", half, list, refusal)
                });
            }
        }
    }
}

/// Bytes on the wire, cut at every place: each command, a user character on ESC among them.
fn cut_short(r: &mut Recovery) {
    let mut sent: Vec<Vec<u8>> = vec![vec![0x1B, 0x48, 0x05], vec![0x1B, 0x4C, 0x40], vec![0x1B, 0x54, 0x30]];
    for code in [0x00, 0x1A, 0x1B, 0x1C, 0x41, 0x49, 0xFF] {
        sent.push(define(code, [0x1B, 0x49, 0x00, 0x1B, 0x49]));
    }
    for bytes in sent {
        for cut in 0..=bytes.len() {
            for font in [0, 1] {
                r.judge(&Condition::power_up(font).after(&bytes[..cut]), 20);
            }
        }
    }
}

/// Rooms around eight, with a block that is right, lost, not well formed, damaged or of a wrong length: the first refusal
/// in the order 1, 2, 3, 11, 10 is given.
fn in_order(r: &mut Recovery) {
    for way in 0..32 {
        let wrong = |bit: usize| way >> bit & 1 == 1;
        let mut c = any_condition(&mut r.rng);
        while c.count > 8 || believed_lost(&c) {
            c = any_condition(&mut r.rng);
        }
        c.mode = 1;
        c.scroll_on = false;
        if wrong(3) {
            c.half = Half::Nothing;
            c = c.after(&define(0x1B, [1, 2, 3, 4, 5]));
        }
        let mut block = c.to_block().to_vec();
        if wrong(2) {
            block[4] = 4;
            seal(&mut block);
        }
        if wrong(1) {
            block[511] ^= 0x40;
        }
        if wrong(0) {
            block.push(0);
        }
        for room in if wrong(4) { 0..8 } else { 8..16 } {
            let due = [(0, 1), (1, 2), (2, 3), (3, 11), (4, 10)]
                .iter()
                .find(|&&(bit, _)| wrong(bit))
                .map_or(0, |&(_, number)| number);
            let refusal = r.call(&block, room);
            r.report.expect(refusal == due, || {
                format!("way {}, room {}: refused by {}", way, room, refusal)
            });
        }
    }
}

/// Each byte of a block with some values, under a right check and under a wrong one; each length.
fn wrong_blocks(r: &mut Recovery, c: &Condition) {
    let good = c.to_block();
    for i in 0..BLOCK {
        for v in [0, 1, 2, 3, 4, 5, 6, 7, 16, 17, 40, 0x1B, 0x20, 0x80, 0xFF] {
            for right in [true, false] {
                let mut b = good;
                b[i] = v;
                if right {
                    seal(&mut b);
                }
                let room = r.rng.pick(&[0, 7, 8, 9]);
                r.call(&b, room);
            }
        }
    }
    for length in (0..700).chain([1_024, 5_000]) {
        let mut b = good.to_vec();
        b.resize(length, 0);
        let room = r.rng.pick(&[0, 7, 8, 9]);
        r.call(&b, room);
    }
}

/// A block of four gigabytes and 512 is no block, and an output of four gigabytes and four bytes has room.
fn giants(r: &mut Recovery) {
    let block = Condition::power_up(0).to_block();
    sign::with_giant(BLOCK, |giant| {
        giant[..BLOCK].copy_from_slice(&block);
        let got = sign::recover(giant, &mut [0; 8]);
        r.report.expect(got == 257, || format!("a giant block: answer {}", got));
        r.report.cases += 1;
    });
    sign::with_giant(4, |giant| {
        let got = sign::recover(&block, giant);
        r.report
            .expect(got == 8 && giant[..8] == BACK && giant[8..16] == [0; 8], || {
                format!("a giant output: answer {}", got)
            });
        r.report.cases += 1;
    });
}

/// Four threads ask for blocks that they share.
fn threads(r: &mut Recovery) {
    let blocks: Vec<_> = (0..200).map(|_| any_condition(&mut r.rng).to_block()).collect();
    let workers: Vec<_> = (0..4)
        .map(|_| {
            let blocks = blocks.clone();
            std::thread::spawn(move || {
                blocks.iter().all(|block| {
                    let (mut got, mut expected) = ([7; 8], [7; 8]);
                    sign::recover(block, &mut got) == host_recover(block, &mut expected) && got == expected
                })
            })
        })
        .collect();
    for w in workers {
        let alike = w.join().expect("a thread ends");
        r.report.expect(alike, || "threads are answered otherwise".to_string());
        r.report.cases += blocks.len() as u64;
    }
}

fn main() {
    let mut r = Recovery::new(7);
    every_half(&mut r);
    cut_short(&mut r);
    in_order(&mut r);
    wrong_blocks(&mut r, &Condition::power_up(1));
    wrong_blocks(&mut r, &Condition::power_up(0).after(&define(0x1B, [0; 5])));
    wrong_blocks(&mut r, &Condition::power_up(0).after(&[0x1B, 0x43, 0x1B, 1, 2, 3, 4]));
    for i in 0..20_000 {
        let mut c = if i % 2 == 0 {
            any_condition(&mut r.rng)
        } else {
            reached_condition(&mut r.rng)
        };
        if i % 4 == 2 && !c.is_user(0x1B) {
            c.half = any_started(&mut r.rng);
        }
        r.judge(&c, 1);
        let mut block = c.to_block();
        damage(&mut block, &mut r.rng);
        let room = r.rng.below(12);
        r.call(&block, room);
    }
    giants(&mut r);
    threads(&mut r);
    println!(
        "recovery: accepted {}, refused 1, 2, 3, 11, 10: {:?}; of these with too little room {:?}; {} strings run on lost conditions",
        r.met[0],
        [1, 2, 3, 11, 10].map(|n| r.met[n]),
        [1, 2, 3, 11, 10].map(|n| r.met_short[n]),
        r.strings
    );
    for n in [0, 1, 2, 3, 10, 11] {
        r.report
            .expect(r.met[n] > 100, || format!("answered {} only {} times", n, r.met[n]));
    }
    for n in [1, 2, 3, 11] {
        r.report.expect(r.met_short[n] > 50, || {
            format!("{} was not tried with too little room", n)
        });
    }
    let strings = r.strings;
    r.report.expect(strings > 1_000, || {
        format!("only {} strings were run on lost conditions", strings)
    });
    r.report.end("recovery", 100_000);
}
