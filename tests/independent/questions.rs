//! Asks sign_view, sign_dot, sign_underline and sign_lit about all kinds of blocks, right and wrong, and
//! compares each answer with the independent program. Linked with libsign.a.

mod inputs;
mod module;
mod report;
mod rng;
mod sign;

use inputs::{any_condition, reached_condition};
use module::*;
use report::{hex, Report};
use rng::Rng;
use sign::Lent;

const NAMES: [&str; 4] = ["sign_view", "sign_dot", "sign_underline", "sign_lit"];

/// Numbers that are no position, no code and no dot, but whose low byte or low half is one.
const WIDE: [u32; 8] = [256, 257, 256 + 0x41, 511, 65_536, 65_536 + 5, 1 << 31, u32::MAX];

struct Questions {
    report: Report,
    rng: Rng,
    /// Answers of each question by refusal (0: accepted), to show that each was met.
    met: [[u64; 4]; 4],
    /// Questions that are refused 3 by themselves, by the refusal of their block (0: accepted).
    mixed: [[u64; 4]; 4],
}

impl Questions {
    fn compare(&mut self, which: usize, lent: &Lent, number: u32, k: u32) {
        let block = lent.bytes();
        let (got, expected) = match which {
            0 => (sign::view(block, number), host_view(block, number)),
            1 => (sign::dot(block, number, k), host_dot(block, number, k)),
            2 => (sign::underline(block, number), host_underline(block, number)),
            _ => (sign::lit(block, number), host_lit(block, number)),
        };
        self.report.cases += 1;
        let refusal = expected.saturating_sub(65_536) as usize;
        self.met[which][refusal] += 1;
        let by_itself = match which {
            0 => number > 39,
            1 => number > 255 || k < 1 || k > 35,
            _ => number > 255,
        };
        self.mixed[which][refusal] += by_itself as u64;
        self.report.expect(got == expected, || {
            format!(
                "{} of {} (dot {}), block of {} with head {}: answer {} and should be {}",
                NAMES[which],
                number,
                k,
                block.len(),
                hex(&block[..block.len().min(200)]),
                got,
                expected
            )
        });
    }

    fn view(&mut self, lent: &Lent, position: u32) {
        self.compare(0, lent, position, 0);
    }

    fn user(&mut self, lent: &Lent, code: u32, k: u32) {
        for which in 1..4 {
            self.compare(which, lent, code, k);
        }
    }

    /// One of each question about any bytes.
    fn each(&mut self, block: &[u8], number: u32, k: u32) {
        let lent = Lent::new(block, &mut self.rng);
        self.view(&lent, number);
        self.user(&lent, number, k);
        self.untouched(&lent);
    }

    fn untouched(&mut self, lent: &Lent) {
        self.report
            .expect(lent.untouched(), || "a question wrote somewhere".to_string());
    }

    /// Every position and every code of a condition, every dot of its user characters, and wide numbers.
    fn all_of(&mut self, c: &Condition) {
        let lent = Lent::new(&c.to_block(), &mut self.rng);
        for position in (0..=45).chain(WIDE) {
            self.view(&lent, position);
        }
        for code in (0..=255).chain(WIDE) {
            let k = 1 + self.rng.below(35) as u32;
            self.user(&lent, code, k);
        }
        for user in &c.users[..c.count] {
            for k in (0..=40).chain(WIDE) {
                self.compare(1, &lent, user.code as u32, k);
            }
        }
        self.untouched(&lent);
    }
}

/// One bit of the five bytes at a time: the 35 dots, the underline, and the four that are dropped.
fn each_bit(q: &mut Questions) {
    for code in [0x00, 0x1B, 0x20, 0x41, 0xAD, 0xFF] {
        for bit in 0..40 {
            let mut dots = [0u8; 5];
            dots[bit / 8] = 1 << (bit % 8);
            q.all_of(&Condition::power_up(0).after(&inputs::define(code, dots)));
        }
    }
}

/// Every code in both fonts, with Euro on and off, without and with a user character on it.
fn each_code(q: &mut Questions) {
    for code in 0..=255u8 {
        for way in 0..8 {
            let mut c = Condition::power_up(0);
            c.euro = way & 1 == 1;
            c.codes[39] = code;
            c.fonts[39] = (way >> 1 & 1) as u8;
            if way >= 4 {
                c.users[0] = User {
                    code,
                    dots: [code, 1, 2, 4, 8],
                };
                c.count = 1;
            }
            let lent = Lent::new(&c.to_block(), &mut q.rng);
            q.view(&lent, 39);
            q.view(&lent, 38);
            q.user(&lent, code as u32, 8);
            q.untouched(&lent);
        }
    }
}

/// Each byte of a block with some values, under a right check and under a wrong one; each length. The
/// question is right, or is refused by itself as well: then the block's refusal comes first.
fn refused_blocks(q: &mut Questions, c: &Condition) {
    let good = c.to_block();
    let code = c.users[0].code as u32;
    let asked = [(code, 3), (5, 0), (40, 36), (256, 3), (65_536 + 5, 35), (u32::MAX, 256)];
    for i in 0..BLOCK {
        for v in [0, 1, 2, 3, 4, 7, 16, 17, 40, 0x1B, 0x20, 0x80, 0xFF] {
            for right in [true, false] {
                let mut b = good;
                b[i] = v;
                if right {
                    seal(&mut b);
                }
                let (number, k) = q.rng.pick(&asked);
                q.each(&b, number, k);
            }
        }
    }
    for length in (0..700).chain([1_024, 5_000]) {
        let mut b = good.to_vec();
        b.resize(length, 0);
        for (number, k) in asked {
            q.each(&b, number, k);
        }
    }
}

/// A length of four gigabytes and 512 is not cut to 512.
fn giant_block(q: &mut Questions, c: &Condition) {
    let code = c.users[0].code as u32;
    sign::with_giant(BLOCK, |giant| {
        giant[..BLOCK].copy_from_slice(&c.to_block());
        let got = [
            sign::view(giant, 0),
            sign::dot(giant, code, 1),
            sign::underline(giant, code),
            sign::lit(giant, code),
        ];
        q.report
            .expect(got == [65_537; 4], || format!("a giant block: answers {:?}", got));
        q.report.cases += 4;
    });
}

/// Four threads ask about one block that they share.
fn threads(q: &mut Questions, c: &Condition) {
    let block = c.to_block();
    let workers: Vec<_> = (0..4)
        .map(|_| {
            std::thread::spawn(move || {
                let answers =
                    |ask: fn(&[u8], u32) -> u32| (0..1_000u32).map(|i| ask(&block, i % 300)).collect::<Vec<_>>();
                answers(sign::view) == answers(host_view)
                    && answers(sign::underline) == answers(host_underline)
                    && answers(sign::lit) == answers(host_lit)
                    && (0..1_000).all(|i| sign::dot(&block, i % 300, i % 40) == host_dot(&block, i % 300, i % 40))
            })
        })
        .collect();
    for w in workers {
        let alike = w.join().expect("a thread ends");
        q.report.expect(alike, || "threads are answered otherwise".to_string());
        q.report.cases += 4_000;
    }
}

fn main() {
    let mut q = Questions {
        report: Report::new(),
        rng: Rng::new(11),
        met: [[0; 4]; 4],
        mixed: [[0; 4]; 4],
    };
    let mut held = any_condition(&mut q.rng);
    while held.count < 16 || held.is_user(0x1B) {
        held = any_condition(&mut q.rng);
    }
    each_bit(&mut q);
    each_code(&mut q);
    refused_blocks(&mut q, &Condition::power_up(1));
    refused_blocks(&mut q, &held);
    for i in 0..700 {
        let c = if i % 2 == 0 {
            any_condition(&mut q.rng)
        } else {
            reached_condition(&mut q.rng)
        };
        q.all_of(&c);
    }
    giant_block(&mut q, &held);
    threads(&mut q, &held);
    for (i, name) in NAMES.iter().enumerate() {
        let (met, mixed) = (q.met[i], q.mixed[i]);
        println!(
            "questions: {} accepted {}, refused 1 to 3: {:?}; of these wrong by themselves: {:?}",
            name,
            met[0],
            &met[1..],
            &mixed[1..]
        );
        for n in 0..4 {
            q.report.expect(met[n] > 100, || {
                format!("{} was answered {} only {} times", name, n, met[n])
            });
        }
        for n in 1..4 {
            q.report.expect(mixed[n] > 100, || {
                format!("{} refused {} was not tried with a wrong question", name, n)
            });
        }
    }
    q.report.end("questions", 1_000_000);
}
