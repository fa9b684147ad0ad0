//! Calls sign_run, both plans and sign_power_up with all kinds of arguments, right and wrong, and compares each answer
//! and each byte of each buffer with the independent program. Linked with libsign.a.

mod inputs;
mod module;
mod report;
mod rng;
mod sign;

use inputs::{any_condition, any_started, commands, damage, place, reached_condition, rich, some_bytes};
use module::*;
use report::{first_difference, hex, Report};
use rng::Rng;
use sign::Lent;

struct Host {
    report: Report,
    rng: Rng,
    moves: Moves,
    /// Answers of run and both plans by refusal (0: accepted), to show that each was met.
    runs: [u64; 11],
    plans: [u64; 11],
    fonts_plans: [u64; 11],
    power_ups: [u64; 11],
}

impl Host {
    fn new(seed: u64) -> Host {
        Host {
            report: Report::new(),
            rng: Rng::new(seed),
            moves: Moves::new(),
            runs: [0; 11],
            plans: [0; 11],
            fonts_plans: [0; 11],
            power_ups: [0; 11],
        }
    }

    /// One run, compared in all it leaves; answers the block and tally after it, if it was accepted.
    fn run(&mut self, block: &[u8], tally: &[u8], bytes: &[u8]) -> Option<(Vec<u8>, Vec<u8>)> {
        let mut block_after = block.to_vec();
        let mut tally_after = tally.to_vec();
        let expected = host_run(&mut block_after, &mut tally_after, bytes);
        if expected != 0 {
            assert!(block_after == block && tally_after == tally);
        }
        let mut b = Lent::new(block, &mut self.rng);
        let mut t = Lent::new(tally, &mut self.rng);
        let s = Lent::new(bytes, &mut self.rng);
        let got = sign::run(b.bytes_mut(), t.bytes_mut(), s.bytes());
        self.report.cases += 1;
        self.runs[expected as usize] += 1;
        let call = || {
            format!(
                "sign_run, block of {} with head {}, tally {}, {} bytes {}",
                block.len(),
                hex(&block[..block.len().min(24)]),
                hex(tally),
                bytes.len(),
                hex(bytes)
            )
        };
        self.report.expect(got == expected, || {
            format!("{}: answer {} and should be {}", call(), got, expected)
        });
        self.report.expect(b.bytes() == &block_after[..], || {
            format!("{}: block, {}", call(), first_difference(&block_after, b.bytes()))
        });
        self.report.expect(t.bytes() == &tally_after[..], || {
            format!(
                "{}: tally {} and should be {}",
                call(),
                hex(t.bytes()),
                hex(&tally_after)
            )
        });
        self.report.expect(b.guarded() && t.guarded() && s.untouched(), || {
            format!("{}: wrote outside", call())
        });
        if got != 0 {
            self.report.expect(b.untouched() && t.untouched(), || {
                format!("{}: refused, and changed something", call())
            });
            return None;
        }
        // an accepted run's block and tally are accepted again, and no bytes change nothing
        let mut again = b.bytes().to_vec();
        let mut again_tally = t.bytes().to_vec();
        let answer = sign::run(&mut again, &mut again_tally, &[]);
        self.report
            .expect(answer == 0 && again == b.bytes() && again_tally == t.bytes(), || {
                format!("{}: its block is answered {} afterwards", call(), answer)
            });
        Some((b.bytes().to_vec(), t.bytes().to_vec()))
    }

    /// Both planners on the same arguments, with so many bytes more (or less) room than they want.
    fn plans(&mut self, block: &[u8], codes: &[u8], fonts: &[u8], cursor: u32, spare: isize) {
        let room = |wants: usize| (wants as isize + spare).max(0) as usize;
        self.plan(block, codes, None, cursor, room(PLAN_ROOM));
        self.plan(block, codes, Some(fonts), cursor, room(FONTS_ROOM));
    }

    /// One plan, compared in all it leaves: sign_plan_fonts where there are fonts, otherwise sign_plan.
    fn plan(&mut self, block: &[u8], codes: &[u8], fonts: Option<&[u8]>, cursor: u32, room: usize) {
        let fill = self.rng.byte();
        let mut out_after = vec![fill; room];
        let expected = match fonts {
            Some(fonts) => host_plan_fonts(block, codes, fonts, cursor, &mut out_after, &self.moves),
            None => host_plan(block, codes, cursor, &mut out_after, &self.moves),
        };
        let b = Lent::new(block, &mut self.rng);
        let k = Lent::new(codes, &mut self.rng);
        let f = fonts.map(|fonts| Lent::new(fonts, &mut self.rng));
        let mut o = Lent::new(&vec![fill; room], &mut self.rng);
        let lent = f.as_ref().map(|f| f.bytes());
        let got = sign::plan_either(b.bytes(), k.bytes(), lent, cursor, o.bytes_mut());
        self.report.cases += 1;
        let (name, answers) = match fonts {
            Some(_) => ("sign_plan_fonts", &mut self.fonts_plans),
            None => ("sign_plan", &mut self.plans),
        };
        answers[if expected < 256 { 0 } else { expected as usize - 256 }] += 1;
        let call = || {
            format!(
                "{}, block of {} with head {}, {} codes {}, fonts {}, cursor {}, room {}",
                name,
                block.len(),
                hex(&block[..block.len().min(24)]),
                codes.len(),
                hex(codes),
                hex(fonts.unwrap_or(&[])),
                cursor,
                room
            )
        };
        self.report.expect(got == expected, || {
            format!("{}: answer {} and should be {}", call(), got, expected)
        });
        self.report.expect(o.bytes() == &out_after[..], || {
            format!("{}: plan {} and should be {}", call(), hex(o.bytes()), hex(&out_after))
        });
        let kept = b.untouched() && k.untouched() && f.as_ref().map_or(true, |f| f.untouched());
        self.report
            .expect(kept && o.guarded(), || format!("{}: wrote outside", call()));
        if got >= 256 {
            self.report.expect(o.untouched(), || {
                format!("{}: refused, and wrote to the buffer", call())
            });
        }
    }

    fn power_up(&mut self, font: u32, room: usize) {
        let fill = self.rng.bytes(room);
        let mut after = fill.clone();
        let expected = host_power_up(font, &mut after);
        let mut b = Lent::new(&fill, &mut self.rng);
        let got = sign::power_up(font, b.bytes_mut());
        self.report.cases += 1;
        self.power_ups[expected as usize] += 1;
        let call = || format!("sign_power_up, font {}, room {}", font, room);
        self.report.expect(got == expected, || {
            format!("{}: answer {} and should be {}", call(), got, expected)
        });
        self.report.expect(b.bytes() == &after[..] && b.guarded(), || {
            format!("{}: {}", call(), first_difference(&after, b.bytes()))
        });
    }
}

const ZERO: [u8; TALLY] = [0; TALLY];
const LIMIT32: u32 = LIMIT as u32;

fn tally(bytes: u32, busy: u32, flickerless: u32, worst: u32) -> Vec<u8> {
    Tally {
        bytes: bytes as u64,
        busy: busy as u64,
        flickerless: flickerless as u64,
        worst: worst as u64,
    }
    .to_bytes()
    .to_vec()
}

/// A condition for which plans are made, with user characters.
fn plannable() -> Condition {
    let mut c = rich();
    c.mode = 1;
    c.scroll_on = false;
    c.half = Half::Nothing;
    c
}

/// Every byte of a block with every value, under a right check; some under a wrong one; every check.
fn damaged_blocks(h: &mut Host) {
    for c in [Condition::power_up(0), rich()] {
        let good = c.to_block();
        for i in 0..510 {
            for v in 0..=255u8 {
                let mut b = good;
                b[i] = v;
                seal(&mut b);
                h.run(&b, &ZERO, &[0x41, 0x1B]);
            }
            for v in [0x00, 0x01, 0x10, 0x56, 0x80, 0xFF] {
                let mut b = good;
                b[i] ^= v;
                h.run(&b, &ZERO, &[0x41]);
            }
        }
        for check in 0..=65_535u32 {
            let mut b = good;
            b[510] = check as u8;
            b[511] = (check >> 8) as u8;
            h.run(&b, &ZERO, &[]);
        }
    }
    let good = plannable().to_block();
    let codes = plannable().codes.map(|x| if x < 0x20 { 0x41 } else { x });
    let fonts = plannable().fonts.map(|f| 1 - f);
    for i in 0..510 {
        for v in 0..=255u8 {
            let mut b = good;
            b[i] = v;
            seal(&mut b);
            h.plans(&b, &codes, &fonts, (v % 40) as u32, 0);
        }
        let mut b = good;
        b[i] ^= 0x40;
        h.plans(&b, &codes, &fonts, 0, 0);
    }
    // two damages that leave the sum as it was: the check is right, and only the other rules can tell
    for i in 0..254 {
        let mut b = good;
        if b[i] <= 253 && b[2 * i + 1] >= 1 {
            b[i] += 2;
            b[2 * i + 1] -= 1;
            h.plans(&b, &codes, &fonts, 0, 0);
            h.run(&b, &ZERO, &[]);
        }
    }
}

/// Every set of things that are wrong at once: the lowest number is given.
fn order_of_refusals(h: &mut Host) {
    let long = vec![0x41; LONGEST_RUN + 1];
    for set in 0..1u32 << 10 {
        let wrong = |i: u32| set >> i & 1 == 1;
        let mut block = Condition::power_up(0).to_block().to_vec();
        if wrong(0) {
            block[4] = 9; // mode: not well formed
            seal(&mut block);
        }
        if wrong(9) {
            block[300] = 1; // unused: no condition is written so
            seal(&mut block);
        }
        if wrong(1) {
            block[2] = 2; // not a block of this kind
            seal(&mut block);
        }
        if wrong(2) {
            block[510] ^= 1;
        }
        if wrong(3) {
            block.push(0);
        }
        let mut t = tally(7, 7, 7, 7);
        if wrong(4) {
            t = tally(LIMIT32, 7, 7, 7); // one byte more would pass the limit
        }
        if wrong(5) {
            t[15] = 0xFF; // above the limit
        }
        if wrong(6) {
            t.push(0);
        }
        if wrong(7) {
            t.truncate(15);
        }
        h.run(&block, &t, if wrong(8) { &long } else { &[0x41, 0x42] });
    }
    for set in 0..1u32 << 16 {
        let wrong = |i: u32| set >> i & 1 == 1;
        let mut c = Condition::power_up(0);
        let mut codes = vec![0x41; CELLS];
        let mut fonts = vec![0; CELLS];
        if wrong(0) {
            c.half = any_started(&mut h.rng);
        }
        if wrong(1) {
            c.mode = 2 + (set >> 5 & 1) as u8;
        }
        if wrong(2) {
            // 1Bh as a user code and a half-received command exclude each other
            let code = PLANNERS_CODES[h.rng.below(if wrong(0) { 5 } else { 6 })];
            c.users[0] = User { code, dots: [1; 5] };
            c.count = 1;
        }
        if wrong(14) {
            // stops the planner of two fonts only
            let code = h.rng.pick(&[0x18, 0x19, 0x1A]);
            c.users[c.count] = User { code, dots: [2; 5] };
            c.count += 1;
        }
        if wrong(3) {
            codes[h.rng.below(CELLS)] = 0x1F;
        }
        let mut block = c.to_block().to_vec();
        if wrong(4) {
            block[300] = 1;
            seal(&mut block);
        }
        if wrong(15) {
            block[7] = 2; // selected font: not well formed
            seal(&mut block);
        }
        if wrong(5) {
            block[0] = 0;
            seal(&mut block);
        }
        if wrong(6) {
            block[511] ^= 0x80;
        }
        if wrong(7) {
            block.truncate(511);
        }
        if wrong(8) {
            codes.push(0x41);
        } else if wrong(9) {
            codes.pop();
        }
        if wrong(12) {
            fonts[h.rng.below(CELLS)] = h.rng.pick(&[2, 3, 0x80, 0xFF]);
        }
        if wrong(13) {
            let n = h.rng.pick(&[0, 39, 41]);
            fonts.resize(n, 0);
        }
        let cursor = if wrong(10) { 40 } else { 39 };
        h.plans(&block, &codes, &fonts, cursor, if wrong(11) { -1 } else { 0 });
    }
}

fn wrong_lengths(h: &mut Host) {
    let block = rich().to_block();
    for block_len in [0, 1, 2, 3, 256, 510, 511, 512, 513, 514, 1024] {
        for tally_len in [0, 1, 4, 8, 12, 15, 16, 17, 20, 32] {
            for bytes_len in [0, 1, 100] {
                let mut b = block.to_vec();
                b.resize(block_len, 0);
                h.run(&b, &vec![0; tally_len], &vec![0x41; bytes_len]);
            }
        }
        for codes_len in [0, 1, 20, 39, 40, 41, 80, 512] {
            for fonts_len in [0, 1, 39, 40, 41, 80] {
                for spare in [-104, -60, -1, 0, 1, 400] {
                    let mut b = plannable().to_block().to_vec();
                    b.resize(block_len, 0);
                    h.plans(&b, &vec![0x41; codes_len], &vec![1; fonts_len], 5, spare);
                }
            }
        }
    }
    for n in [
        LONGEST_RUN - 1,
        LONGEST_RUN,
        LONGEST_RUN + 1,
        LONGEST_RUN + 2,
        65_535,
        65_536,
        65_537,
        100_000,
    ] {
        for block in [Condition::power_up(0).to_block(), rich().to_block()] {
            let bytes = inputs::mixed(n);
            h.run(&block, &ZERO, &bytes);
            h.run(&block, &tally(LIMIT32, 0, 0, 0), &bytes);
            h.run(&block, &tally(0, LIMIT32 - 1, 0, 0), &bytes);
            h.run(&block, &tally(0, 0, 0, LIMIT32 - 1), &bytes);
            h.run(&block, &[0x42; TALLY], &bytes);
        }
    }
    for font in [0, 1, 2, 3, 255, 256, 257, 65_536, 1 << 31, u32::MAX] {
        for room in (0..600).chain([1024, 5_000]) {
            h.power_up(font, room);
        }
    }
}

/// Tallies at and above the limit, and runs that just reach or just pass it.
fn tallies(h: &mut Host) {
    let edge = [0, 1, LIMIT32 - 40, LIMIT32 - 1, LIMIT32, LIMIT32 + 1, u32::MAX];
    for a in edge {
        for b in edge {
            for c in edge {
                for d in edge {
                    let block = Condition::power_up(0).to_block();
                    for bytes in [&[][..], &[0x41], &[0x1B, 0x53], &[0x1B, 0x53, 0x41]] {
                        h.run(&block, &tally(a, b, c, d), bytes);
                    }
                }
            }
        }
    }
    // one number alone at, just below or just above its limit after the run
    let mut alone = [0; 4];
    for _ in 0..4_000 {
        let c = any_condition(&mut h.rng);
        let length = h.rng.below(60);
        let bytes = some_bytes(&mut h.rng, length);
        let (_, sum) = run(&c, &Tally::ZERO, &bytes).expect("an accepted run");
        let base = h.rng.below(1_000) as u32;
        let delta = h.rng.below(3) as u64;
        let mut t = [base; 4];
        let which = h.rng.below(4);
        t[which] = (LIMIT - sum.numbers()[which] - 1 + delta) as u32;
        let refused_5 = h.runs[5];
        h.run(&c.to_block(), &tally(t[0], t[1], t[2], t[3]), &bytes);
        alone[which] += h.runs[5] - refused_5;
    }
    println!("host: runs refused 5 for bytes, busy, flickerless or worst alone: {:?}", alone);
    h.report
        .expect(alone.iter().all(|&n| n > 0), || "no 5 for one of the four alone".to_string());
}

/// Any condition, any bytes, with now and then something wrong.
fn random_runs(h: &mut Host, cases: usize) {
    for i in 0..cases {
        let c = if i % 2 == 0 {
            any_condition(&mut h.rng)
        } else {
            reached_condition(&mut h.rng)
        };
        let mut block = c.to_block().to_vec();
        let length = if i % 500 == 0 {
            32_700 + h.rng.below(70)
        } else {
            h.rng.below(80)
        };
        let bytes = some_bytes(&mut h.rng, length);
        let mut t = tally(
            h.rng.below(1_000_000) as u32,
            h.rng.below(1_000_000) as u32,
            h.rng.below(1_000_000) as u32,
            h.rng.below(1_000_000) as u32,
        );
        if h.rng.once_in(10) {
            let edge = LIMIT32 - h.rng.below(500) as u32;
            let busy = LIMIT32 - h.rng.below(2_000) as u32;
            t = tally(edge, busy, edge, LIMIT32 - h.rng.below(9_000) as u32);
        }
        if h.rng.once_in(8) {
            damage(&mut block, &mut h.rng);
        }
        if h.rng.once_in(40) {
            t = h.rng.bytes(TALLY);
        }
        odd_length(&mut t, 30, 0, &mut h.rng);
        odd_length(&mut block, 1_100, 0, &mut h.rng);
        h.run(&block, &t, &bytes);
    }
}

/// Now and then another length, below this.
fn odd_length(lent: &mut Vec<u8>, below: usize, fill: u8, rng: &mut Rng) {
    if rng.once_in(60) {
        lent.resize(rng.below(below), fill);
    }
}

fn random_plans(h: &mut Host, cases: usize) {
    for i in 0..cases {
        let mut c = if i % 2 == 0 {
            any_condition(&mut h.rng)
        } else {
            reached_condition(&mut h.rng)
        };
        if !h.rng.once_in(6) {
            c.mode = 1;
            c.scroll_on = false;
        }
        if !h.rng.once_in(6) {
            c.half = Half::Nothing;
        }
        if !h.rng.once_in(6) {
            let planners = h.rng.pick(&[&PLANNERS_CODES[..], &FONTS_CODES, &FONTS_CODES]);
            for k in 0..c.count {
                if planners.contains(&c.users[k].code) {
                    // a free code in its place
                    let free = (0x80..=0xFF).find(|&x| !c.is_user(x)).unwrap();
                    c.users[k].code = free;
                }
            }
        }
        let mut block = c.to_block().to_vec();
        let mut codes = c.codes.to_vec();
        for _ in 0..h.rng.below(45) {
            let p = h.rng.below(CELLS);
            codes[p] = if h.rng.once_in(3) {
                h.rng.byte()
            } else {
                0x41 + h.rng.below(3) as u8
            };
        }
        if !h.rng.once_in(6) {
            for x in codes.iter_mut() {
                if *x < 0x20 && !c.is_user(*x) {
                    *x |= 0x20;
                }
            }
        }
        if h.rng.once_in(10) {
            damage(&mut block, &mut h.rng);
        }
        let mut fonts = c.fonts.to_vec();
        for _ in 0..h.rng.pick(&[0, 3, 45]) {
            fonts[h.rng.below(CELLS)] = h.rng.below(2) as u8;
        }
        if h.rng.once_in(10) {
            // above 1, also where the cell holds the wanted code
            let p = h.rng.below(CELLS);
            fonts[p] = h.rng.byte();
        }
        odd_length(&mut codes, 80, 0x41, &mut h.rng);
        odd_length(&mut fonts, 80, 0, &mut h.rng);
        odd_length(&mut block, 1_100, 0, &mut h.rng);
        let cursor = match h.rng.below(12) {
            0 => h.rng.pick(&[
                40,
                41,
                59,
                127,
                255,
                256,
                256 + 5,
                65_536,
                65_536 + 39,
                1 << 31,
                u32::MAX,
            ]),
            1 => h.rng.next() as u32,
            _ => place(&mut h.rng) as u32,
        };
        let spare = if h.rng.once_in(8) {
            h.rng.below(FONTS_ROOM) as isize - FONTS_ROOM as isize
        } else {
            h.rng.below(30) as isize
        };
        h.plans(&block, &codes, &fonts, cursor, spare);
    }
}

/// Codes defined again: each code, at each age (on 1Bh the second definition is text).
fn redefinitions(h: &mut Host) {
    for code in 0..=255 {
        for bytes in inputs::redefinition_on(code) {
            h.run(&Condition::power_up(0).to_block(), &ZERO, &bytes);
        }
    }
}

/// 1 to 40 definitions, with codes defined again, the oldest dropped and Initialise between: each of these is met with
/// 16 held, or the test fails.
fn definitions(h: &mut Host) {
    let mut met = [0; 3];
    for n in 1..=40 {
        for _ in 0..100 {
            let bytes = inputs::definitions(&mut h.rng, n);
            h.run(&Condition::power_up(0).to_block(), &ZERO, &bytes);
            let mut c = Condition::power_up(0);
            for &b in &bytes {
                let before = c.clone();
                c.take(b);
                if before.count == 16 && c.users != before.users {
                    let again = before.is_user(c.users[15].code);
                    met[if c.count == 0 { 2 } else { again as usize }] += 1;
                }
            }
        }
    }
    println!("host: with 16 held, dropped {}, defined again {}, Initialise {}", met[0], met[1], met[2]);
    h.report.expect(met.iter().all(|&n| n > 0), || format!("not all was met with 16 held: {:?}", met));
}

/// The same bytes in one run or in several end alike.
fn pieces(h: &mut Host, cases: usize) {
    for i in 0..cases {
        let c = if i % 2 == 0 {
            any_condition(&mut h.rng)
        } else {
            Condition::power_up(0)
        };
        let length = h.rng.below(200);
        let bytes = some_bytes(&mut h.rng, length);
        let block = c.to_block().to_vec();
        let whole = h.run(&block, &ZERO, &bytes);
        let mut now = Some((block, ZERO.to_vec()));
        let mut at = 0;
        while at < length {
            let to = (at + 1 + h.rng.below(20)).min(length);
            now = match now {
                Some((b, t)) => h.run(&b, &t, &bytes[at..to]),
                None => None,
            };
            at = to;
        }
        h.report
            .expect(whole == now, || format!("in pieces otherwise: {}", hex(&bytes)));
    }
}

/// A long day: one block and tally carried through many runs.
fn long_day(h: &mut Host) {
    let mut now = (Condition::power_up(1).to_block().to_vec(), ZERO.to_vec());
    for i in 0..40 {
        let flavour = inputs::FLAVOURS[i % 5];
        let bytes = commands(&mut h.rng, LONGEST_RUN, flavour, false);
        match h.run(&now.0, &now.1, &bytes) {
            Some(next) => now = next,
            None => return h.report.expect(false, || "a long day: refused".to_string()),
        }
    }
}

/// Four threads at once, each on its own blocks: there is no state outside the buffers.
fn threads(h: &mut Host) {
    let workers: Vec<_> = (0..4)
        .map(|seed| {
            std::thread::spawn(move || {
                let mut h = Host::new(100 + seed);
                random_runs(&mut h, 1_000);
                random_plans(&mut h, 1_000);
                h.report
            })
        })
        .collect();
    for w in workers {
        let r = w.join().expect("a thread ends");
        h.report.cases += r.cases;
        h.report.differences += r.differences;
    }
}

/// Lengths of four gigabytes and some: not cut to 32 bits.
fn giant_lengths(h: &mut Host) {
    for some in [16, 40, 43, 44, 103, 104, 511, 512] {
        if !sign::with_giant(some, |giant| giant_length(h, giant)) {
            return;
        }
    }
}

fn giant_length(h: &mut Host, giant: &mut [u8]) {
    let n = giant.len();
    let block = Condition::power_up(0).to_block();
    let mut small = block;
    let mut t = ZERO;
    let mut out = [0u8; FONTS_ROOM];
    let (codes, fonts) = ([0x41; CELLS], [0; CELLS]);

    giant[..BLOCK].copy_from_slice(&block);
    let a = sign::run(giant, &mut t, &[0x41]);
    let b = sign::plan(giant, &codes, 0, &mut out);
    let d = sign::plan_fonts(giant, &codes, &fonts, 0, &mut out);
    h.report.expect(a == 1 && b == 257 && d == 257, || {
        format!("block of {} bytes: answers {}, {} and {}", n, a, b, d)
    });
    h.report
        .expect(giant[..BLOCK] == block && t == ZERO && out == [0; FONTS_ROOM], || {
            "a giant block changed".to_string()
        });
    giant[..BLOCK].fill(0);

    let a = sign::run(&mut small, giant, &[0x41]);
    let b = sign::run(&mut small, &mut t, giant);
    h.report.expect(a == 1 && b == 4, || {
        format!("tally or run of {} bytes: answers {} and {}", n, a, b)
    });
    let a = sign::plan(&small, giant, 0, &mut out);
    let b = sign::plan_fonts(&small, giant, &fonts, 0, &mut out);
    let d = sign::plan_fonts(&small, &codes, giant, 0, &mut out);
    h.report.expect(a == 257 && b == 257 && d == 257, || {
        format!("{} codes or fonts: answers {}, {} and {}", n, a, b, d)
    });
    h.report
        .expect(small == block && t == ZERO && out == [0; FONTS_ROOM], || {
            "a refused call changed something".to_string()
        });

    for lent in [None, Some(&fonts[..])] {
        let a = sign::plan_either(&small, &codes, lent, 39, giant);
        h.report
            .expect(a == 43 && giant[..40] == codes && giant[43..1_000] == [0; 957], || {
                format!("plan into {} bytes: answer {}", n, a)
            });
        giant[..43].fill(0);
    }
    let a = sign::power_up(0, giant);
    h.report.expect(
        a == 0 && giant[..BLOCK] == block && giant[BLOCK..1_000] == [0; 488],
        || format!("power-up into {} bytes: answer {}", n, a),
    );
    h.report.cases += 11;
}

fn main() {
    let mut h = Host::new(3);
    wrong_lengths(&mut h);
    order_of_refusals(&mut h);
    tallies(&mut h);
    damaged_blocks(&mut h);
    random_runs(&mut h, 40_000);
    random_plans(&mut h, 40_000);
    redefinitions(&mut h);
    definitions(&mut h);
    pieces(&mut h, 2_000);
    long_day(&mut h);
    threads(&mut h);
    giant_lengths(&mut h);
    println!("host: runs by answer 0 to 5: {:?}", &h.runs[..6]);
    let plans = [("sign_plan", h.plans), ("sign_plan_fonts", h.fonts_plans)];
    for (name, met) in plans {
        println!(
            "host: {} accepted {}, by refusal 1 to 10: {:?}",
            name,
            met[0],
            &met[1..]
        );
    }
    println!(
        "host: power-ups by answer: {} accepted, {} refused 3, {} refused 10",
        h.power_ups[0], h.power_ups[3], h.power_ups[10]
    );
    for (n, met) in [
        (1, h.runs[1]),
        (2, h.runs[2]),
        (3, h.runs[3]),
        (4, h.runs[4]),
        (5, h.runs[5]),
    ] {
        h.report.expect(met > 0, || format!("no run was refused {}", n));
    }
    for (name, met) in plans {
        for n in [0, 1, 2, 3, 6, 7, 8, 9, 10] {
            h.report
                .expect(met[n] > 0, || format!("no {} was answered {}", name, n));
        }
    }
    h.report.end("host", 1_010_000);
}
