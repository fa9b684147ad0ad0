//! Calls sign_reel with reels of every kind, right and wrong, and compares the answer, the lengths and each byte of
//! each buffer with the independent program, and with sign_plan and sign_run one picture at a time. Linked with
//! libsign.a.

mod inputs;
mod module;
mod pictures;
mod report;
mod rng;
mod sign;

use inputs::{any_condition, any_started, damage, reached_condition};
use module::*;
use pictures::*;
use report::{first_difference, hex, Report};
use rng::Rng;
use sign::Lent;

/// 40 wanted codes and the asked cursor.
type Picture = ([u8; CELLS], u8);

/// What is lent to one call; of the lengths and of the output how many bytes.
#[derive(Clone)]
struct Call {
    block: Vec<u8>,
    codes: Vec<u8>,
    cursors: Vec<u8>,
    lengths: usize,
    room: usize,
}

impl Call {
    /// These pictures from this condition, with just the room that they want.
    fn new(c: &Condition, reel: &[Picture]) -> Call {
        Call {
            block: c.to_block().to_vec(),
            codes: reel.iter().flat_map(|&(codes, _)| codes).collect(),
            cursors: reel.iter().map(|&(_, asked)| asked).collect(),
            lengths: REEL,
            room: PLAN_ROOM * reel.len(),
        }
    }

    /// The same with so many bytes more (or less) room.
    fn spare(mut self, bytes: isize) -> Call {
        self.room = (self.room as isize + bytes).max(0) as usize;
        self
    }

    /// sign_plan for one picture of the reel, from this block.
    fn plan(&self, picture: usize, block: &[u8], out: &mut [u8]) -> u32 {
        let codes = &self.codes[CELLS * picture..CELLS * (picture + 1)];
        sign::plan(block, codes, self.cursors[picture] as u32, out)
    }

    fn words(&self) -> String {
        format!(
            "sign_reel, block of {} with head {}, {} codes {}, {} cursors {}, {} lengths, room {}",
            self.block.len(),
            hex(&self.block[..self.block.len().min(24)]),
            self.codes.len(),
            hex(&self.codes),
            self.cursors.len(),
            hex(&self.cursors),
            self.lengths,
            self.room
        )
    }
}

/// An answer's picture (64 for the whole call) and refusal; none where the reel is accepted.
fn refused(answer: u32) -> Option<(usize, u32)> {
    let n = answer.checked_sub(65_536)?;
    Some((n as usize / 256, n % 256))
}

/// What was met, to show that each was.
struct Met {
    /// Accepted reels by how many pictures they have.
    accepted: [u64; REEL + 1],
    /// Whole calls by refusal.
    whole: [u64; 11],
    /// Pictures by refusal: the only one of its reel, the first, one between, the last.
    pictures: [[u64; 11]; 4],
    /// Plans of accepted reels: all; of no bytes; from a clear; with a user character below 20h; of 44 bytes.
    plans: [u64; 5],
    /// The most bytes of a reel.
    longest: u32,
}

const PLACES: [&str; 4] = ["only", "first", "middle", "last"];

impl Met {
    fn count(&mut self, call: &Call, answer: u32, lengths: &[u8], out: &[u8]) {
        let pictures = call.cursors.len();
        match refused(answer) {
            None => {
                self.accepted[pictures] += 1;
                self.longest = self.longest.max(answer);
                self.count_plans(call, lengths, out);
            }
            Some((REEL, refusal)) => self.whole[refusal as usize] += 1,
            Some((picture, refusal)) => {
                let place = match (picture == 0, picture + 1 == pictures) {
                    (true, true) => 0,
                    (true, false) => 1,
                    (false, false) => 2,
                    (false, true) => 3,
                };
                self.pictures[place][refusal as usize] += 1;
            }
        }
    }

    fn count_plans(&mut self, call: &Call, lengths: &[u8], out: &[u8]) {
        let c = Condition::from_block(&call.block).expect("the block of an accepted reel");
        let mut at = 0;
        for (codes, &length) in call.codes.chunks(CELLS).zip(lengths) {
            let bytes = &out[at..at + length as usize];
            at += bytes.len();
            let clears = bytes.first() == Some(&CLEAR) && !c.is_user(CLEAR);
            let users = codes.iter().any(|x| *x < 0x20);
            let kinds = [true, bytes.is_empty(), clears, users, bytes.len() == PLAN_ROOM];
            for (n, kind) in self.plans.iter_mut().zip(kinds) {
                *n += kind as u64;
            }
        }
    }
}

struct Reels {
    report: Report,
    rng: Rng,
    moves: Moves,
    met: Met,
}

impl Reels {
    fn new(seed: u64) -> Reels {
        Reels {
            report: Report::new(),
            rng: Rng::new(seed),
            moves: Moves::new(),
            met: Met {
                accepted: [0; REEL + 1],
                whole: [0; 11],
                pictures: [[0; 11]; 4],
                plans: [0; 5],
                longest: 0,
            },
        }
    }

    /// One reel, compared in all it leaves. Answers what the independent program does.
    fn compare(&mut self, call: &Call) -> u32 {
        // any bytes stand there before, so that what is written is seen
        let (lengths, out) = (self.rng.bytes(call.lengths), self.rng.bytes(call.room));
        let (mut lengths_after, mut out_after) = (lengths.clone(), out.clone());
        let expected = host_reel(
            &call.block,
            &call.codes,
            &call.cursors,
            &mut lengths_after,
            &mut out_after,
            &self.moves,
        );
        let b = Lent::new(&call.block, &mut self.rng);
        let k = Lent::new(&call.codes, &mut self.rng);
        let u = Lent::new(&call.cursors, &mut self.rng);
        let mut n = Lent::new(&lengths, &mut self.rng);
        let mut o = Lent::new(&out, &mut self.rng);
        let got = sign::reel(b.bytes(), k.bytes(), u.bytes(), n.bytes_mut(), o.bytes_mut());
        self.report.cases += 1;
        self.met.count(call, expected, &lengths_after, &out_after);
        self.report.expect(got == expected, || {
            format!("{}: answer {} and should be {}", call.words(), got, expected)
        });
        self.report.expect(n.bytes() == &lengths_after[..], || {
            format!(
                "{}: lengths {} and should be {}",
                call.words(),
                hex(n.bytes()),
                hex(&lengths_after)
            )
        });
        self.report.expect(o.bytes() == &out_after[..], || {
            format!("{}: output, {}", call.words(), first_difference(&out_after, o.bytes()))
        });
        let kept = b.untouched() && k.untouched() && u.untouched();
        self.report.expect(kept && n.guarded() && o.guarded(), || {
            format!("{}: wrote outside", call.words())
        });
        if refused(got).is_some() {
            self.report.expect(o.untouched(), || {
                format!("{}: refused, and wrote to the output", call.words())
            });
            let right = if call.lengths == REEL {
                n.bytes() == [0; REEL]
            } else {
                n.untouched()
            };
            self.report.expect(right, || {
                format!("{}: refused, with lengths {}", call.words(), hex(n.bytes()))
            });
        }
        if got == expected {
            let alike = one_at_a_time(call, got, n.bytes(), o.bytes());
            self.report.expect(alike.is_ok(), || {
                format!("{}: one at a time, {}", call.words(), alike.unwrap_err())
            });
        }
        expected
    }
}

/// The same by sign_plan and sign_run, one picture at a time, up to the last or to the one that is refused.
fn one_at_a_time(call: &Call, answer: u32, lengths: &[u8], out: &[u8]) -> Result<(), String> {
    let until = match refused(answer) {
        Some((REEL, _)) => return Ok(()),
        Some((picture, _)) => picture,
        None => call.cursors.len(),
    };
    let mut block = call.block.clone();
    let mut tally = [0; TALLY];
    let mut all = Vec::new();
    let mut each = [0; REEL];
    for picture in 0..until {
        let mut room = [0; PLAN_ROOM];
        let length = call.plan(picture, &block, &mut room);
        if length as usize > PLAN_ROOM {
            return Err(format!("sign_plan of picture {}: answer {}", picture, length));
        }
        let bytes = &room[..length as usize];
        let answer = sign::run(&mut block, &mut tally, bytes);
        if answer != 0 {
            return Err(format!("sign_run of picture {}: answer {}", picture, answer));
        }
        each[picture] = length as u8;
        all.extend_from_slice(bytes);
    }
    if let Some((picture, refusal)) = refused(answer) {
        let own = call.plan(picture, &block, &mut [0; PLAN_ROOM]);
        return if own == 256 + refusal {
            Ok(())
        } else {
            Err(format!("sign_plan of picture {}: answer {}", picture, own))
        };
    }
    if answer as usize != all.len() || lengths != each || out[..all.len()] != all[..] {
        return Err(format!("lengths {} of bytes {}", hex(&each), hex(&all)));
    }
    // sent in one go the bytes do the same, and the last picture is there with its cursor
    let mut whole = call.block.clone();
    let mut whole_tally = [0; TALLY];
    let answer = sign::run(&mut whole, &mut whole_tally, &all);
    if answer != 0 || whole != block || whole_tally != tally {
        return Err(format!("all bytes in one run: answer {}", answer));
    }
    let shown = match until.checked_sub(1) {
        Some(last) => block[24..64] == call.codes[CELLS * last..] && block[3] == call.cursors[last],
        None => block == call.block,
    };
    if shown {
        Ok(())
    } else {
        Err("something else than the last picture is shown".to_string())
    }
}

// ------------------------------------------------------------------------------------------ pictures

/// Both lines as a lounge has them: words and blanks.
fn text(rng: &mut Rng) -> [u8; CELLS] {
    let words: [&[u8]; 8] = [
        b"LOUNGE",
        b"GATE 12",
        b"14:35",
        b"DELAYED",
        b"to Ramp B",
        b"Welcome",
        b"DECK 7",
        b"A",
    ];
    let mut codes = [0x20; CELLS];
    let mut at = 0;
    loop {
        let word = rng.pick(&words);
        let end = at + word.len();
        if end > CELLS {
            return codes;
        }
        codes[at..end].copy_from_slice(word);
        at = end + 1 + rng.below(3);
    }
}

/// A picture to come after this glass.
fn next_picture(glass: &Condition, rng: &mut Rng) -> Picture {
    let codes = match rng.below(9) {
        // the same once more: no bytes
        0 => return (kept(glass), glass.cursor as u8),
        1 => [0x20; CELLS],
        2 => [0; CELLS].map(|_: u8| wanted_code(glass, rng)),
        3 => notice(glass, rng),
        4 => text(rng),
        // a few cells or words anew, and others
        _ => some_codes(glass, rng),
    };
    let asked = match rng.below(3) {
        0 => glass.cursor,
        1 => inputs::place(rng),
        _ => rng.below(CELLS),
    };
    (codes, asked as u8)
}

/// Pictures in turn that can be planned from this glass, if any can.
fn some_reel(c: &Condition, pictures: usize, rng: &mut Rng) -> Vec<Picture> {
    let mut glass = c.clone();
    let mut reel = Vec::new();
    for _ in 0..pictures {
        let picture = next_picture(&glass, rng);
        glass.codes = picture.0;
        glass.cursor = picture.1 as usize;
        reel.push(picture);
    }
    reel
}

// ------------------------------------------------------------------------------------ where they start

fn with_users(codes: &[u8]) -> Condition {
    let mut c = Condition::power_up(0);
    for (i, &code) in codes.iter().enumerate() {
        c.users[i] = User {
            code,
            dots: [i as u8, 255, 128, 1, 15],
        };
    }
    c.count = codes.len();
    c
}

/// Power-up with something changed.
fn changed<F: FnOnce(&mut Condition)>(font: u8, change: F) -> Condition {
    let mut c = Condition::power_up(font);
    change(&mut c);
    c
}

/// Well-formed conditions of every kind; from some of them no picture can be planned.
fn starts(rng: &mut Rng) -> Vec<Condition> {
    let mut all = vec![
        Condition::power_up(0),
        Condition::power_up(1),
        changed(0, |c| c.font = 1),
        changed(1, |c| c.font = 0),
        changed(0, |c| c.euro = true),
        changed(0, |c| c.flickerless = true),
        changed(0, |c| c.cursor = 39),
        changed(0, |c| c.codes = [0x41; CELLS]),
        changed(1, |c| c.fonts = [0; CELLS]),
        changed(0, |c| c.codes = [0x1F; CELLS]),
        changed(0, |c| c.mode = 2),
        changed(0, |c| c.mode = 3),
        changed(0, |c| {
            c.mode = 3;
            c.cursor = 19;
            c.scroll_on = true;
        }),
    ];
    // each half-received command, in modes 1 and 2
    let mut halves = vec![Half::Esc, Half::Position, Half::Luminance, Half::Speed, Half::UserCode];
    for count in 0..=4 {
        let mut held = [0; 4];
        held[..count].fill(0x0E);
        let code = 0x1B;
        halves.push(Half::UserData { code, count, held });
    }
    for half in halves {
        for mode in [1, 2] {
            all.push(changed(0, |c| {
                c.half = half;
                c.mode = mode;
            }));
        }
    }
    // a user character on each code around the planner's, and on a blank; as many as there can be
    for code in (0x07..=0x1C).chain([0x20]) {
        all.push(with_users(&[code]));
    }
    let sixteen: Vec<u8> = (0..8).chain([0x0B, 0x0E, 0x0F, 0x10, 0x1F, 0x20, 0xAD, 0xFF]).collect();
    all.push(with_users(&sixteen));
    for _ in 0..10 {
        all.push(any_condition(rng));
        all.push(start(rng, &PLANNERS_CODES));
    }
    all
}

/// Each rule of a well-formed condition broken alone.
fn not_well_formed() -> Vec<Condition> {
    let half = |count: usize| Half::UserData {
        code: 0,
        count,
        held: [0, 0, 7, 0],
    };
    let all = vec![
        changed(0, |c| c.cursor = 40),
        changed(0, |c| c.cursor = 255),
        changed(0, |c| c.mode = 0),
        changed(0, |c| c.mode = 4),
        changed(0, |c| c.font = 2),
        changed(0, |c| c.default_font = 2),
        changed(0, |c| c.fonts[39] = 2),
        changed(0, |c| c.luminance = 4),
        changed(0, |c| c.count = 17),
        changed(0, |c| c.scroll_on = true),
        changed(0, |c| c.users[15].code = 0x41),
        changed(0, |c| c.users[0].dots[4] = 1),
        changed(0, |c| c.half = half(2)),
        changed(0, |c| c.half = half(5)),
        with_users(&[0x41, 0x42, 0x41]),
        Condition {
            half: Half::Esc,
            ..with_users(&[0x1B])
        },
    ];
    assert!(all.iter().all(|c| !c.well_formed()));
    all
}

/// From each start reels of 0, 1, 2, 3, 63, 64 and 65 pictures, with just enough room, one byte less and more, much
/// more, and none.
fn each_start(r: &mut Reels) {
    let good = starts(&mut r.rng);
    let bad = not_well_formed();
    for c in good.iter().chain(&bad) {
        // where the start is not well formed the pictures are those for power-up
        let working = Some(c).filter(|c| c.well_formed());
        let glass = working.cloned().unwrap_or_else(|| Condition::power_up(0));
        for pictures in [0, 1, 2, 3, 63, 64, 65] {
            let reel = some_reel(&glass, pictures, &mut r.rng);
            for spare in [0, -1, 1, 500, -100_000] {
                r.compare(&Call::new(c, &reel).spare(spare));
            }
        }
        // an asked cursor above 39 is named before what stops the plans, on the first picture
        let mut reel = some_reel(&glass, 3, &mut r.rng);
        reel[0].1 = r.rng.pick(&[40, 255]);
        r.compare(&Call::new(c, &reel));
    }
}

/// Every number of pictures, from power-up and from another start, with just enough room, a byte less and more; then
/// with one picture of them refused.
fn each_size(r: &mut Reels) {
    for pictures in 0..=REEL + 1 {
        for c in [Condition::power_up(0), start(&mut r.rng, &PLANNERS_CODES)] {
            let mut reel = some_reel(&c, pictures, &mut r.rng);
            for spare in [0, -1, 1] {
                r.compare(&Call::new(&c, &reel).spare(spare));
            }
            if pictures > 0 {
                reel[r.rng.below(pictures)].1 = 40;
                r.compare(&Call::new(&c, &reel));
            }
        }
    }
}

/// 64 plans of 44 bytes: the output is filled to its last byte.
fn longest(r: &mut Reels) {
    let c = changed(0, |c| c.cursor = 5);
    for pictures in [1, 2, 63, 64] {
        let reel: Vec<Picture> = (0..pictures).map(|i| ([0x41 + i as u8 % 2; CELLS], 39)).collect();
        for spare in [0, -1, 1, 2_000] {
            let answer = r.compare(&Call::new(&c, &reel).spare(spare));
            let right = if spare < 0 {
                reel_refused(REEL, 10)
            } else {
                44 * pictures as u32
            };
            r.report.expect(answer == right, || {
                format!("{} longest plans: answer {}", pictures, answer)
            });
        }
    }
}

/// Each length of each buffer, wrong and right.
fn wrong_lengths(r: &mut Reels) {
    let c = start(&mut r.rng, &PLANNERS_CODES);
    for pictures in [0, 1, 2, 64] {
        let reel = some_reel(&c, pictures + 1, &mut r.rng);
        let (less, more) = (Call::new(&c, &reel[..pictures]), Call::new(&c, &reel));
        for block in [512, 0, 1, 511, 513, 1_024] {
            for codes in [0, -40, -1, 1, 39, 40] {
                for cursors in [0, -1, 1] {
                    for lengths in [64, 0, 1, 63, 65, 128] {
                        let mut call = less.clone();
                        call.block.resize(block, 0);
                        let count = (less.codes.len() as isize + codes).max(0) as usize;
                        call.codes = more.codes[..count.min(more.codes.len())].to_vec();
                        let count = (less.cursors.len() as isize + cursors).max(0) as usize;
                        call.cursors = more.cursors[..count].to_vec();
                        call.lengths = lengths;
                        call.room = r.rng.pick(&[less.room, more.room, more.room - 1, 0]);
                        r.compare(&call);
                    }
                }
            }
        }
    }
}

/// Bytes of the block with some values, under a right check and under a wrong one.
fn damaged_blocks(r: &mut Reels) {
    let mut c = start(&mut r.rng, &PLANNERS_CODES);
    while c.count < 5 {
        c = start(&mut r.rng, &PLANNERS_CODES);
    }
    for i in 0..BLOCK {
        for v in [0, 1, 2, 0x1B, 0x80, 0xFF] {
            for right in [true, false] {
                let pictures = r.rng.below(4);
                let reel = some_reel(&c, pictures, &mut r.rng);
                let spare = if r.rng.once_in(5) { -1 } else { 0 };
                let mut call = Call::new(&c, &reel).spare(spare);
                call.block[i] = v;
                if right {
                    seal(&mut call.block);
                }
                r.compare(&call);
            }
        }
    }
}

/// Each asked cursor that a byte can be, and each code below 20h with a user character and without, at each place.
fn each_number(r: &mut Reels) {
    for (pictures, at) in [(1, 0), (3, 0), (3, 1), (3, 2)] {
        for asked in 0..=255 {
            let c = start(&mut r.rng, &PLANNERS_CODES);
            let mut reel = some_reel(&c, pictures, &mut r.rng);
            reel[at].1 = asked;
            r.compare(&Call::new(&c, &reel));
        }
        for code in 0..0x20 {
            for users in [&[][..], &[0x41, code], &[code ^ 1]] {
                let c = with_users(users);
                let mut reel = some_reel(&c, pictures, &mut r.rng);
                reel[at].0[r.rng.below(CELLS)] = code;
                r.compare(&Call::new(&c, &reel));
            }
        }
    }
}

/// Each picture of 64 refused, alone and with later ones that are refused too: the first of them is named.
fn each_picture(r: &mut Reels) {
    let c = Condition::power_up(0);
    for at in 0..REEL {
        for way in 0..4 {
            let mut reel = some_reel(&c, REEL, &mut r.rng);
            let later = at + r.rng.below(REEL - at);
            if way % 2 == 0 {
                reel[at].1 = 40 + r.rng.below(216) as u8;
            } else {
                reel[at].0[r.rng.below(CELLS)] = r.rng.below(0x20) as u8;
            }
            if way == 2 {
                reel[later].0[0] = 0;
            } else if way == 3 && later > at {
                reel[later].1 = 40;
            }
            let answer = r.compare(&Call::new(&c, &reel));
            let right = reel_refused(at, [3, 9][way % 2]);
            r.report
                .expect(answer == right, || format!("picture {} of 64: answer {}", at, answer));
        }
    }
}

/// Where something is wrong: with the whole call, or with the first picture, one between or the last.
const WHOLE: usize = 0;
const FIRST: usize = 1;
const MIDDLE: usize = 2;
const LAST: usize = 3;

/// What can be wrong with a call, in the order in which it is refused.
const WRONG: [(usize, u32); 18] = [
    // 0 to 2: the length of the block, of the codes, of the lengths
    (WHOLE, 1),
    (WHOLE, 1),
    (WHOLE, 1),
    // 3 and 4: the block's header, its check
    (WHOLE, 2),
    (WHOLE, 2),
    // 5 to 7: a start not well formed, an unused byte of the block that is not 0, more than 64 pictures
    (WHOLE, 3),
    (WHOLE, 3),
    (WHOLE, 3),
    // 8: the room
    (WHOLE, 10),
    // 9 to 13: the first picture, which meets the start
    (FIRST, 3),
    (FIRST, 6),
    (FIRST, 7),
    (FIRST, 8),
    (FIRST, 9),
    // 14 to 17: the asked cursor and a wanted code of later ones
    (MIDDLE, 3),
    (MIDDLE, 9),
    (LAST, 3),
    (LAST, 9),
];

/// A call with all that is wrong which the set names, and its answer: that of the first of them.
fn wrong_call(set: u32, rng: &mut Rng) -> (Call, u32) {
    let wrong = |i: usize| set >> i & 1 == 1;
    let pictures = if wrong(7) {
        65
    } else {
        rng.pick(&[3, 3, 3, 4, 5, 7, 64])
    };
    let (middle, last) = (1 + rng.below(pictures - 2), pictures - 1);
    let mut c = Condition::power_up(rng.below(2) as u8);
    let mut reel = some_reel(&c, pictures, rng);
    for (i, at) in [(9, 0), (14, middle), (16, last)] {
        if wrong(i) {
            reel[at].1 = rng.pick(&[40, 41, 127, 128, 255]);
        }
    }
    for (i, at) in [(13, 0), (15, middle), (17, last)] {
        if wrong(i) {
            reel[at].0[rng.below(CELLS)] = rng.pick(&[0x00, 0x07, 0x0E, 0x18, 0x1C, 0x1F]);
        }
    }
    if wrong(10) {
        c.half = any_started(rng);
    }
    if wrong(11) {
        c.mode = rng.pick(&[2, 3]);
    }
    if wrong(12) {
        // 1Bh as a user code and a half-received command exclude each other
        let code = PLANNERS_CODES[rng.below(if wrong(10) { 5 } else { 6 })];
        c.users[0] = User { code, dots: [1; 5] };
        c.count = 1;
    }
    let mut call = Call::new(&c, &reel);
    if wrong(5) {
        let (i, v) = rng.pick(&[
            (3, 40),
            (4, 0),
            (4, 9),
            (5, 1),
            (7, 2),
            (10, 4),
            (13, 7),
            (20, 17),
            (64, 2),
        ]);
        call.block[i] = v;
    }
    if wrong(6) {
        call.block[rng.pick(&[21, 23, 200, 300, 509])] = 1;
    }
    if wrong(3) {
        call.block[rng.below(3)] ^= 0x40;
    }
    seal(&mut call.block);
    if wrong(4) {
        call.block[510 + rng.below(2)] ^= 1 << rng.below(8);
    }
    if wrong(0) {
        call.block.resize(rng.pick(&[0, 511, 513]), 0);
    }
    if wrong(8) {
        let short = rng.pick(&[1, 44, call.room]);
        call.room -= short;
    }
    if wrong(1) {
        let n = call.codes.len();
        call.codes.resize(rng.pick(&[0, n - 40, n - 1, n + 1, n + 40]), 0x41);
    }
    if wrong(2) {
        call.lengths = rng.pick(&[0, 1, 63, 65, 128]);
    }
    let first = WRONG.iter().enumerate().find(|&(i, _)| wrong(i));
    let (_, &(place, refusal)) = first.expect("something is wrong");
    (call, reel_refused([REEL, 0, middle, last][place], refusal))
}

/// Every one, every two and every three things that are wrong at once, and many more sets: the first in order is given.
fn order_of_refusals(r: &mut Reels) {
    let mut sets = Vec::new();
    for i in 0..WRONG.len() {
        for j in i..WRONG.len() {
            for k in j..WRONG.len() {
                sets.push(1u32 << i | 1 << j | 1 << k);
            }
        }
    }
    for _ in 0..1_500 {
        sets.push(1 + r.rng.below((1 << WRONG.len()) - 1) as u32);
    }
    for _ in 0..1_500 {
        // nothing wrong with the whole call
        let mut any = |from: usize, n: usize| 1 << (from + r.rng.below(n));
        sets.push(any(9, 9) | any(9, 9) | any(14, 4));
    }
    for set in sets {
        let (call, right) = wrong_call(set, &mut r.rng);
        let answer = r.compare(&call);
        r.report.expect(answer == right, || {
            format!("wrong at once {:018b}: answer {} and not {}", set, answer, right)
        });
    }
}

/// More than 64 pictures, also so many that a byte would take them for fewer.
fn too_many(r: &mut Reels) {
    for pictures in [65, 66, 127, 128, 255, 256, 257, 300, 320, 512, 65_536 + 1] {
        let c = Condition::power_up(0);
        let mut call = Call::new(&c, &[([0x41; CELLS], 0)]);
        call.codes.resize(CELLS * pictures, 0x41);
        call.cursors.resize(pictures, 0);
        for room in [PLAN_ROOM * pictures, 0] {
            call.room = room;
            let answer = r.compare(&call);
            r.report.expect(answer == reel_refused(REEL, 3), || {
                format!("{} pictures: answer {}", pictures, answer)
            });
        }
    }
}

/// Any start, any pictures, with now and then something wrong.
fn random_reels(r: &mut Reels, cases: usize) {
    for i in 0..cases {
        let rng = &mut r.rng;
        let c = match rng.below(12) {
            0 => any_condition(rng),
            1 => reached_condition(rng),
            2 => Condition::power_up(rng.below(2) as u8),
            _ => {
                let mut c = start(rng, &PLANNERS_CODES);
                if rng.once_in(4) {
                    user_on_clear(&mut c);
                }
                if rng.once_in(3) {
                    full(&mut c, rng);
                }
                c
            }
        };
        let pictures = if i % 50 == 0 {
            rng.pick(&[62, 63, 64, 64, 65])
        } else {
            rng.below(8)
        };
        let mut reel = some_reel(&c, pictures, rng);
        if pictures > 0 && rng.once_in(8) {
            let at = rng.below(pictures);
            reel[at].0[rng.below(CELLS)] = rng.byte();
        }
        if pictures > 0 && rng.once_in(12) {
            let at = rng.below(pictures);
            reel[at].1 = rng.byte();
        }
        let mut call = Call::new(&c, &reel).spare(rng.pick(&[0, 0, 1, 7, 300]));
        if rng.once_in(12) {
            damage(&mut call.block, rng);
        }
        if rng.once_in(20) {
            call.room = rng.below(call.room + 1);
        }
        if rng.once_in(60) {
            call.codes.resize(rng.below(400), 0x41);
        }
        if rng.once_in(60) {
            call.cursors.resize(rng.below(10), 0);
        }
        if rng.once_in(60) {
            call.lengths = rng.below(130);
        }
        if rng.once_in(60) {
            call.block.resize(rng.below(1_100), 0);
        }
        r.compare(&call);
    }
}

/// No pictures: nothing is lent but the block and the lengths.
fn nothing(r: &mut Reels) {
    for (c, answer) in [(Condition::power_up(0), 0), (changed(0, |c| c.mode = 2), 0)] {
        let mut lengths = [7; REEL];
        let got = sign::reel(&c.to_block(), &[], &[], &mut lengths, &mut []);
        r.report.expect(got == answer && lengths == [0; REEL], || {
            format!("no pictures: answer {}", got)
        });
    }
    let got = sign::reel(&[], &[], &[], &mut [], &mut []);
    r.report.expect(got == reel_refused(REEL, 1), || {
        format!("nothing at all: answer {}", got)
    });
    r.report.cases += 3;
}

/// Four threads at once, each on its own buffers: there is no state outside them.
fn threads(r: &mut Reels) {
    let workers: Vec<_> = (0..4)
        .map(|seed| {
            std::thread::spawn(move || {
                let mut r = Reels::new(100 + seed);
                random_reels(&mut r, 500);
                r.report
            })
        })
        .collect();
    for w in workers {
        let one = w.join().expect("a thread ends");
        r.report.cases += one.cases;
        r.report.differences += one.differences;
    }
}

/// Lengths of four gigabytes and some: not cut to 32 bits.
fn giant_lengths(r: &mut Reels) {
    for some in [0, 1, 40, 43, 64, 512] {
        if !sign::with_giant(some, |giant| giant_length(r, giant)) {
            return;
        }
    }
}

fn giant_length(r: &mut Reels, giant: &mut [u8]) {
    let n = giant.len();
    let block = Condition::power_up(0).to_block();
    let (codes, cursors) = ([0x41; CELLS], [39]);
    let refusal = reel_refused(REEL, 1);
    let mut out = [0xEE; PLAN_ROOM];
    let mut expect = |what: &str, answer: u32, right: u32, left: bool| {
        r.report.cases += 1;
        r.report.expect(answer == right && left, || {
            format!("{} of {} bytes: answer {}", what, n, answer)
        });
    };

    giant[..BLOCK].copy_from_slice(&block);
    let mut lengths = [7; REEL];
    let a = sign::reel(giant, &codes, &cursors, &mut lengths, &mut out);
    expect("block", a, refusal, lengths == [0; REEL] && giant[..BLOCK] == block);
    giant[..BLOCK].fill(0);
    lengths = [7; REEL];
    let a = sign::reel(&block, giant, &cursors, &mut lengths, &mut out);
    expect("codes", a, refusal, lengths == [0; REEL]);
    // cut to 32 bits these would be right for no picture and for one
    for codes in [&[][..], &codes] {
        lengths = [7; REEL];
        let a = sign::reel(&block, codes, giant, &mut lengths, &mut out);
        expect("cursors", a, refusal, lengths == [0; REEL]);
    }
    giant[..1_000].fill(7);
    let a = sign::reel(&block, &codes, &cursors, giant, &mut out);
    expect(
        "lengths",
        a,
        refusal,
        giant[..1_000] == [7; 1_000] && out == [0xEE; PLAN_ROOM],
    );
    giant[..1_000].fill(0);
    let a = sign::reel(&block, &codes, &cursors, &mut lengths, giant);
    let written = giant[..40] == codes && giant[40..43] == [0x1B, 0x48, 39] && giant[43..1_000] == [0; 957];
    let right = lengths[0] == 43 && lengths[1..] == [0; REEL - 1];
    expect("output", a, 43, written && right);
}

/// Each kind of answer must have been met where it can be.
fn all_met(r: &mut Reels) {
    let met = &r.met;
    let of = |n: usize| met.accepted[n];
    println!(
        "reels: accepted of 0, 1, 2, 3, 4 to 62, 63, 64 pictures: {:?}",
        [
            of(0),
            of(1),
            of(2),
            of(3),
            met.accepted[4..63].iter().sum(),
            of(63),
            of(64)
        ]
    );
    println!(
        "reels: {} plans, {} of no bytes, {} from a clear, {} with a user character below 20h, {} of 44 bytes",
        met.plans[0], met.plans[1], met.plans[2], met.plans[3], met.plans[4]
    );
    println!("reels: the longest has {} bytes", met.longest);
    println!(
        "reels: whole calls refused 1, 2, 3, 10: {:?}",
        [1, 2, 3, 10].map(|n| met.whole[n])
    );
    for (name, counts) in PLACES.iter().zip(met.pictures) {
        println!(
            "reels: the {} picture refused 3, 6, 7, 8, 9: {:?}",
            name,
            [3, 6, 7, 8, 9].map(|n: usize| counts[n])
        );
    }
    for n in 0..=REEL {
        r.report.expect(of(n) > 3, || {
            format!("only {} reels of {} pictures were accepted", of(n), n)
        });
    }
    for n in [0, 1, 2, 3, 63, 64] {
        r.report.expect(of(n) > 100, || {
            format!("only {} reels of {} pictures were accepted", of(n), n)
        });
    }
    for (i, &n) in met.plans.iter().enumerate() {
        r.report
            .expect(n > 100, || format!("only {} plans of kind {} were met", n, i));
    }
    r.report.expect(met.longest == 2_816, || {
        "the longest reel should be 2,816 bytes".to_string()
    });
    for n in [1, 2, 3, 10] {
        r.report.expect(met.whole[n] > 100, || {
            format!("only {} calls were refused {}", met.whole[n], n)
        });
    }
    for (name, counts) in PLACES.iter().zip(met.pictures) {
        for n in [3, 6, 7, 8, 9] {
            // what stops the plans stops the first
            let can = [3, 9].contains(&n) || ["only", "first"].contains(name);
            let right = if can { counts[n] > 30 } else { counts[n] == 0 };
            r.report.expect(right, || {
                format!("the {} picture was refused {} {} times", name, n, counts[n])
            });
        }
    }
}

fn main() {
    let mut r = Reels::new(12);
    nothing(&mut r);
    each_start(&mut r);
    each_size(&mut r);
    longest(&mut r);
    wrong_lengths(&mut r);
    damaged_blocks(&mut r);
    each_number(&mut r);
    each_picture(&mut r);
    too_many(&mut r);
    order_of_refusals(&mut r);
    random_reels(&mut r, 20_000);
    threads(&mut r);
    giant_lengths(&mut r);
    all_met(&mut r);
    r.report.end("reels", 40_455);
}
