//! Calls sign_vet with strings of every kind, right and wrong, and compares each answer with the independent program,
//! which takes the string apart and then runs it. What was made so that it must be right must be answered yes.
//! Wherever the answer is yes the string is run by sign_run, and must give the picture, and sign_plan must be shorter
//! by just the excess. Nothing that is lent may change. Linked with libsign.a.

mod inputs;
mod module;
mod report;
mod rng;
mod sign;
mod strings;
mod wants;

use inputs::{any_condition, any_started, damage, define, place, reached_condition, some_bytes};
use module::*;
use report::{hex, Report};
use rng::Rng;
use sign::Lent;
use strings::*;
use wants::{kept, nearly, some_codes, start, user_on_clear, wanted_code};

/// What was answered, as the independent program has it, to show that each kind was met.
#[derive(Default)]
struct Met {
    refused: [u64; 10],
    shortest: u64,
    longer: u64,
    /// No by a byte: a jump that is none, a write out of order, a clear that is not first, any other byte.
    bytes: [u64; 4],
    cells: u64,
    cursors: u64,
    /// Yes, where the string clears; where 0Eh is a user character and comes first; where it comes later.
    clears: u64,
    user_first: u64,
    user_later: u64,
    /// Yes to the longest strings; the most that was said.
    longest: u64,
    excess: usize,
}

impl Met {
    fn count(&mut self, block: &[u8], bytes: &[u8], vetted: Vetted) {
        let c = || Condition::from_block(block).expect("it was not refused");
        match vetted {
            Vetted::Refused(n) => self.refused[n as usize] += 1,
            Vetted::NoByte(at) => {
                let kind = match bytes[at] {
                    0x1B => 0,
                    b if c().writes(b) => 1,
                    CLEAR => 2,
                    _ => 3,
                };
                self.bytes[kind] += 1;
            }
            Vetted::NoCell(_) => self.cells += 1,
            Vetted::NoCursor => self.cursors += 1,
            Vetted::Yes(excess) => {
                self.shortest += (excess == 0) as u64;
                self.longer += (excess > 0) as u64;
                self.longest += (bytes.len() == LONGEST_RUN) as u64;
                self.excess = self.excess.max(excess);
                if bytes.contains(&CLEAR) {
                    let user = c().is_user(CLEAR);
                    self.clears += (!user && bytes[0] == CLEAR) as u64;
                    self.user_first += (user && bytes[0] == CLEAR) as u64;
                    // (a jump to 14 has the same byte)
                    self.user_later += (user && bytes[1..].contains(&CLEAR) && !bytes.contains(&0x1B)) as u64;
                }
            }
        }
    }
}

struct Vetting {
    report: Report,
    rng: Rng,
    moves: Moves,
    met: Met,
}

impl Vetting {
    fn new(seed: u64) -> Vetting {
        Vetting {
            report: Report::new(),
            rng: Rng::new(seed),
            moves: Moves::new(),
            met: Met::default(),
        }
    }

    /// One call, compared in all it leaves; answers what the independent program says.
    fn call(&mut self, want: &Want, bytes: &[u8]) -> Vetted {
        let vetted = vet_block(&want.block, &want.codes, want.asked, bytes, &self.moves);
        let expected = vetted_answer(vetted);
        let lent = [&want.block[..], &want.codes, bytes].map(|content| Lent::new(content, &mut self.rng));
        let got = sign::vet(lent[0].bytes(), lent[1].bytes(), want.asked, lent[2].bytes());
        self.report.cases += 1;
        self.met.count(&want.block, bytes, vetted);
        let call = || in_words(want, bytes);
        self.report.expect(got == expected, || {
            format!("{}: answer {} and should be {} ({:?})", call(), got, expected, vetted)
        });
        self.report
            .expect(lent.iter().all(Lent::untouched), || format!("{}: wrote somewhere", call()));
        if (1..65_536).contains(&got) {
            self.serves(want, bytes, got as usize - 1);
        }
        vetted
    }

    /// A string to which the product says yes gives the picture in the selected font, and the asked cursor, and changes
    /// nothing else; the product's plan has the excess less bytes.
    fn serves(&mut self, want: &Want, bytes: &[u8], excess: usize) {
        let mut after = want.block.clone();
        let ran = sign::run(&mut after, &mut [0; TALLY], bytes);
        let should = Condition::from_block(&want.block).ok().and_then(|mut c| {
            c.codes = want.codes[..].try_into().ok()?;
            c.fonts = [c.font; CELLS];
            c.cursor = want.asked as usize;
            Some(c.to_block())
        });
        self.report.expect(ran == 0 && should.map_or(false, |right| after == right), || {
            format!("{}: yes, but it gives something else", in_words(want, bytes))
        });
        let planned = sign::plan(&want.block, &want.codes, want.asked, &mut [0; PLAN_ROOM]) as usize;
        self.report.expect(planned + excess == bytes.len(), || {
            format!("{}: excess {}, but the plan answers {}", in_words(want, bytes), excess, planned)
        });
    }

    /// A string that was made so that this must be said of it.
    fn must(&mut self, want: &Want, bytes: &[u8], right: Vetted) {
        let vetted = self.call(want, bytes);
        self.report.expect(vetted == right, || {
            format!("{}: made to be {:?}, and is {:?}", in_words(want, bytes), right, vetted)
        });
    }

    fn long_way(&mut self, c: &Condition, want: &Want) -> Vec<u8> {
        long_way(c, want, &mut self.rng, &self.moves)
    }
}

fn in_words(want: &Want, bytes: &[u8]) -> String {
    let part = |from: usize, to: usize| hex(&want.block[want.block.len().min(from)..want.block.len().min(to)]);
    format!(
        "sign_vet {}, picture {} cursor {}, block of {} with head {} codes {} fonts {} users {}",
        hex(bytes),
        hex(&want.codes),
        want.asked,
        want.block.len(),
        part(0, 24),
        part(24, 64),
        part(64, 104),
        part(104, 200)
    )
}

/// Our plans have no excess; the same with moves between their steps that lead back, and right strings by long ways.
fn plans(v: &mut Vetting) {
    for _ in 0..4_000 {
        let (c, want) = some_picture(&mut v.rng);
        let bytes = want.plan(&c, &v.moves);
        v.must(&want, &bytes, Vetted::Yes(0));
        let clears = starts_clear(&c, &bytes);
        let mut at = 0;
        while at < bytes.len() {
            at += if bytes[at] == 0x1B { 3 } else { 1 };
            let mut more = some_move(&mut v.rng);
            more.extend(jump(c.after(&bytes[..at]).cursor));
            let longer = [&bytes[..at], &more, &bytes[at..]].concat();
            v.must(&want, &longer, Vetted::Yes(more.len()));
            // ahead of a clear nothing may stand
            let ahead = [&more[..more.len() - 1], &[c.cursor as u8], &bytes].concat();
            let right = if clears { Vetted::NoByte(more.len()) } else { Vetted::Yes(more.len()) };
            if at < 4 {
                v.must(&want, &ahead, right);
            }
        }
        for _ in 0..3 {
            let longer = v.long_way(&c, &want);
            v.must(&want, &longer, Vetted::Yes(longer.len() - bytes.len()));
        }
    }
}

/// Plans and long ways, cut and changed at every place; short ones with every value at every place.
fn changed(v: &mut Vetting) {
    for i in 0..700 {
        let (c, want) = some_picture(&mut v.rng);
        let bytes = if i % 3 == 0 { v.long_way(&c, &want) } else { want.plan(&c, &v.moves) };
        for at in 0..=bytes.len() {
            for other in changed_at(&want, &bytes, at, &mut v.rng) {
                v.call(&want, &other);
            }
        }
    }
    let mut short = 0;
    while short < 40 {
        let (c, want) = some_picture(&mut v.rng);
        let bytes = want.plan(&c, &v.moves);
        if (2..=6).contains(&bytes.len()) {
            short += 1;
            for (at, value) in (0..256 * bytes.len()).map(|i| (i / 256, i % 256)) {
                let mut other = bytes.clone();
                other[at] = value as u8;
                v.call(&want, &other);
            }
        }
    }
}

/// Every string of no byte, one and two, from power-up, from a full glass, and with user characters on 0Eh and 00h.
fn all_short(v: &mut Vetting) {
    let power_up = Condition::power_up(0);
    let users = power_up.after(&[define(CLEAR, [1; 5]), define(0x00, [2; 5])].concat());
    let cases = [
        Want::left_by(&power_up, &[0x41, 0x09]),
        Want::left_by(&Condition::power_up(1).after(&[0x42; CELLS]), &[CLEAR, 0x41]),
        Want::left_by(&users, &[CLEAR, 0x00]),
    ];
    for want in &cases {
        v.call(want, &[]);
        for a in 0..=255 {
            v.call(want, &[a]);
            for b in 0..=255 {
                v.call(want, &[a, b]);
            }
        }
    }
}

/// Steps at random, with writes in rising order or in any, of the wanted codes or of others; the picture is what they
/// leave, sometimes with another cursor or another cell, or with cells in the font that is not selected.
fn random_steps(v: &mut Vetting) {
    for i in 0..30_000 {
        let mut c = start(&mut v.rng, &PLANNERS_CODES);
        c.codes = kept(&c);
        if i % 5 != 0 {
            c.fonts = [c.font; CELLS];
        }
        let (mut now, mut bytes, mut free) = (c.clone(), vec![], 0);
        if i % 3 == 0 {
            bytes.push(CLEAR);
            now = now.after(&bytes);
        }
        for _ in 0..v.rng.below(30) {
            let rising = i % 4 != 0 && now.cursor < free;
            let mut step = vec![wanted_code(&c, &mut v.rng)];
            if rising || v.rng.once_in(3) {
                step = some_move(&mut v.rng);
            } else {
                free = now.cursor + 1;
            }
            now = now.after(&step);
            bytes.extend(step);
        }
        let mut want = Want::left_by(&c, &bytes);
        if i % 11 == 0 {
            want.asked = place(&mut v.rng) as u32;
        }
        if i % 13 == 0 {
            want.codes[v.rng.below(CELLS)] = wanted_code(&c, &mut v.rng);
        }
        v.call(&want, &bytes);
    }
}

/// Jumps to every number, alone, with a write before, behind and between; every byte after ESC; and strings with many
/// jumps, cut at every place.
fn jumps(v: &mut Vetting) {
    let c = Condition::power_up(0).after(&define(0x48, [1; 5]));
    for n in 0..=255 {
        let strings: [&[u8]; 7] = [
            &[0x1B, 0x48, n],
            &[0x41, 0x1B, 0x48, n],
            &[0x1B, 0x48, n, 0x41],
            &[0x41, 0x1B, 0x48, n, 0x42],
            &[0x1B, 0x48, n, 0x1B, 0x48, n],
            &[0x1B, n, 0x05],
            &[0x1B, n, 0x48, 0x05],
        ];
        for bytes in strings {
            for c in [&c, &Condition::power_up(1)] {
                v.call(&Want::left_by(c, bytes), bytes);
                v.call(&Want::new(c, &c.codes, n as usize), bytes);
            }
        }
    }
    for _ in 0..200 {
        let cells: Vec<usize> = (0..CELLS).filter(|_| v.rng.once_in(4)).collect();
        let bytes: Vec<u8> = cells.iter().flat_map(|&cell| [0x1B, 0x48, cell as u8, 0x41]).collect();
        let want = Want::left_by(&c, &bytes);
        for cut in 0..=bytes.len() {
            v.call(&want, &bytes[..cut]);
            v.call(&Want::left_by(&c, &bytes[..cut]), &bytes[..cut]);
        }
    }
}

/// 0Eh first, not first and twice, with a user character on it, wanted and not, and without; 0Fh; the bytes of two
/// fonts; bytes that the module ignores. Each in front, in the middle and at the end of a right string.
fn clears(v: &mut Vetting) {
    for i in 0..600 {
        let (mut c, mut want) = some_picture(&mut v.rng);
        if i % 2 == 0 {
            user_on_clear(&mut c);
            want = Want::new(&c, &kept(&c), c.cursor);
            want.codes[place(&mut v.rng)] = CLEAR;
        }
        let bytes = want.plan(&c, &v.moves);
        for odd in [CLEAR, 0x0F, 0x18, 0x19, 0x1A, 0x00, 0x0B, 0x11, 0x15] {
            for at in [0, bytes.len() / 2, bytes.len()] {
                v.call(&want, &[&bytes[..at], &[odd], &bytes[at..]].concat());
                v.call(&want, &[&bytes[..at], &[odd, odd], &bytes[at..]].concat());
                let around = [&[odd], &bytes[..at], &[odd], &bytes[at..]].concat();
                v.call(&want, &around);
                if want.codes.iter().all(|&code| c.writes(code)) {
                    v.call(&Want::left_by(&c, &around), &around);
                }
            }
        }
    }
    // 0Eh as a user character, first and later, in reading order and not
    let c = Condition::power_up(1).after(&define(CLEAR, [1; 5]));
    for (bytes, right) in [
        (&[CLEAR][..], Vetted::Yes(0)),
        (&[CLEAR, CLEAR, CLEAR], Vetted::Yes(0)),
        (&[0x09, CLEAR], Vetted::Yes(0)),
        (&[0x41, CLEAR, 0x08, 0x09], Vetted::Yes(2)),
        (&[0x0A, CLEAR, 0x0C, CLEAR], Vetted::NoByte(3)),
        (&[CLEAR, 0x08, CLEAR], Vetted::NoByte(2)),
    ] {
        for _ in 0..100 {
            v.must(&Want::left_by(&c, bytes), bytes, right);
        }
    }
}

/// Every byte as the first, one in the middle and the last of a right string, for pictures of every kind; and the
/// picture is what is then left, where that can be wanted.
fn every_byte(v: &mut Vetting) {
    for _ in 0..25 {
        let (c, want) = some_picture(&mut v.rng);
        let bytes = v.long_way(&c, &want);
        for b in 0..=255 {
            for at in [0, v.rng.below(bytes.len() + 1), bytes.len()] {
                let other = [&bytes[..at], &[b], &bytes[at..]].concat();
                v.call(&want, &other);
                v.call(&Want::left_by(&c, &other), &other);
            }
        }
    }
}

/// What drivers send: home or a jump, then all forty; line by line; with a clear ahead; Initialise, or 0Fh, ahead.
fn drivers(v: &mut Vetting) {
    let heads: [&[u8]; 9] = [
        &[0x0C],
        &[0x1B, 0x48, 0x00],
        &[0x0E, 0x0C],
        &[0x0E, 0x1B, 0x48, 0x00],
        &[0x0C, 0x0E],
        &[0x0F, 0x0C],
        &[0x1B, 0x49],
        &[0x11, 0x14, 0x0C],
        &[],
    ];
    for i in 0..300 {
        let (c, mut want) = some_picture(&mut v.rng);
        let least = want.plan(&c, &v.moves).len();
        for (kind, head) in heads.into_iter().enumerate() {
            let (top, bottom) = want.codes.split_at(20);
            let strings = [
                [head, top, bottom].concat(),
                [head, top, &jump(20), bottom].concat(),
                [head, top, &[0x0D, 0x0A], bottom].concat(),
                [head, top, bottom, &jump(want.asked as usize)].concat(),
                [head, &jump(20), bottom, &jump(0), top].concat(),
            ];
            for bytes in &strings {
                v.call(&want, bytes);
            }
            if kind < 2 {
                v.must(&want, &strings[3], Vetted::Yes(strings[3].len() - least));
            }
        }
        want.asked = (i % CELLS) as u32;
        let home = [&[0x0C], &want.codes[..]].concat();
        v.call(&want, &home);
    }
}

/// Strings with two fonts: no, wherever a switch is in them.
fn two_fonts(v: &mut Vetting) {
    for i in 0..3_000 {
        let mut c = start(&mut v.rng, &FONTS_CODES);
        c.cursor = place(&mut v.rng);
        let codes = some_codes(&c, &mut v.rng);
        let fonts = match i % 3 {
            0 => [c.font; CELLS],
            1 => nearly([c.font; CELLS], &mut v.rng),
            _ => [0; CELLS].map(|_: u8| v.rng.below(2) as u8),
        };
        let asked = place(&mut v.rng);
        let bytes = plan_fonts(&c, &codes, &fonts, asked as u32, &v.moves).expect("a picture of two fonts");
        let vetted = v.call(&Want::new(&c, &codes, asked), &bytes);
        let one = fonts == [c.font; CELLS];
        v.report.expect(one == (vetted == Vetted::Yes(0)), || {
            format!("a plan of two fonts, {}: {:?}", hex(&bytes), vetted)
        });
    }
}

/// The longest strings, and longer ones: right, wrong in the last byte or the first, and of any bytes.
fn lengths(v: &mut Vetting) {
    // nothing is wrong: the most that can be said
    let want = Want::left_by(&Condition::power_up(0), &[]);
    v.must(&want, &[0x0C; LONGEST_RUN], Vetted::Yes(LONGEST_RUN));
    for i in 0..150 {
        let (c, want) = some_picture(&mut v.rng);
        let least = want.plan(&c, &v.moves).len();
        for length in [LONGEST_RUN - 1, LONGEST_RUN, LONGEST_RUN + 1] {
            let bytes = right_of_length(&c, &want, length, &mut v.rng, &v.moves);
            let refused = length > LONGEST_RUN;
            let right = if refused { Vetted::Refused(4) } else { Vetted::Yes(length - least) };
            v.must(&want, &bytes, right);
            for at in [0, length / 2, length - 1] {
                let mut other = bytes.clone();
                other[at] = v.rng.pick(&[0x00, 0x09, 0x1B, 0x20, 0x41, CLEAR]);
                v.call(&want, &other);
            }
        }
        if i % 10 == 0 {
            for length in [LONGEST_RUN, LONGEST_RUN + 1, 40_000, 65_535, 65_536, 65_537, 65_576, 98_304, 1 << 20] {
                let random = v.rng.bytes(length);
                v.call(&want, &random);
                let bytes = right_of_length(&c, &want, length, &mut v.rng, &v.moves);
                v.call(&want, &bytes);
            }
        }
    }
}

/// Each byte of a block with some values, under a right check and under a wrong one, with a string that is right for
/// the block as it was.
fn wrong_blocks(v: &mut Vetting, c: &Condition) {
    let codes = kept(c);
    let want = Want::new(c, &codes, 7);
    let bytes = plan(c, &codes, 7, &v.moves).unwrap_or_default();
    for at in 0..BLOCK {
        for value in [0, 1, 2, 3, 4, 5, 6, 7, 16, 17, 39, 40, 0x0E, 0x1B, 0x20, 0x80, 0xFF] {
            for right in [true, false] {
                let mut other = want.clone();
                other.block[at] = value;
                if right {
                    seal(&mut other.block);
                }
                v.call(&other, &bytes);
            }
        }
    }
}

/// Blocks and codes of every length; asked cursors, also such as no byte has.
fn wrong_numbers(v: &mut Vetting) {
    let (c, want) = some_picture(&mut v.rng);
    let bytes = want.plan(&c, &v.moves);
    for length in (0..700).chain([1_024, 5_000]) {
        let (mut block, mut codes) = (want.clone(), want.clone());
        block.block.resize(length, 0);
        codes.codes.resize(length, 0x41);
        v.call(&block, &bytes);
        v.call(&codes, &bytes);
    }
    for asked in (0..1_000).chain([65_536, 65_575, 1 << 31, u32::MAX - 1, u32::MAX]) {
        let mut other = want.clone();
        other.asked = asked;
        v.call(&other, &bytes);
        other.asked = want.asked + (asked << 8);
        v.call(&other, &bytes);
    }
    for code in 0..=255 {
        let mut other = want.clone();
        other.codes[place(&mut v.rng)] = code;
        v.call(&other, &bytes);
    }
}

/// Every mixture of what is refused, with strings that are right, wrong and too long: the lowest is given.
fn order_of_refusals(v: &mut Vetting) {
    // by bit: the block's length, the codes' number, the check, an unused place, the asked cursor, the string's length,
    // something half received, the mode, a user character on a move, a wanted code that has none
    const NUMBERS: [u32; 10] = [1, 1, 2, 3, 3, 4, 6, 7, 8, 9];
    for way in 0..1 << NUMBERS.len() {
        let wrong = |bit: usize| way >> bit & 1 == 1;
        let mut c = start(&mut v.rng, &PLANNERS_CODES);
        c.codes = kept(&c);
        c.fonts = [c.font; CELLS];
        if wrong(8) {
            c.count = c.count.max(1);
            c.users[0].code = v.rng.pick(&[0x08, 0x09, 0x0A, 0x0C, 0x0D]);
            c.codes = [0x41; CELLS];
        }
        if wrong(7) {
            c.mode = v.rng.pick(&[2, 3]);
        }
        if wrong(6) {
            c.half = any_started(&mut v.rng);
        }
        let mut want = Want::new(&c, &c.codes, c.cursor);
        if wrong(9) {
            let none = (0..0x20).find(|&code| !c.is_user(code)).expect("a code without a user character");
            want.codes[place(&mut v.rng)] = none;
        }
        if wrong(4) {
            want.asked = v.rng.pick(&[40, 255, 256, u32::MAX]);
        }
        if wrong(3) {
            want.block[v.rng.pick(&[21, 23, 200, 509])] = 1;
            seal(&mut want.block);
        }
        if wrong(2) {
            want.block[v.rng.pick(&[0, 1, 2, 510])] ^= 0x40;
        }
        if wrong(1) {
            want.codes.resize(v.rng.pick(&[0, 39, 41]), 0x41);
        }
        if wrong(0) {
            want.block.resize(v.rng.pick(&[0, 511, 513]), 0);
        }
        let due = (0..NUMBERS.len()).find(|&bit| wrong(bit)).map(|bit| Vetted::Refused(NUMBERS[bit]));
        let length = if wrong(5) { LONGEST_RUN + 1 } else { 0 };
        v.must(&want, &vec![0x0C; length], due.unwrap_or(Vetted::Yes(0)));
        let rubbish = v.rng.bytes(length.max(9));
        let vetted = v.call(&want, &rubbish);
        v.report.expect(due.map_or(true, |due| vetted == due), || format!("way {}: {:?}", way, vetted));
    }
}

/// Conditions of every kind, damaged or not, with strings of every kind.
fn random(v: &mut Vetting) {
    for i in 0..30_000 {
        let c = if i % 2 == 0 { any_condition(&mut v.rng) } else { reached_condition(&mut v.rng) };
        let codes = if i % 4 < 2 { kept(&c) } else { c.codes };
        let mut want = Want::new(&c, &codes, place(&mut v.rng));
        if i % 3 == 0 {
            damage(&mut want.block, &mut v.rng);
        }
        let length = v.rng.below(60);
        let bytes = match (i % 5, plan(&c, &codes, want.asked, &v.moves)) {
            (0 | 1, Ok(bytes)) => bytes,
            (2, _) => v.rng.bytes(length),
            _ => some_bytes(&mut v.rng, length),
        };
        v.call(&want, &bytes);
    }
}

/// Lengths of four gigabytes and some: not cut to 32 bits.
fn giants(v: &mut Vetting) {
    let c = Condition::power_up(0);
    let want = Want::left_by(&c, &[0x41]);
    let mut expect = |what: &str, got: u32, right: u32| {
        v.report.cases += 1;
        v.report.expect(got == right, || format!("a giant {}: answer {}", what, got));
    };
    sign::with_giant(BLOCK, |giant| {
        giant[..BLOCK].copy_from_slice(&want.block);
        expect("block", sign::vet(giant, &want.codes, 1, &[0x41]), 65_537);
    });
    sign::with_giant(CELLS, |giant| {
        giant[..CELLS].copy_from_slice(&want.codes);
        expect("picture", sign::vet(&want.block, giant, 1, &[0x41]), 65_537);
    });
    sign::with_giant(1, |giant| {
        giant[0] = 0x41;
        expect("string", sign::vet(&want.block, &want.codes, 1, giant), 65_540);
        giant[0] = 0x00;
        expect("wrong string", sign::vet(&want.block, &want.codes, 1, giant), 65_540);
    });
}

/// Four threads vet strings that they share.
fn threads(v: &mut Vetting) {
    let mut cases = Vec::new();
    for i in 0..400 {
        let (c, want) = some_picture(&mut v.rng);
        let mut bytes = v.long_way(&c, &want);
        if i % 3 == 0 && !bytes.is_empty() {
            let at = v.rng.below(bytes.len());
            bytes[at] = v.rng.byte();
        }
        cases.push((want, bytes));
    }
    let (cases, moves) = (&cases, &v.moves);
    let work = || {
        let alike = |(want, bytes): &(Want, Vec<u8>)| {
            sign::vet(&want.block, &want.codes, want.asked, bytes)
                == host_vet(&want.block, &want.codes, want.asked, bytes, moves)
        };
        cases.iter().all(alike)
    };
    let alike = std::thread::scope(|scope| {
        let workers: Vec<_> = (0..4).map(|_| scope.spawn(work)).collect();
        workers.into_iter().all(|w| w.join().expect("a thread ends"))
    });
    v.report.expect(alike, || "threads are answered otherwise".to_string());
    v.report.cases += 4 * cases.len() as u64;
}

/// Each kind of answer must have been met.
fn all_met(v: &mut Vetting) {
    let met = &v.met;
    println!(
        "vetting: yes with no excess {}, with more {}, at most {}; {} of 32,768 bytes",
        met.shortest, met.longer, met.excess, met.longest
    );
    println!(
        "vetting: yes, with a clear {}, with 0Eh as a user character first {}, later {}",
        met.clears, met.user_first, met.user_later
    );
    println!(
        "vetting: no by a jump, a write, a clear, another byte {:?}, by a cell {}, by the cursor {}",
        met.bytes, met.cells, met.cursors
    );
    let numbers = [1, 2, 3, 4, 6, 7, 8, 9];
    println!("vetting: refused 1, 2, 3, 4, 6, 7, 8, 9: {:?}", numbers.map(|n| met.refused[n]));
    let mut counts = vec![
        ("yes with no excess", met.shortest),
        ("yes with an excess", met.longer),
        ("yes to 32,768 bytes", met.longest),
        ("yes with a clear", met.clears),
        ("yes with 0Eh written first", met.user_first),
        ("yes with 0Eh written later", met.user_later),
        ("no by a jump", met.bytes[0]),
        ("no by a write out of order", met.bytes[1]),
        ("no by a clear that is not first", met.bytes[2]),
        ("no by another byte", met.bytes[3]),
        ("no by a cell", met.cells),
        ("no by the cursor", met.cursors),
    ];
    counts.extend(numbers.map(|n| ("a refusal", met.refused[n])));
    for (what, n) in counts {
        v.report.expect(n > 100, || format!("{} was met only {} times", what, n));
    }
    v.report.expect(met.excess == LONGEST_RUN, || "the most that can be said was not".to_string());
    let others = met.refused[0] + met.refused[5];
    v.report.expect(others == 0, || "the independent program refuses by 0 or 5".to_string());
}

fn main() {
    let mut v = Vetting::new(13);
    plans(&mut v);
    changed(&mut v);
    all_short(&mut v);
    random_steps(&mut v);
    jumps(&mut v);
    clears(&mut v);
    every_byte(&mut v);
    drivers(&mut v);
    two_fonts(&mut v);
    lengths(&mut v);
    wrong_blocks(&mut v, &Condition::power_up(1));
    wrong_blocks(&mut v, &Condition::power_up(0).after(&define(CLEAR, [1; 5])).after(&[0x41; 30]));
    wrong_numbers(&mut v);
    order_of_refusals(&mut v);
    random(&mut v);
    giants(&mut v);
    threads(&mut v);
    all_met(&mut v);
    v.report.end("vetting", 877_000);
}
