//! Inputs for the old lounge module: pairs that a host could write, conditions that the module could be in,
//! and conditions with something wrong. The lists that `lounge` and `show_lounge` both try are here.
#![allow(dead_code)]

use crate::old_module::*;
use crate::rng::Rng;

// -------------------------------------------------------------------------------------- sequences

/// Pairs as examples give them: data writes in hex, a command write with a colon in front (`12 :13 41`).
pub fn written(text: &str) -> Vec<u8> {
    let byte = |hex: &str| u8::from_str_radix(hex, 16).expect("a byte in hex");
    let pair = |word: &str| match word.strip_prefix(':') {
        Some(hex) => [COMMAND, byte(hex)],
        None => [DATA, byte(word)],
    };
    text.split_whitespace().flat_map(pair).collect()
}

/// Data writes of these bytes.
pub fn data(bytes: &[u8]) -> Vec<u8> {
    bytes.iter().flat_map(|&b| [DATA, b]).collect()
}

/// ESC: a user character.
pub fn define(code: u8, dots: [u8; 5]) -> Vec<u8> {
    [data(&[0x1B, code]), data(&dots)].concat()
}

/// The display full of letters, with each mix of marks in both lines, in the given mode.
fn filled(mode: u8) -> Vec<u8> {
    let mut out = written("11 :00");
    out.extend((0..CELLS as u8).flat_map(|i| [DATA, 0x41 + i]));
    out.extend(data(&[0x17, 0x01, 0x09, 0x17, 0x12, 0x16, 0x17, 0x22, 0x27]));
    out.extend(data(&[0x19, 0x00, 0x04, 0x19, 0x10, 0x13, 0x19, 0x24, 0x26]));
    out.extend(data(&[0x1C, 0x04, 0x06, 0x1C, 0x13, 0x14, 0x1C, 0x26, 0x27]));
    out.extend(data(&[0x10 + mode]));
    out
}

/// Each area code with each pair of these positions, on a display of letters, and text behind it.
pub fn areas(positions: &[u8]) -> Vec<Vec<u8>> {
    let mut all = Vec::new();
    for area in AREA_CODES {
        for &first in positions {
            for &second in positions {
                let mut input = data(&[0x41, 0x42, 0x43, 0x44, area, first, second]);
                input.extend(written(":12 45 46 47"));
                all.push(input);
            }
        }
    }
    all
}

/// Command writes that act, that are ignored, and that would be something as data.
const COMMANDS: [u8; 20] = [
    0x00, 0x05, 0x09, 0x0D, 0x11, 0x13, 0x14, 0x17, 0x18, 0x1B, 0x1C, 0x26, 0x27, 0x28, 0x3F, 0x40, 0x41,
    0x42, 0x80, 0xFF,
];

/// Sequences of several data writes: areas that are accepted and dropped, and user characters.
const SEQUENCES: [&[u8]; 9] = [
    &[0x17, 0x02, 0x15],
    &[0x19, 0x13, 0x14],
    &[0x1C, 0x00, 0x27],
    &[0x17, 0x15, 0x02],
    &[0x19, 0x28, 0x05],
    &[0x1C, 0x17, 0x1B],
    &[0x1B, 0x41, 0x0D, 0x1B, 0x17, 0x12, 0xFF],
    &[0x1B, 0x17, 0x01, 0x02, 0x04, 0x08, 0x10],
    &[0x1B, 0x1B, 0x19, 0x00, 0x27, 0x18, 0x08],
];

/// Each sequence cut at each place; there a command write, which leaves it waiting; then the rest, or other
/// bytes.
pub fn cut_sequences() -> Vec<Vec<u8>> {
    let mut all = Vec::new();
    for sequence in SEQUENCES {
        for cut in 1..=sequence.len() {
            for b in COMMANDS {
                for rest in [&sequence[cut..], &[], &[0x41, 0x1B, 0x17, 0x05, 0x09, 0x18]] {
                    let mut input = written("61 17 62 1C 00 01 63");
                    input.extend(data(&sequence[..cut]));
                    input.extend([COMMAND, b]);
                    input.extend(data(rest));
                    input.extend(written("58 17 59"));
                    all.push(input);
                }
            }
        }
    }
    all
}

/// Near the end of each line, in each mode, with marks, before and after a first write there: each data byte
/// below 21h and some command writes, then characters.
pub fn line_ends() -> Vec<Vec<u8>> {
    let pairs: Vec<Vec<u8>> = (0..=0x20)
        .map(|b| vec![DATA, b])
        .chain(COMMANDS.map(|b| vec![COMMAND, b]))
        .chain([
            written("17 13 27"),
            written("19 27 13"),
            written("1B 0D 1 2 3 4 5 0D"),
            written("1B 09 1 2 3 4 5 09"),
        ])
        .collect();
    let mut all = Vec::new();
    for mode in 1..=2 {
        for place in [0x00, 0x12, 0x13, 0x14, 0x26, 0x27] {
            for before in ["", "51", "51 52"] {
                for pair in &pairs {
                    let mut input = filled(mode);
                    input.extend([COMMAND, place]);
                    input.extend(written(before));
                    input.extend(pair);
                    input.extend(written("58 59 5A"));
                    all.push(input);
                }
            }
        }
    }
    all
}

/// A user character on each code, which is then written, and does nothing else.
pub fn users_on_every_code() -> Vec<Vec<u8>> {
    let mut all = Vec::new();
    for code in 0..=255u8 {
        let mut input = define(code, [code, 0x1B, 0x17, 0x0D, 0xFF]);
        input.extend(data(&[0x41, code, 0x05, 0x06, 0x42]));
        input.extend([COMMAND, code, COMMAND, 0x13]);
        input.extend(data(&[0x12, code, code, code]));
        all.push(input);
    }
    all
}

/// Seven to twelve user characters, with one defined again, at each age, before each of the later ones; each
/// code is then written, so that codes are left whose user character is gone.
pub fn many_users() -> Vec<Vec<u8>> {
    let mut all = Vec::new();
    for n in 7..=12u8 {
        for again in 0..n {
            for before in again + 1..=n {
                let mut input = Vec::new();
                for i in 0..=n {
                    if i == before {
                        input.extend(define(again, [9, 8, 7, 6, again | 0xF8]));
                    }
                    if i < n {
                        input.extend(define(i, [i, 0x5A, 0xA5, !i, i << 4 | i]));
                    }
                }
                input.extend((0..n).flat_map(|i| [DATA, i]));
                all.push(input);
            }
        }
    }
    all
}

/// Kinds above 1 and odd lengths, alone and together, at each place of some pairs.
pub fn damaged() -> Vec<Vec<u8>> {
    let good = written("41 12 :13 42 43 17 00 13 :27 1B 41 1 2 3 4 5 41 44 :40 19 05");
    let mut all = Vec::new();
    for i in 0..=good.len() {
        all.push(good[..i].to_vec());
        for kind in [2, 3, 0x41, 0x80, 0xFF] {
            let mut wrong = good.clone();
            wrong.insert(i, kind);
            all.push(wrong.clone());
            wrong.insert(i + i % 2, kind);
            all.push(wrong);
        }
    }
    all
}

// ----------------------------------------------------------------------------------- random pairs

/// What a string of pairs is mostly made of.
#[derive(Clone, Copy, Debug, PartialEq)]
pub enum Flavour {
    Text,
    Shift,
    Areas,
    UserCharacters,
    Commands,
    Mixed,
}

pub const FLAVOURS: [Flavour; 6] = [
    Flavour::Text,
    Flavour::Shift,
    Flavour::Areas,
    Flavour::UserCharacters,
    Flavour::Commands,
    Flavour::Mixed,
];

/// Codes that make good user characters: letters, a blank, and codes that have a meaning.
const USER_POOL: [u8; 24] = [
    0x20, 0x21, 0x41, 0x42, 0x80, 0xFF, 0x00, 0x01, 0x08, 0x09, 0x0A, 0x0D, 0x11, 0x12, 0x13, 0x17, 0x18,
    0x19, 0x1A, 0x1C, 0x1D, 0x1F, 0x43, 0x44,
];

/// Every code below 20h that does something.
const CONTROLS: [u8; 11] = [0x09, 0x0D, 0x11, 0x12, 0x17, 0x18, 0x19, 0x1A, 0x1B, 0x1C, 0x1D];

fn character(rng: &mut Rng) -> u8 {
    if rng.once_in(3) {
        0x20 + rng.below(0xE0) as u8
    } else {
        0x41 + rng.below(26) as u8
    }
}

/// A place, most often near the end or the start of a line.
pub fn place(rng: &mut Rng) -> usize {
    if rng.once_in(3) {
        rng.below(CELLS)
    } else {
        rng.pick(&[0, 1, 17, 18, 19, 20, 21, 37, 38, 39])
    }
}

/// A byte for a command write.
fn command_byte(rng: &mut Rng) -> u8 {
    match rng.below(10) {
        0..=4 => place(rng) as u8,
        5 => rng.pick(&[0x40, 0x41]),
        6 => 0x28 + rng.below(0x18) as u8,
        7 => rng.pick(&CONTROLS),
        8 => 0x40 + rng.below(4) as u8,
        _ => rng.byte(),
    }
}

/// Data writes that belong together, now and then with command writes between them, and now and then cut.
fn put(rng: &mut Rng, sequence: &[u8], out: &mut Vec<u8>) {
    let length = if rng.once_in(12) {
        rng.below(sequence.len())
    } else {
        sequence.len()
    };
    for &b in &sequence[..length] {
        out.extend([DATA, b]);
        while rng.once_in(8) {
            out.extend([COMMAND, command_byte(rng)]);
        }
    }
}

/// An area code with two positions: mostly in order, some above 27h, some any bytes.
fn area(rng: &mut Rng, out: &mut Vec<u8>) {
    let code = rng.pick(&AREA_CODES);
    let (a, b) = (place(rng) as u8, place(rng) as u8);
    let (first, second) = match rng.below(12) {
        0 => (a, b),
        1 => (a, rng.pick(&[0x27, 0x28, 0x29, 0xFF])),
        2 => (rng.pick(&[0x28, 0x29, 0xFF]), b),
        3 => (rng.byte(), rng.byte()),
        4 => (a, a),
        _ => (a.min(b), a.max(b)),
    };
    put(rng, &[code, first, second], out);
}

/// A user character; on 1Bh, which ends all later ones, only with `esc_too`, and then seldom.
fn user_definition(rng: &mut Rng, esc_too: bool, out: &mut Vec<u8>) {
    let code = if esc_too && rng.once_in(40) {
        0x1B
    } else if rng.once_in(5) {
        let c = rng.byte();
        if c == 0x1B {
            0x1C
        } else {
            c
        }
    } else {
        rng.pick(&USER_POOL)
    };
    let mut sequence = vec![0x1B, code];
    for _ in 0..5 {
        // data bytes that would do something if they were not data
        sequence.push(if rng.once_in(2) {
            rng.pick(&CONTROLS)
        } else {
            rng.byte()
        });
    }
    put(rng, &sequence, out);
}

fn step(rng: &mut Rng, flavour: Flavour, esc_too: bool, out: &mut Vec<u8>) {
    let kind = rng.below(100);
    match flavour {
        Flavour::Text => match kind {
            0..=79 => out.extend([DATA, character(rng)]),
            80..=89 => out.extend([DATA, rng.pick(&[0x09, 0x0D])]),
            90..=94 => out.extend([COMMAND, place(rng) as u8]),
            _ => step(rng, Flavour::Mixed, esc_too, out),
        },
        Flavour::Shift => match kind {
            0..=54 => out.extend([DATA, character(rng)]),
            55..=59 => out.extend([DATA, rng.pick(&[0x09, 0x0D, 0x11, 0x0A, 0x08])]),
            60..=74 => out.extend([COMMAND, rng.pick(&[18, 19, 19, 19, 38, 39, 39, 39, 40])]),
            75..=82 => out.extend([DATA, 0x12]),
            83..=91 => area(rng, out),
            _ => step(rng, Flavour::Mixed, esc_too, out),
        },
        Flavour::Areas => match kind {
            0..=39 => area(rng, out),
            40..=64 => out.extend([DATA, character(rng)]),
            65..=74 => out.extend([DATA, rng.pick(&[0x18, 0x1A, 0x1D, 0x09])]),
            75..=84 => out.extend([COMMAND, command_byte(rng)]),
            _ => step(rng, Flavour::Mixed, esc_too, out),
        },
        Flavour::UserCharacters => match kind {
            0..=44 => user_definition(rng, esc_too, out),
            45..=79 => out.extend([DATA, rng.pick(&USER_POOL)]),
            80..=89 => out.extend([DATA, character(rng)]),
            _ => step(rng, Flavour::Mixed, esc_too, out),
        },
        Flavour::Commands => match kind {
            0..=59 => out.extend([COMMAND, command_byte(rng)]),
            60..=79 => out.extend([DATA, character(rng)]),
            _ => step(rng, Flavour::Mixed, esc_too, out),
        },
        Flavour::Mixed => match kind {
            0..=29 => out.extend([DATA, character(rng)]),
            30..=49 => out.extend([DATA, rng.pick(&CONTROLS[..8])]),
            50..=54 => out.extend([DATA, rng.byte() % 0x20]),
            55..=69 => out.extend([COMMAND, command_byte(rng)]),
            70..=79 => area(rng, out),
            80..=89 => user_definition(rng, esc_too, out),
            90..=94 => out.extend([DATA, rng.pick(&USER_POOL)]),
            _ => out.extend([rng.below(2) as u8, rng.byte()]),
        },
    }
}

/// So many pairs; the last sequence may be cut. Without `esc_too` no user character is put on 1Bh by purpose.
pub fn pairs(rng: &mut Rng, length: usize, flavour: Flavour, esc_too: bool) -> Vec<u8> {
    let mut out = Vec::new();
    if flavour == Flavour::Shift {
        out.extend([DATA, 0x12]);
    }
    while out.len() < 2 * length {
        step(rng, flavour, esc_too, &mut out);
    }
    out.truncate(2 * length);
    out
}

/// So many pairs of one flavour, or of any bytes.
pub fn some_pairs(rng: &mut Rng, length: usize) -> Vec<u8> {
    if rng.once_in(8) {
        return (0..2 * length)
            .map(|i| {
                if i % 2 == 0 {
                    rng.below(2) as u8
                } else {
                    rng.byte()
                }
            })
            .collect();
    }
    let flavour = rng.pick(&FLAVOURS);
    pairs(rng, length, flavour, true)
}

// ------------------------------------------------------------------------------ the measure's pairs

/// So many data writes of characters that can be printed, in DC1, for the measure.
pub fn printable(length: usize) -> Vec<u8> {
    let mut rng = Rng::new(81);
    (0..length)
        .flat_map(|_| [DATA, 0x20 + rng.below(0x5F) as u8])
        .collect()
}

/// So many pairs of all kinds, for the measure. Of 100 steps 60 are a character, 5 are 09h, 4 0Dh, 4 a mode,
/// 6 an area code with two positions (of eight one pair is out of order), 3 a cancel, 11 a command write (of
/// four one is no position), 4 define a user character and 3 write one. User characters are on 01h to 07h and
/// 80h to 8Fh and never on a control code, so that every sequence is read as what it is.
pub fn mixed(length: usize) -> Vec<u8> {
    let mut rng = Rng::new(82);
    let mut out = Vec::new();
    while out.len() < 2 * length {
        match rng.below(100) {
            0..=59 => out.extend([DATA, 0x20 + rng.below(0x5F) as u8]),
            60..=64 => out.extend([DATA, 0x09]),
            65..=68 => out.extend([DATA, 0x0D]),
            69..=72 => out.extend([DATA, rng.pick(&[0x11, 0x12])]),
            73..=78 => {
                let (a, b) = (rng.below(CELLS) as u8, rng.below(CELLS) as u8);
                let positions = if rng.once_in(8) {
                    [a.max(b), a.min(b)]
                } else {
                    [a.min(b), a.max(b)]
                };
                out.extend([DATA, rng.pick(&AREA_CODES)]);
                out.extend(data(&positions));
            }
            79..=81 => out.extend([DATA, rng.pick(&[0x18, 0x1A, 0x1D])]),
            82..=92 if rng.once_in(4) => {
                out.extend([COMMAND, rng.pick(&[0x28, 0x3F, 0x40, 0x41, 0x42, 0xFF])])
            }
            82..=92 => out.extend([COMMAND, rng.below(CELLS) as u8]),
            93..=96 => {
                let code = measured_user(&mut rng);
                let dots = [0; 5].map(|_: u8| rng.byte());
                out.extend(define(code, dots));
            }
            _ => out.extend([DATA, measured_user(&mut rng)]),
        }
    }
    out.truncate(2 * length);
    out
}

fn measured_user(rng: &mut Rng) -> u8 {
    if rng.once_in(3) {
        0x01 + rng.below(7) as u8
    } else {
        0x80 + rng.below(16) as u8
    }
}

// -------------------------------------------------------------------------------------- conditions

/// Any well-formed condition.
pub fn any_condition(rng: &mut Rng) -> Condition {
    let mut c = Condition::reset();
    match rng.below(4) {
        0 => {}
        1 => c.codes = [0; CELLS].map(|_: u8| character(rng)),
        _ => c.codes = [0; CELLS].map(|_: u8| rng.byte()),
    }
    match rng.below(3) {
        0 => {}
        1 => c.marks = [rng.below(8) as u8; CELLS],
        _ => c.marks = [0; CELLS].map(|_: u8| rng.below(8) as u8),
    }
    c.cursor = place(rng);
    c.mode = 1 + rng.below(2) as u8;
    c.scroll_on = c.mode == 2 && c.cursor % 20 == 19 && rng.once_in(2);
    c.dimming = rng.once_in(2);
    c.last = rng.byte();
    let users = rng.pick(&[0, 0, 1, 2, 5, 7, 8, 8]);
    while c.count < users {
        any_user(&mut c, rng);
    }
    c.half = any_half(rng);
    debug_assert!(c.well_formed());
    c
}

/// One user character more, often on the code of a cell.
fn any_user(c: &mut Condition, rng: &mut Rng) {
    let code = match rng.below(6) {
        0 | 1 => rng.pick(&USER_POOL),
        2 | 3 => rng.pick(&c.codes),
        4 if rng.once_in(4) => 0x1B,
        _ => rng.byte(),
    };
    if !c.is_user(code) {
        let mut dots = [0; 5].map(|_: u8| rng.byte());
        dots[4] %= 8;
        c.users[c.count] = User { code, dots };
        c.count += 1;
    }
}

/// Each kind of half-received sequence, and nothing half received.
pub fn any_half(rng: &mut Rng) -> Half {
    match rng.below(9) {
        0 => Half::Esc,
        1..=3 => {
            let count = rng.below(5);
            let mut held = [0; 4];
            for h in held[..count].iter_mut() {
                *h = rng.byte();
            }
            let code = if rng.once_in(2) {
                rng.pick(&USER_POOL)
            } else {
                rng.byte()
            };
            Half::UserData { code, count, held }
        }
        4 => Half::First {
            area: rng.pick(&AREA_CODES),
        },
        5 => Half::Second {
            area: rng.pick(&AREA_CODES),
            first: if rng.once_in(3) {
                rng.byte()
            } else {
                place(rng) as u8
            },
        },
        _ => Half::Nothing,
    }
}

/// A condition that pairs led to from reset.
pub fn reached_condition(rng: &mut Rng) -> Condition {
    let length = rng.below(200);
    Condition::reset().after(&some_pairs(rng, length))
}

/// One of either kind.
pub fn some_condition(rng: &mut Rng) -> Condition {
    if rng.once_in(2) {
        any_condition(rng)
    } else {
        reached_condition(rng)
    }
}

/// What can be wrong with a condition.
#[derive(Clone, Copy, Debug, PartialEq)]
pub enum Wrong {
    Cursor,
    Mode,
    Mark,
    Count,
    FifthByte,
    CodeTwice,
    UnusedCode,
    UnusedDots,
    HeldCount,
    HeldByte,
    FirstArea,
    SecondArea,
    ScrollInMode1,
    ScrollElsewhere,
}

pub const WRONGS: [Wrong; 14] = [
    Wrong::Cursor,
    Wrong::Mode,
    Wrong::Mark,
    Wrong::Count,
    Wrong::FifthByte,
    Wrong::CodeTwice,
    Wrong::UnusedCode,
    Wrong::UnusedDots,
    Wrong::HeldCount,
    Wrong::HeldByte,
    Wrong::FirstArea,
    Wrong::SecondArea,
    Wrong::ScrollInMode1,
    Wrong::ScrollElsewhere,
];

/// Any byte from this one up, most often one near it.
fn from_up(rng: &mut Rng, least: u8) -> u8 {
    if rng.once_in(2) {
        least + rng.below(4) as u8
    } else {
        least + rng.below(256 - least as usize) as u8
    }
}

fn other_area(rng: &mut Rng) -> u8 {
    loop {
        let area = if rng.once_in(2) {
            0x16 + rng.below(8) as u8
        } else {
            rng.byte()
        };
        if !AREA_CODES.contains(&area) {
            return area;
        }
    }
}

/// Makes this one thing wrong, and else changes only what must be so for it.
pub fn spoil(c: &mut Condition, wrong: Wrong, rng: &mut Rng) {
    match wrong {
        Wrong::Cursor => {
            c.cursor = from_up(rng, 40) as usize;
            c.scroll_on &= c.cursor % 20 == 19;
        }
        Wrong::Mode => {
            c.mode = if rng.once_in(3) { 0 } else { from_up(rng, 3) };
            c.scroll_on = false;
        }
        Wrong::Mark => c.marks[rng.below(CELLS)] = from_up(rng, 8),
        Wrong::Count => c.count = from_up(rng, 9) as usize,
        Wrong::FifthByte => {
            let i = used_place(c, 1, rng);
            c.users[i].dots[4] = from_up(rng, 8);
        }
        Wrong::CodeTwice => {
            let i = used_place(c, 2, rng);
            let used = c.count.min(USERS);
            c.users[(i + 1 + rng.below(used - 1)) % used].code = c.users[i].code;
        }
        Wrong::UnusedCode => unused_user(c, rng).code = from_up(rng, 1),
        Wrong::UnusedDots => unused_user(c, rng).dots[rng.below(5)] = from_up(rng, 1),
        Wrong::HeldCount => {
            let mut held = [0; 4];
            if rng.once_in(2) {
                held = held.map(|_: u8| rng.byte());
            }
            c.half = Half::UserData {
                code: rng.byte(),
                count: from_up(rng, 5) as usize,
                held,
            }
        }
        Wrong::HeldByte => {
            let mut held = [0; 4];
            let i = rng.below(4);
            held[i] = from_up(rng, 1);
            c.half = Half::UserData {
                code: rng.byte(),
                count: rng.below(i + 1),
                held,
            }
        }
        Wrong::FirstArea => {
            c.half = Half::First {
                area: other_area(rng),
            }
        }
        Wrong::SecondArea => {
            c.half = Half::Second {
                area: other_area(rng),
                first: rng.byte(),
            }
        }
        Wrong::ScrollInMode1 => {
            c.mode = 1;
            c.cursor = rng.pick(&[19, 39]);
            c.scroll_on = true;
        }
        Wrong::ScrollElsewhere => {
            c.mode = 2;
            c.cursor = rng.pick(&[0, 1, 18, 20, 37, 38]);
            c.scroll_on = true;
        }
    }
}

/// The place of a user character, of at least so many.
fn used_place(c: &mut Condition, at_least: usize, rng: &mut Rng) -> usize {
    while c.count < at_least {
        any_user(c, rng);
    }
    rng.below(c.count.min(USERS))
}

/// A place that is not used. Where all are, the youngest is given up.
fn unused_user<'a>(c: &'a mut Condition, rng: &mut Rng) -> &'a mut User {
    if c.count >= USERS {
        c.count = USERS - 1;
        c.users[c.count] = NO_USER;
    }
    &mut c.users[c.count + rng.below(USERS - c.count)]
}
