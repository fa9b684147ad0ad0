//! Random inputs: byte strings that a host could send, conditions that a module could be in, and damage to a block.
#![allow(dead_code)]

use crate::module::{seal, Condition, Half, User, CELLS};
use crate::rng::Rng;

/// What a string of commands is mostly made of.
#[derive(Clone, Copy, Debug, PartialEq)]
pub enum Flavour {
    Text,
    ScrollUp,
    ScrollLeft,
    UserCharacters,
    Mixed,
}

pub const FLAVOURS: [Flavour; 5] = [
    Flavour::Text,
    Flavour::ScrollUp,
    Flavour::ScrollLeft,
    Flavour::UserCharacters,
    Flavour::Mixed,
];

/// Codes that make good user characters: letters, a blank, ADh, and codes that are commands.
const USER_POOL: [u8; 34] = [
    0x20, 0x21, 0x41, 0x42, 0x43, 0x48, 0x49, 0x4C, 0x53, 0x54, 0xAD, 0xFF, 0x00, 0x01, 0x07, 0x08, 0x09, 0x0A, 0x0B,
    0x0C, 0x0D, 0x0E, 0x0F, 0x10, 0x11, 0x12, 0x13, 0x15, 0x18, 0x19, 0x1A, 0x1C, 0x1F, 0x80,
];

fn character(rng: &mut Rng) -> u8 {
    if rng.once_in(12) {
        rng.pick(&[0x20, 0xAD, 0xFF, 0x7F, 0x80])
    } else if rng.once_in(3) {
        0x20 + rng.below(0xE0) as u8
    } else {
        0x41 + rng.below(26) as u8
    }
}

/// A place, most often near the end or the start of a line.
pub fn place(rng: &mut Rng) -> usize {
    if rng.once_in(3) {
        rng.below(CELLS)
    } else {
        rng.pick(&[0, 1, 17, 18, 19, 20, 21, 37, 38, 39])
    }
}

fn user_definition(rng: &mut Rng, esc_too: bool, out: &mut Vec<u8>) {
    let code = if esc_too && rng.once_in(60) {
        0x1B
    } else if rng.once_in(5) {
        let c = rng.byte();
        if c == 0x1B {
            0x1C
        } else {
            c
        }
    } else {
        rng.pick(&USER_POOL)
    };
    out.extend_from_slice(&[0x1B, 0x43, code]);
    for _ in 0..5 {
        // data bytes that would be commands, or users, if they were not data
        let d = if rng.once_in(2) {
            rng.pick(&USER_POOL)
        } else {
            rng.byte()
        };
        out.push(d);
    }
}

fn command(rng: &mut Rng, flavour: Flavour, esc_too: bool, out: &mut Vec<u8>) {
    let kind = rng.below(100);
    match flavour {
        Flavour::Text => match kind {
            0..=79 => out.push(character(rng)),
            80..=89 => out.push(rng.pick(&[0x08, 0x09, 0x0A, 0x0C, 0x0D])),
            90..=94 => out.extend_from_slice(&[0x1B, 0x48, place(rng) as u8]),
            _ => command(rng, Flavour::Mixed, esc_too, out),
        },
        Flavour::ScrollUp => match kind {
            0..=49 => out.push(character(rng)),
            50..=69 => out.push(rng.pick(&[0x09, 0x0A, 0x0A, 0x0D])),
            70..=84 => out.extend_from_slice(&[0x1B, 0x48, place(rng) as u8]),
            85..=91 => out.push(0x12),
            92..=93 => out.push(rng.pick(&[0x18, 0x19])),
            _ => command(rng, Flavour::Mixed, esc_too, out),
        },
        Flavour::ScrollLeft => match kind {
            0..=54 => out.push(character(rng)),
            55..=59 => out.push(rng.pick(&[0x08, 0x09, 0x0A, 0x0C, 0x0D, 0x0E, 0x0F, 0x13])),
            60..=79 => {
                out.extend_from_slice(&[0x1B, 0x48, rng.pick(&[17, 18, 19, 19, 19, 37, 38, 39, 39, 39, 40])]);
                out.push(character(rng));
            }
            80..=89 => out.push(0x13),
            90..=92 => out.push(rng.pick(&[0x18, 0x19])),
            93 => out.push(rng.byte() % 0x1B),
            _ => command(rng, Flavour::Mixed, esc_too, out),
        },
        Flavour::UserCharacters => match kind {
            0..=44 => user_definition(rng, esc_too, out),
            45..=79 => out.push(rng.pick(&USER_POOL)),
            80..=89 => out.push(character(rng)),
            _ => command(rng, Flavour::Mixed, esc_too, out),
        },
        Flavour::Mixed => match kind {
            0..=29 => out.push(character(rng)),
            30..=59 => out.push(rng.byte() % 0x1B),
            60..=69 => out.extend_from_slice(&[0x1B, 0x48, place(rng) as u8]),
            70..=71 => out.extend_from_slice(&[0x1B, 0x48, rng.byte()]),
            72..=74 => out.extend_from_slice(&[0x1B, 0x4C, rng.byte()]),
            75..=77 => out.extend_from_slice(&[0x1B, 0x54, rng.byte()]),
            78..=79 => out.extend_from_slice(&[0x1B, 0x53]),
            80 => out.extend_from_slice(&[0x1B, 0x49]),
            81..=84 => out.extend_from_slice(&[0x1B, rng.byte()]),
            85..=94 => user_definition(rng, esc_too, out),
            95..=97 => out.push(0x1C + rng.byte() % 4),
            _ => out.push(rng.byte()),
        },
    }
}

/// Commands up to this many bytes; the last may be cut. Without `esc_too` no user character is put on
/// 1Bh by purpose (it ends all commands for good).
pub fn commands(rng: &mut Rng, length: usize, flavour: Flavour, esc_too: bool) -> Vec<u8> {
    let mut out = Vec::new();
    match flavour {
        Flavour::ScrollUp => out.push(0x12),
        Flavour::ScrollLeft => out.push(0x13),
        _ => {}
    }
    while out.len() < length {
        command(rng, flavour, esc_too, &mut out);
    }
    out.truncate(length);
    out
}

/// Some bytes for a run: commands of one flavour, or bytes of any kind.
pub fn some_bytes(rng: &mut Rng, length: usize) -> Vec<u8> {
    match rng.below(8) {
        0 => rng.bytes(length),
        1 => commands(rng, length, Flavour::Text, true),
        2 | 3 => commands(rng, length, Flavour::ScrollUp, true),
        4 | 5 => commands(rng, length, Flavour::ScrollLeft, true),
        6 => commands(rng, length, Flavour::UserCharacters, true),
        _ => commands(rng, length, Flavour::Mixed, true),
    }
}

/// Any well-formed condition.
pub fn any_condition(rng: &mut Rng) -> Condition {
    let mut c = Condition::power_up(rng.below(2) as u8);
    match rng.below(4) {
        0 => {}
        1 => c.codes = [0; CELLS].map(|_: u8| character(rng)),
        _ => c.codes = [0; CELLS].map(|_: u8| rng.byte()),
    }
    match rng.below(3) {
        0 => {}
        1 => c.fonts = [rng.below(2) as u8; CELLS],
        _ => c.fonts = [0; CELLS].map(|_: u8| rng.below(2) as u8),
    }
    c.cursor = place(rng);
    c.mode = 1 + rng.below(3) as u8;
    c.scroll_on = c.mode == 3 && c.cursor % 20 == 19 && rng.once_in(2);
    c.shown = rng.once_in(2);
    c.font = rng.below(2) as u8;
    c.euro = rng.once_in(2);
    c.luminance = rng.below(4) as u8;
    c.speed = rng.byte();
    c.flickerless = rng.once_in(2);
    let users = rng.pick(&[0, 0, 1, 2, 5, 15, 16]);
    while c.count < users {
        let code = if rng.once_in(2) {
            rng.pick(&USER_POOL)
        } else {
            rng.byte()
        };
        if !c.is_user(code) && (code != 0x1B || rng.once_in(3)) {
            let mut dots = [0; 5];
            for d in dots.iter_mut() {
                *d = rng.byte();
            }
            dots[4] %= 16;
            c.users[c.count] = User { code, dots };
            c.count += 1;
        }
    }
    if !c.is_user(0x1B) {
        c.half = any_half(rng);
    }
    debug_assert!(c.well_formed());
    c
}

pub fn any_half(rng: &mut Rng) -> Half {
    match rng.below(12) {
        0 => Half::Esc,
        1 => Half::Position,
        2 => Half::Luminance,
        3 => Half::Speed,
        4 => Half::UserCode,
        5 | 6 => {
            let count = rng.below(5);
            let mut held = [0; 4];
            for h in held[..count].iter_mut() {
                *h = rng.byte();
            }
            let code = if rng.once_in(4) { 0x1B } else { rng.byte() };
            Half::UserData { code, count, held }
        }
        _ => Half::Nothing,
    }
}

/// A half-received command of any kind.
pub fn any_started(rng: &mut Rng) -> Half {
    loop {
        let half = any_half(rng);
        if half != Half::Nothing {
            return half;
        }
    }
}

/// A condition that commands led to from power-up.
pub fn reached_condition(rng: &mut Rng) -> Condition {
    let c = Condition::power_up(rng.below(2) as u8);
    let length = rng.below(200);
    c.after(&some_bytes(rng, length))
}

/// Changes up to three bytes, and mostly puts the check right again.
pub fn damage(block: &mut [u8], rng: &mut Rng) {
    for _ in 0..1 + rng.below(3) {
        let i = match rng.below(4) {
            0 => rng.below(24),
            1 => 104 + rng.below(96),
            2 => 24 + rng.below(80),
            _ => rng.below(512),
        };
        block[i] = if rng.once_in(2) { rng.byte() } else { rng.below(8) as u8 };
    }
    if !rng.once_in(5) {
        seal(block);
    }
}

/// 32,768 characters that can be printed, for the measure.
pub fn printable(length: usize) -> Vec<u8> {
    let mut rng = Rng::new(32);
    (0..length).map(|_| 0x20 + rng.below(0x5F) as u8).collect()
}

/// These bytes, and then text and all commands mixed, each only where what the module is in after it is allowed.
fn mixed_while(start: Vec<u8>, length: usize, allowed: impl Fn(&Condition) -> bool) -> Vec<u8> {
    let mut rng = Rng::new(33);
    let mut c = Condition::power_up(0).after(&start);
    let mut out = start;
    while out.len() < length {
        let flavour = rng.pick(&[Flavour::Text, Flavour::ScrollUp, Flavour::ScrollLeft, Flavour::Mixed]);
        for _ in 0..20 {
            let mut bytes = Vec::new();
            command(&mut rng, flavour, false, &mut bytes);
            let mut next = c.clone();
            for &b in &bytes {
                next.take(b);
            }
            if allowed(&next) {
                c = next;
                out.extend_from_slice(&bytes);
            }
        }
    }
    out.truncate(length);
    out
}

/// Text and all commands mixed, for the measure. No user character comes onto 1Bh: it would end all
/// commands.
pub fn mixed(length: usize) -> Vec<u8> {
    mixed_while(Vec::new(), length, |c| match c.half {
        Half::UserData { code, .. } => code != 0x1B,
        _ => !c.is_user(0x1B),
    })
}

/// The same with 16 user characters, on 80h to 8Fh, that are held all the time: what would change them is left out.
pub fn mixed_16(length: usize) -> Vec<u8> {
    let start: Vec<u8> = (0x80..=0x8F).flat_map(|code| define(code, [code, 0x5A, 0xA5, 0x3C, 0x0F])).collect();
    let held = Condition::power_up(0).after(&start).users;
    mixed_while(start, length, |c| {
        c.users == held && !matches!(c.half, Half::UserCode | Half::UserData { .. })
    })
}

/// Definitions alone, on 40 codes in turn, so that the oldest always goes; for the measure.
pub fn all_definitions(length: usize) -> Vec<u8> {
    (0..length).flat_map(|i| define(0x40 + (i % 40) as u8, [i as u8; 5])).take(length).collect()
}

/// Initialise alone, for the measure.
pub fn all_initialise(length: usize) -> Vec<u8> {
    [0x1B, 0x49].iter().cycle().take(length).copied().collect()
}

/// ESC 43h: a user character.
pub fn define(code: u8, data: [u8; 5]) -> Vec<u8> {
    let mut s = vec![0x1B, 0x43, code];
    s.extend_from_slice(&data);
    s
}

/// A user character on each code, and then written.
pub fn users_on_every_code() -> Vec<Vec<u8>> {
    let mut all = Vec::new();
    for code in 0..=255u8 {
        let mut input = define(code, [code, 0x1B, 0x49, 0x0E, 0xFF]);
        input.extend_from_slice(&[0x41, code, 0x42, 0x1B, 0x48, 0x26, code, code, code]);
        all.push(input);
    }
    all
}

/// 15 to 20 definitions, of which one is of a code defined before, at each age, with 14 to 16 held. The others are
/// not on 1Bh, which would end all commands; where this code is 1Bh no definition comes after its first.
pub fn redefinition_on(code: u8) -> Vec<Vec<u8>> {
    let others: Vec<u8> = (1..=255).map(|d| code.wrapping_add(d)).filter(|&b| b != 0x1B).collect();
    let mut all = Vec::new();
    for held in 14..=16 {
        for age in 0..held {
            for new in 0..=3 {
                let mut codes = others[..held - 1].to_vec();
                codes.insert(age, code);
                codes.push(code);
                codes.extend_from_slice(&others[held - 1..held - 1 + new]);
                let defined = |(i, &b): (usize, &u8)| define(b, [i as u8, 0x5A, 0xA5, !i as u8, 0xF0 + i as u8 % 16]);
                all.push(codes.iter().enumerate().flat_map(defined).collect());
            }
        }
    }
    all
}

/// So many definitions on 20 codes, most of them commands: codes are defined again, the oldest go, and in every other
/// case Initialise comes before one in sixteen. After each of them all 20 are sent: a user code is a character, any
/// other what it is.
pub fn definitions(rng: &mut Rng, n: usize) -> Vec<u8> {
    const CODES: [u8; 20] = [
        0x00, 0x07, 0x08, 0x09, 0x0A, 0x0C, 0x0D, 0x0E, 0x11, 0x12, 0x13, 0x15, 0x18, 0x19, 0x1A, 0x1F, 0x20, 0x41, 0x80,
        0xFF,
    ];
    let initialising = rng.once_in(2);
    let mut out = Vec::new();
    for i in 0..n {
        if initialising && rng.once_in(16) {
            out.extend_from_slice(&[0x1B, 0x49]);
        }
        out.extend(define(rng.pick(&CODES), [i as u8, 0x0E, 0x1B, 0x49, i as u8]));
        out.extend_from_slice(&CODES);
    }
    out
}

/// 15 to 20 user characters, with one defined again before the 17th, each then written.
pub fn many_users() -> Vec<Vec<u8>> {
    let mut all = Vec::new();
    for n in 15..=20usize {
        for again in 0..n {
            let mut input = Vec::new();
            for i in 0..n {
                if i == 16 {
                    input.extend(define(again as u8, [9; 5]));
                }
                input.extend(define(i as u8, [i as u8; 5]));
            }
            for i in 0..n as u8 {
                input.push(i);
            }
            input.extend_from_slice(&[0x08, 0x0A, 0x58]);
            all.push(input);
        }
    }
    all
}

/// A condition with nearly every field away from its power-up value.
pub fn rich() -> Condition {
    let mut c = Condition::power_up(1);
    for i in 0..CELLS {
        c.codes[i] = (i * 7) as u8;
        c.fonts[i] = (i % 3 == 0) as u8;
    }
    c.cursor = 39;
    c.mode = 3;
    c.scroll_on = true;
    c.shown = true;
    c.font = 0;
    c.euro = true;
    c.luminance = 1;
    c.speed = 200;
    c.flickerless = true;
    for i in 0..15 {
        c.users[i] = User {
            code: i as u8 * 17,
            dots: [i as u8, 255, 128, 1, i as u8],
        };
    }
    c.count = 15;
    c.half = Half::UserData {
        code: 0x1B,
        count: 3,
        held: [9, 8, 7, 0],
    };
    c
}
