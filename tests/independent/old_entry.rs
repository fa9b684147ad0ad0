//! The product's test entry for the old lounge module (liblounge_entry.a), the 141 bytes in which a condition is held
//! here, and what it is to answer by the independent program. The entry takes the bytes in four parts: 13, 40, 40, 48.
#![allow(dead_code)]

use crate::old_module::{self, Condition, Half, Shape, User, CELLS, NO_USER, USERS};

pub const STATE: usize = 141;

extern "C" {
    fn lounge_run(
        head: *mut u8,
        head_len: usize,
        codes: *mut u8,
        codes_len: usize,
        marks: *mut u8,
        marks_len: usize,
        users: *mut u8,
        users_len: usize,
        pairs: *const u8,
        pairs_len: usize,
    ) -> u32;
    fn lounge_view(
        head: *const u8,
        head_len: usize,
        codes: *const u8,
        codes_len: usize,
        marks: *const u8,
        marks_len: usize,
        users: *const u8,
        users_len: usize,
        position: u32,
    ) -> u32;
}

/// The lengths of the four parts of a state; of one of another length the last part, or those at the end, are of
/// another length.
fn parts(state: usize) -> [usize; 4] {
    let head = state.min(CODES);
    let codes = (state - head).min(CELLS);
    let marks = (state - head - codes).min(CELLS);
    [head, codes, marks, state - head - codes - marks]
}

/// The four parts as they are, each of its own length.
pub fn run_parts(parts: &mut [Vec<u8>; 4], pairs: &[u8]) -> u32 {
    let [h, c, m, u] = parts;
    unsafe {
        lounge_run(
            h.as_mut_ptr(),
            h.len(),
            c.as_mut_ptr(),
            c.len(),
            m.as_mut_ptr(),
            m.len(),
            u.as_mut_ptr(),
            u.len(),
            pairs.as_ptr(),
            pairs.len(),
        )
    }
}

pub fn run(state: &mut [u8], pairs: &[u8]) -> u32 {
    let [h, c, m, u] = parts(state.len());
    let s = state.as_mut_ptr();
    unsafe {
        let (codes, marks, users) = (s.add(h), s.add(h + c), s.add(h + c + m));
        lounge_run(s, h, codes, c, marks, m, users, u, pairs.as_ptr(), pairs.len())
    }
}

pub fn view(state: &[u8], position: u32) -> u32 {
    let [h, c, m, u] = parts(state.len());
    let s = state.as_ptr();
    unsafe {
        let (codes, marks, users) = (s.add(h), s.add(h + c), s.add(h + c + m));
        lounge_view(s, h, codes, c, marks, m, users, u, position)
    }
}

/// The places of the state: single bytes, then four held bytes, codes, marks and eight user characters.
const CURSOR: usize = 0;
const MODE: usize = 1;
const SCROLL_ON: usize = 2;
const DIMMING: usize = 3;
const LAST: usize = 4;
const COUNT: usize = 5;
const HALF_KIND: usize = 6;
const HALF_CODE: usize = 7;
/// How many bytes are held, or the first position.
const HALF_NUMBER: usize = 8;
const HELD: usize = 9;
const CODES: usize = 13;
const MARKS: usize = 53;
const DOTS: usize = 93;

pub fn to_state(c: &Condition) -> [u8; STATE] {
    let mut s = [0; STATE];
    s[CURSOR] = c.cursor as u8;
    s[MODE] = c.mode;
    s[SCROLL_ON] = c.scroll_on as u8;
    s[DIMMING] = c.dimming as u8;
    s[LAST] = c.last;
    s[COUNT] = c.count as u8;
    match c.half {
        Half::Nothing => {}
        Half::Esc => s[HALF_KIND] = 1,
        Half::UserData { code, count, held } => {
            s[HALF_KIND..=HALF_NUMBER].copy_from_slice(&[2, code, count as u8]);
            s[HELD..HELD + 4].copy_from_slice(&held);
        }
        Half::First { area } => s[HALF_KIND..=HALF_CODE].copy_from_slice(&[3, area]),
        Half::Second { area, first } => s[HALF_KIND..=HALF_NUMBER].copy_from_slice(&[4, area, first]),
    }
    s[CODES..CODES + CELLS].copy_from_slice(&c.codes);
    s[MARKS..MARKS + CELLS].copy_from_slice(&c.marks);
    for (u, place) in c.users.iter().zip(s[DOTS..].chunks_exact_mut(6)) {
        place[0] = u.code;
        place[1..].copy_from_slice(&u.dots);
    }
    s
}

pub fn from_state(s: &[u8]) -> Condition {
    let mut c = Condition::reset();
    c.cursor = s[CURSOR] as usize;
    c.mode = s[MODE];
    c.scroll_on = s[SCROLL_ON] == 1;
    c.dimming = s[DIMMING] == 1;
    c.last = s[LAST];
    c.count = s[COUNT] as usize;
    let (code, number) = (s[HALF_CODE], s[HALF_NUMBER]);
    c.half = match s[HALF_KIND] {
        0 => Half::Nothing,
        1 => Half::Esc,
        2 => Half::UserData {
            code,
            count: number as usize,
            held: [s[HELD], s[HELD + 1], s[HELD + 2], s[HELD + 3]],
        },
        3 => Half::First { area: code },
        _ => Half::Second { area: code, first: number },
    };
    c.codes.copy_from_slice(&s[CODES..CODES + CELLS]);
    c.marks.copy_from_slice(&s[MARKS..MARKS + CELLS]);
    c.users = [NO_USER; USERS];
    for (u, place) in c.users.iter_mut().zip(s[DOTS..].chunks_exact(6)) {
        *u = User {
            code: place[0],
            dots: [place[1], place[2], place[3], place[4], place[5]],
        };
    }
    c
}

/// Held bytes that are not 0 where no user data is awaited: an unused place that is not 0. (A condition here has no
/// place for them.)
fn unused_held(s: &[u8]) -> bool {
    s[HALF_KIND] != 2 && s[HELD..HELD + 4].iter().any(|&b| b != 0)
}

/// What lounge_run is to answer, and the state that it is to leave.
pub fn expected_run(state: &[u8], pairs: &[u8]) -> (u32, Vec<u8>) {
    if state.len() != STATE {
        return (1, state.to_vec());
    }
    if unused_held(state) {
        return (if pairs.len() % 2 == 1 { 1 } else { 3 }, state.to_vec());
    }
    match old_module::run(&from_state(state), pairs) {
        Ok(c) => (0, to_state(&c).to_vec()),
        Err(n) => (n as u32, state.to_vec()),
    }
}

/// What lounge_view is to answer.
pub fn expected_view(state: &[u8], position: u32) -> u32 {
    if state.len() != STATE {
        return 65_536 + 1;
    }
    if unused_held(state) {
        return 65_536 + 3;
    }
    match old_module::view(&from_state(state), position) {
        Err(n) => 65_536 + n as u32,
        Ok(v) => {
            let shape = match v.shape {
                Shape::Blank => 0,
                Shape::User(code) => 256 + code as u32,
                Shape::BuiltIn(code) => 768 + code as u32,
            };
            shape + 4_096 * v.level_b as u32 + 8_192 * v.blinking as u32 + 16_384 * v.underlined as u32
        }
    }
}
