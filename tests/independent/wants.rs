//! What to plan: conditions to start from, and pictures.
#![allow(dead_code)]

use crate::inputs;
use crate::module::*;
use crate::rng::Rng;

/// Every two places.
pub fn pairs() -> impl Iterator<Item = (usize, usize)> {
    (0..CELLS * CELLS).map(|i| (i / CELLS, i % CELLS))
}

/// A condition that can be planned from: mode 1, nothing half received, no user character on the
/// planner's codes; now and then user characters below 20h.
pub fn start(rng: &mut Rng, planners: &[u8]) -> Condition {
    let mut c = if rng.once_in(2) {
        inputs::any_condition(rng)
    } else {
        inputs::reached_condition(rng)
    };
    c.mode = 1;
    c.scroll_on = false;
    c.half = Half::Nothing;
    for i in 0..c.count {
        if planners.contains(&c.users[i].code) {
            let free = (0u8..=255)
                .rev()
                .find(|&x| !c.is_user(x) && !planners.contains(&x))
                .unwrap();
            c.users[i].code = free;
        }
    }
    c
}

/// A code that can be wanted: a character, or a user character of any code.
pub fn wanted_code(c: &Condition, rng: &mut Rng) -> u8 {
    if c.count > 0 && rng.once_in(3) {
        c.users[rng.below(c.count)].code
    } else {
        0x20 + rng.below(0xE0) as u8
    }
}

/// The codes of the cells, where they can be wanted.
pub fn kept(c: &Condition) -> [u8; CELLS] {
    c.codes.map(|x| if x < 0x20 && !c.is_user(x) { 0x41 } else { x })
}

/// A glass that is full, or nearly, most cells in the selected font, to start from.
pub fn full(c: &mut Condition, rng: &mut Rng) {
    for cell in 0..CELLS {
        c.codes[cell] = if rng.once_in(9) { 0x20 } else { wanted_code(c, rng) };
        c.fonts[cell] = if rng.once_in(5) { 1 - c.font } else { c.font };
    }
}

/// A short notice: blank but for a word or two, or for single cells.
pub fn notice(c: &Condition, rng: &mut Rng) -> [u8; CELLS] {
    let mut wanted = [0x20; CELLS];
    for _ in 0..rng.below(4) {
        let from = rng.below(CELLS);
        let to = (from + 1 + rng.below(12)).min(CELLS);
        for x in wanted[from..to].iter_mut() {
            *x = wanted_code(c, rng);
        }
    }
    wanted
}

/// A user character on 0Eh: one of those that are there moves to that code, or it is a new one.
pub fn user_on_clear(c: &mut Condition) {
    if !c.is_user(CLEAR) {
        if c.count == 0 {
            c.count = 1;
        }
        c.users[0].code = CLEAR;
    }
}

/// Codes of every kind to want.
pub fn some_codes(c: &Condition, rng: &mut Rng) -> [u8; CELLS] {
    let mut wanted = kept(c);
    match rng.below(9) {
        // random; blank; full of one character
        0 => wanted = [0; CELLS].map(|_: u8| wanted_code(c, rng)),
        1 => wanted = [0x20; CELLS],
        2 => wanted = [wanted_code(c, rng); CELLS],
        // one line anew
        3 => {
            let line = 20 * rng.below(2);
            for x in wanted[line..line + 20].iter_mut() {
                *x = wanted_code(c, rng);
            }
        }
        // a word anew
        4 => {
            let from = rng.below(CELLS);
            let to = (from + 1 + rng.below(8)).min(CELLS);
            for x in wanted[from..to].iter_mut() {
                *x = wanted_code(c, rng);
            }
        }
        // every second or third cell, and gaps of all small sizes
        5 => {
            let mut cell = rng.below(4);
            while cell < CELLS {
                wanted[cell] ^= 0x80;
                if wanted[cell] < 0x20 {
                    wanted[cell] = 0x42;
                }
                cell += 1 + rng.below(6);
            }
        }
        // few changes
        _ => {
            for _ in 0..rng.below(7) {
                let cell = inputs::place(rng);
                wanted[cell] = wanted_code(c, rng);
            }
        }
    }
    wanted
}

/// These fonts in all cells but at most two, so that few cells are wrong.
pub fn nearly(fonts: [u8; CELLS], rng: &mut Rng) -> [u8; CELLS] {
    let mut near = fonts;
    for _ in 0..rng.below(3) {
        let cell = rng.below(CELLS);
        near[cell] = 1 - fonts[cell];
    }
    near
}
