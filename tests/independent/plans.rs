//! Plans many pictures with sign_plan and compares the bytes with the independent planner; runs them on
//! both interpreters, which must show the picture; confirms the fewest bytes by two further searches.
//! Linked with libsign.a.

mod inputs;
mod module;
mod pictures;
mod report;
mod rng;
mod sign;

use module::*;
use pictures::*;

fn main() {
    let mut p = Pictures::new(4);
    // nothing to write: from every cursor to every cursor
    for (from, to) in pairs() {
        let mut c = Condition::power_up((from % 2) as u8);
        c.cursor = from;
        let blank = Wanted::in_one_font(&c, [0x20; CELLS], to);
        p.try_picture(&c, &blank);
        if from % 4 == 0 || to % 5 == 0 {
            p.try_all(&c, &blank, 3);
        }
    }
    // one cell: from every cursor, every cell
    for (from, cell) in pairs() {
        let mut c = Condition::power_up(0);
        c.cursor = from;
        let mut codes = [0x20; CELLS];
        codes[cell] = 0x41;
        let asked = p.rng.below(CELLS);
        p.try_picture(&c, &Wanted::in_one_font(&c, codes, asked));
    }
    // all cells, and all cells but one, from every cursor to every cursor
    for (from, to) in pairs() {
        let mut c = Condition::power_up(1);
        c.cursor = from;
        let mut wanted = Wanted::in_one_font(&c, [0x41; CELLS], to);
        p.try_picture(&c, &wanted);
        wanted.codes[p.rng.below(CELLS)] = 0x20;
        p.try_picture(&c, &wanted);
    }
    // a full glass, and one that is blank but for a few cells, to a blank picture: from every cursor to every
    // cursor
    for (from, to) in pairs() {
        let mut c = Condition::power_up(1);
        c.cursor = from;
        c.codes = [0x41; CELLS];
        p.try_picture(&c, &Wanted::in_one_font(&c, [0x20; CELLS], to));
        // few cells to blank: ties, and lengths on either side of one
        c.codes = [0x20; CELLS];
        for _ in 0..1 + p.rng.below(5) {
            c.codes[p.rng.below(CELLS)] = 0x41;
        }
        p.try_picture(&c, &Wanted::in_one_font(&c, [0x20; CELLS], to));
        if from % 8 == 0 {
            p.try_all(&c, &Wanted::in_one_font(&c, [0x20; CELLS], to), 4);
        }
    }
    // from a full glass to a short notice, from every cursor; in half of them a user character sits on 0Eh,
    // wanted or not
    for i in 0..6_000 {
        let mut c = start(&mut p.rng, &PLANNERS_CODES);
        if i % 2 == 1 {
            user_on_clear(&mut c);
        }
        full(&mut c, &mut p.rng);
        c.cursor = i / 2 % CELLS;
        let mut codes = notice(&c, &mut p.rng);
        if c.is_user(CLEAR) && p.rng.once_in(2) {
            codes[p.rng.pick(&[0, c.cursor, 20])] = CLEAR;
        }
        let asked = p.rng.below(CELLS);
        p.try_picture(&c, &Wanted::in_one_font(&c, codes, asked));
    }
    // pictures of every kind, from conditions of every kind
    for i in 0..20_000 {
        let mut c = start(&mut p.rng, &PLANNERS_CODES);
        c.cursor = i % CELLS;
        let codes = some_codes(&c, &mut p.rng);
        if p.rng.once_in(2) {
            c.fonts = nearly([c.font; CELLS], &mut p.rng);
        }
        p.try_picture(&c, &Wanted::in_one_font(&c, codes, i / CELLS % CELLS));
    }
    // small differences: every string is tried, of either kind of start
    for i in 0..3_000 {
        let mut c = start(&mut p.rng, &PLANNERS_CODES);
        c.cursor = p.rng.below(CELLS);
        c.codes = kept(&c);
        c.fonts = [c.font; CELLS];
        let mut codes = c.codes;
        let near = if p.rng.once_in(3) { c.cursor } else { p.rng.below(CELLS) };
        for _ in 0..p.rng.below(4) {
            let cell = (near + p.rng.below(3)) % CELLS;
            if p.rng.once_in(4) {
                c.fonts[cell] = 1 - c.font;
            } else {
                codes[cell] = wanted_code(&c, &mut p.rng);
            }
        }
        let asked = if p.rng.once_in(2) {
            p.rng.below(CELLS)
        } else {
            (near + p.rng.below(5)) % CELLS
        };
        let wanted = Wanted::in_one_font(&c, codes, asked);
        p.try_picture(&c, &wanted);
        p.try_all(&c, &wanted, if i % 20 == 0 { 6 } else { 5 });
    }
    let least = AtLeast {
        plans: 38_600,
        clears: 9_500,
        ties: 200,
        barred: 3_400,
        searched: 2_600,
        strings: 24_000_000,
    };
    p.end("plans", 44, least);
}
