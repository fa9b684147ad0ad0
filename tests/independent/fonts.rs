//! Plans many pictures of two fonts with sign_plan_fonts and compares the bytes with the independent
//! planner; runs them on both interpreters, which must show the picture and leave all but the selected font
//! as it was; confirms the fewest bytes by two further searches. Linked with libsign.a.

mod inputs;
mod module;
mod pictures;
mod report;
mod rng;
mod sign;

use module::*;
use pictures::*;
use report::hex;
use rng::Rng;

/// Fonts of every kind to want.
fn some_fonts(c: &Condition, rng: &mut Rng) -> [u8; CELLS] {
    let kind = rng.below(8);
    let first = rng.below(2) as u8;
    let (mut font, mut left) = (first, 0);
    let mut fonts = c.fonts;
    for (p, f) in fonts.iter_mut().enumerate() {
        if left == 0 {
            font = 1 - font;
            left = 1 + rng.below(9);
        }
        left -= 1;
        match kind {
            // one font; every cell another than the one before; Katakana below and Latin above
            0 => *f = first,
            1 => *f = first ^ (p % 2) as u8,
            2 => *f = (p >= 20) as u8,
            // random; words in turn
            3 => *f = rng.below(2) as u8,
            4 => *f = font,
            // the cells' own, some with few changes
            5 => {}
            _ if rng.once_in(12) => *f ^= 1,
            _ => {}
        }
    }
    fonts
}

/// Where the selected font is wanted everywhere, both planners of the product give the same bytes.
fn as_with_one_font(p: &mut Pictures, c: &Condition, wanted: &Wanted) {
    let (block, asked) = (c.to_block(), wanted.asked as u32);
    let (mut one, mut two) = ([0; FONTS_ROOM], [0; FONTS_ROOM]);
    let a = sign::plan(&block, &wanted.codes, asked, &mut one);
    let b = sign::plan_fonts(&block, &wanted.codes, &[c.font; CELLS], asked, &mut two);
    p.report.expect(a == b && one == two, || {
        format!("one font: sign_plan {} and sign_plan_fonts {}", hex(&one), hex(&two))
    });
}

fn main() {
    let mut p = Pictures::new(5);
    // nothing to write, whatever font is selected: from every cursor to every cursor
    for (from, to) in pairs() {
        let mut c = Condition::power_up((from % 2) as u8);
        c.cursor = from;
        c.font = (to % 2) as u8;
        c.euro = from / 2 % 2 == 1;
        let same = Wanted::in_two_fonts(c.codes, c.fonts, to);
        p.try_picture(&c, &same);
        if from % 4 == 0 || to % 5 == 0 {
            p.try_all(&c, &same, 3);
        }
    }
    // one cell: from every cursor, every cell in each font
    for (from, cell) in pairs() {
        for font in 0..2 {
            let mut c = Condition::power_up(0);
            c.cursor = from;
            c.font = (from / 2 + cell) as u8 % 2;
            c.euro = (from + cell) % 2 == 1;
            let asked = p.rng.below(CELLS);
            let mut wanted = Wanted::in_two_fonts(c.codes, c.fonts, asked);
            wanted.codes[cell] = 0x41;
            wanted.fonts[cell] = font;
            p.try_picture(&c, &wanted);
        }
    }
    // every cell needs a switch, and one is right already: from every cursor to every cursor
    for (from, to) in pairs() {
        let mut c = Condition::power_up((from + to) as u8 % 2);
        c.cursor = from;
        c.euro = from % 4 != 0;
        let mut fonts = [c.font; CELLS];
        fonts.iter_mut().step_by(2).for_each(|f| *f = 1 - c.font);
        let mut wanted = Wanted::in_two_fonts([0x41; CELLS], fonts, to);
        p.try_picture(&c, &wanted);
        let right = p.rng.below(CELLS);
        wanted.codes[right] = 0x20;
        wanted.fonts[right] = c.font;
        p.try_picture(&c, &wanted);
    }
    // a full glass to a blank picture, in the selected font and wholly in the other: from every cursor to
    // every cursor
    for (from, to) in pairs() {
        let mut c = Condition::power_up((from + to) as u8 % 2);
        c.cursor = from;
        c.euro = from % 3 != 0;
        c.codes = [0x41; CELLS];
        for font in 0..2 {
            p.try_picture(&c, &Wanted::in_two_fonts([0x20; CELLS], [font; CELLS], to));
        }
        // few cells to blank: ties, and lengths on either side of one
        c.codes = [0x20; CELLS];
        for _ in 0..1 + p.rng.below(5) {
            let cell = p.rng.below(CELLS);
            c.codes[cell] = 0x41;
            if p.rng.once_in(6) {
                c.fonts[cell] = 1 - c.font;
            }
        }
        let blank = Wanted::in_two_fonts([0x20; CELLS], [c.font; CELLS], to);
        p.try_picture(&c, &blank);
        if from % 8 == 0 {
            p.try_all(&c, &blank, 4);
        }
    }
    // from a full glass to a short notice, from every cursor; in half of them a user character sits on 0Eh,
    // wanted or not
    for i in 0..6_000 {
        let mut c = start(&mut p.rng, &FONTS_CODES);
        if i % 2 == 1 {
            user_on_clear(&mut c);
        }
        full(&mut c, &mut p.rng);
        c.cursor = i / 2 % CELLS;
        let mut codes = notice(&c, &mut p.rng);
        if c.is_user(CLEAR) && p.rng.once_in(2) {
            codes[p.rng.pick(&[0, c.cursor, 20])] = CLEAR;
        }
        // most cells in the selected font, so that the clear is of use
        let mut fonts = nearly([c.font; CELLS], &mut p.rng);
        if p.rng.once_in(4) {
            fonts = some_fonts(&c, &mut p.rng);
        }
        let wanted = Wanted::in_two_fonts(codes, fonts, p.rng.below(CELLS));
        p.try_picture(&c, &wanted);
        as_with_one_font(&mut p, &c, &wanted);
    }
    // pictures of every kind, from conditions of every kind
    for i in 0..20_000 {
        let mut c = start(&mut p.rng, &FONTS_CODES);
        c.cursor = i % CELLS;
        let codes = some_codes(&c, &mut p.rng);
        let wanted = Wanted::in_two_fonts(codes, some_fonts(&c, &mut p.rng), i / CELLS % CELLS);
        if p.rng.once_in(3) {
            c.fonts = nearly(wanted.fonts, &mut p.rng);
        }
        p.try_picture(&c, &wanted);
        as_with_one_font(&mut p, &c, &wanted);
    }
    // small differences: every string with switches is tried, of either kind of start
    for i in 0..3_000 {
        let mut c = start(&mut p.rng, &FONTS_CODES);
        c.cursor = p.rng.below(CELLS);
        c.codes = kept(&c);
        c.euro = i % 2 == 0;
        let near = if p.rng.once_in(4) { p.rng.below(CELLS) } else { c.cursor };
        let far = p.rng.pick(&[CELLS, 5, 5]);
        let asked = (near + p.rng.below(far)) % CELLS;
        let mut wanted = Wanted::in_two_fonts(c.codes, c.fonts, asked);
        for _ in 0..1 + p.rng.below(3) {
            let cell = (near + p.rng.below(3)) % CELLS;
            wanted.fonts[cell] = p.rng.below(2) as u8;
            if p.rng.once_in(2) {
                wanted.codes[cell] = wanted_code(&c, &mut p.rng);
            }
        }
        p.try_picture(&c, &wanted);
        p.try_all(&c, &wanted, if i % 20 < 2 { 6 } else { 5 });
    }
    let least = AtLeast {
        plans: 41_800,
        clears: 7_500,
        ties: 80,
        barred: 3_200,
        searched: 2_500,
        strings: 50_000_000,
    };
    p.end("fonts", 104, least);
}
