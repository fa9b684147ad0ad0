//! The independent program alone: the fifteen cases of the bench sheet, the sample, and the rules of
//! document 01 and of requests W1 to W8, W10 and W11 that it can be held to by itself. It uses nothing of the
//! product but the table of move lengths, which is data.

mod inputs;
mod module;
mod old_inputs;
mod old_module;
mod report;
mod rng;

use module::*;
use old_inputs::written;
use report::{hex, Report};
use rng::Rng;

fn after(bytes: &[u8]) -> (Condition, Tally) {
    run(&Condition::power_up(0), &Tally::ZERO, bytes).expect("an accepted run")
}

/// A picture: all blank but for these cells.
fn picture(cells: &[(usize, u8)]) -> [u8; CELLS] {
    let mut p = [0x20; CELLS];
    for &(i, c) in cells {
        p[i] = c;
    }
    p
}

fn bench(r: &mut Report, n: u32, holds: bool) {
    r.cases += 1;
    r.expect(holds, || format!("bench sheet, case {}", n));
}

fn bench_sheet(r: &mut Report, moves: &Moves) {
    let start = Condition::power_up(0);

    let (c, t) = after(&[]);
    bench(r, 1, c == start && t == Tally::ZERO);

    let (c, t) = after(&[0x41]);
    bench(r, 2, c.codes == picture(&[(0, 0x41)]) && c.cursor == 1 && t.busy == 7);

    let (c, t) = after(&[0x1B, 0x48, 0x27, 0x42]);
    bench(r, 3, c.codes == picture(&[(39, 0x42)]) && c.cursor == 0 && t.busy == 21);

    let (c, t) = after(&[0x12, 0x1B, 0x48, 0x27, 0x42]);
    bench(
        r,
        4,
        c.codes == picture(&[(19, 0x42)]) && c.cursor == 20 && t.busy == 40,
    );

    let (c, t) = after(&[0x13, 0x1B, 0x48, 0x13, 0x41, 0x42]);
    bench(
        r,
        5,
        c.codes == picture(&[(18, 0x41), (19, 0x42)]) && c.cursor == 19 && t.busy == 47,
    );

    let (c, t) = after(&[0x1B, 0x48, 0x28]);
    bench(r, 6, c == start && t.busy == 14);

    let (c, t) = after(&[0x1B, 0x43, 0x21, 0x84, 0x10, 0x02, 0x00, 0x01]);
    let lit: Vec<usize> = (1..=35).filter(|&k| c.dot(0x21, k) == Ok(true)).collect();
    bench(
        r,
        7,
        lit == [3, 8, 13, 18, 33] && c.lit(0x21) == Ok(5) && c.underline(0x21) == Ok(false) && t.busy == 55,
    );

    let (c, _) = after(&[0x1B, 0x48, 0x14, 0x08]);
    bench(r, 8, c.cursor == 20);

    let (c, _) = after(&[0x1A, 0xAD]);
    let (d, _) = after(&[0x1A, 0xAD, 0x18]);
    bench(r, 9, c.shows(0) == Shows::Euro && d.shows(0) == Shows::Blank);

    let (c, _) = after(&[0x1B, 0x43, 0x09, 0, 0, 0, 0, 0, 0x09]);
    let refused = (0..CELLS as u32).all(|k| plan(&c, &c.codes, k, moves) == Err(8));
    bench(r, 10, c.codes == picture(&[(0, 0x09)]) && c.cursor == 1 && refused);

    let wanted = picture(&[(0, 0x41), (21, 0x42)]);
    let eleven = plan(&start, &wanted, 0, moves);
    bench(r, 11, eleven == Ok(vec![0x41, 0x0A, 0x42, 0x0C]));

    let (c, _) = after(&eleven.unwrap_or_default());
    bench(r, 12, plan(&c, &wanted, 0, moves) == Ok(vec![]));

    let (c, _) = after(&[0x1B, 0x48, 0x05]);
    let mut thirteen = vec![0x0C];
    thirteen.extend_from_slice(&[0x41; 40]);
    thirteen.extend_from_slice(&[0x1B, 0x48, 0x27]);
    bench(
        r,
        13,
        thirteen.len() == 44 && plan(&c, &[0x41; 40], 39, moves) == Ok(thirteen),
    );

    let (c, _) = after(&[0x1B, 0x48, 0x14]);
    bench(r, 14, plan(&c, &[0x20; 40], 19, moves) == Ok(vec![0x1B, 0x48, 0x13]));

    // 16 held, the oldest defined again, a new one: the former second is gone
    let mut bytes = Vec::new();
    for code in 0x80..=0x8F {
        bytes.extend(inputs::define(code, [0; 5]));
    }
    bytes.extend(inputs::define(0x80, [5; 5]));
    bytes.extend(inputs::define(0x90, [0; 5]));
    let (c, t) = after(&bytes);
    let codes: Vec<u8> = c.users[..c.count].iter().map(|u| u.code).collect();
    let left: Vec<u8> = (0x82..=0x8F).chain([0x80, 0x90]).collect();
    bench(r, 15, codes == left && c.users[14].dots == [5; 5] && t.busy == 990);
}

fn sample(r: &mut Report) {
    let expected = "41 20 20 20 20 20 20 20 20 20 20 20 20 20 20 20 20 20 20 20\n\
                    20 42 20 20 20 20 20 20 20 20 20 20 20 20 20 20 20 20 20 20\n\
                    cursor 0 mode 1 font 0\n\
                    bytes 4 busy 26 flickerless 0 worst 26\n";
    r.cases += 1;
    r.expect(show(&[0x41, 0x0A, 0x42, 0x0C]) == expected, || "the sample".to_string());
    r.cases += 1;
    r.expect(show(&[0x41; 32_769]) == "refused 4\n", || {
        "the refused sample".to_string()
    });
}

/// Short strings worked out by hand from the papers: bytes, cursor, busy, flickerless, worst, cells not blank.
fn worked_examples(r: &mut Report) {
    type Example<'a> = (&'a [u8], usize, u64, u64, u64, &'a [(usize, u8)]);
    let examples: [Example; 25] = [
        // an unknown byte after ESC is dropped, 1Bh too
        (&[0x1B, 0x1B, 0x49], 1, 19, 0, 19, &[(0, 0x49)]),
        (&[0x1B, 0x41, 0x42], 1, 19, 0, 19, &[(0, 0x42)]),
        // a parameter is a parameter, though its code is a user character
        (&[0x1B, 0x43, 0x48, 1, 2, 3, 4, 5, 0x1B, 0x48, 0x05], 5, 69, 0, 69, &[]),
        (&[0x1B, 0x43, 0x41, 0x0C, 0x0E, 0x1B, 0x49, 0xFF], 0, 55, 0, 55, &[]),
        // mode 3: what ends scroll-on and what leaves it
        (&[0x13, 0x1B, 0x48, 0x13, 0x41, 0x0E, 0x42], 19, 99, 0, 99, &[(19, 0x42)]),
        (&[0x13, 0x1B, 0x48, 0x13, 0x41, 0x13, 0x42], 19, 40, 0, 40, &[(19, 0x42)]),
        (
            &[0x13, 0x1B, 0x48, 0x13, 0x41, 0x09, 0x42],
            19,
            53,
            0,
            53,
            &[(18, 0x41), (19, 0x42)],
        ),
        (
            &[0x13, 0x1B, 0x48, 0x13, 0x41, 0x1B, 0x48, 0x28, 0x42],
            19,
            61,
            0,
            61,
            &[(18, 0x41), (19, 0x42)],
        ),
        (
            &[0x13, 0x1B, 0x48, 0x13, 0x41, 0x1B, 0x48, 0x13, 0x42],
            19,
            48,
            0,
            48,
            &[(19, 0x42)],
        ),
        (&[0x13, 0x1B, 0x48, 0x27, 0x41, 0x0A, 0x42], 39, 40, 0, 40, &[(39, 0x42)]),
        (
            &[0x13, 0x1B, 0x48, 0x13, 0x41, 0x0A, 0x42],
            39,
            40,
            0,
            40,
            &[(19, 0x41), (39, 0x42)],
        ),
        // mode 2: 0Ah and 09h scroll
        (&[0x1B, 0x48, 0x14, 0x41, 0x12, 0x0A], 21, 47, 0, 47, &[(0, 0x41)]),
        (
            &[0x1B, 0x48, 0x27, 0x41, 0x12, 0x1B, 0x48, 0x27, 0x09],
            20,
            61,
            0,
            61,
            &[(19, 0x41)],
        ),
        // mode 1: both ends
        (&[0x1B, 0x48, 0x27, 0x09], 0, 20, 0, 20, &[]),
        (&[0x1B, 0x48, 0x13, 0x09], 20, 20, 0, 20, &[]),
        (&[0x1B, 0x48, 0x19, 0x0A], 5, 20, 0, 20, &[]),
        (&[0x1B, 0x48, 0x19, 0x0D], 20, 20, 0, 20, &[]),
        // a clear keeps the cursor, 0Ch keeps the cells
        (&[0x41, 0x42, 0x0E], 2, 79, 0, 79, &[]),
        (&[0x41, 0x42, 0x0C], 0, 20, 0, 20, &[(0, 0x41), (1, 0x42)]),
        // flickerless: the 53h that turns it on is not counted, the 49h that turns it off is
        (&[0x1B, 0x53, 0x41, 0x1B, 0x53], 1, 31, 3, 631, &[(0, 0x41)]),
        (&[0x1B, 0x53, 0x1B, 0x49, 0x41], 1, 65, 2, 465, &[(0, 0x41)]),
        // and at the worst each byte counted so takes 200 longer: ignored ones, parameters, a second 53h too
        (&[0x1B, 0x53, 0x41, 0x0B, 0x1B, 0x49], 0, 71, 4, 871, &[]),
        (&[0x1B, 0x53, 0x1B, 0x53, 0x1B, 0x54, 0x07], 0, 40, 5, 1040, &[]),
        (&[0x1B, 0x53, 0x1B, 0x43, 0x21, 1, 2, 3, 4, 5], 0, 67, 8, 1667, &[]),
        (&[0x00, 0x07, 0x0B, 0x10, 0x1C, 0x1F], 0, 36, 0, 36, &[]),
    ];
    for (bytes, cursor, busy, flickerless, worst, cells) in examples {
        let (c, t) = after(bytes);
        r.cases += 1;
        let tally = Tally {
            bytes: bytes.len() as u64,
            busy,
            flickerless,
            worst,
        };
        r.expect(c.cursor == cursor && t == tally && c.codes == picture(cells), || {
            format!("example {}", hex(bytes))
        });
    }
    // user characters: the fifth byte is cut; the seventeenth ends the oldest, and a redefinition none, but is the youngest
    let (c, _) = after(examples[3].0);
    r.cases += 1;
    r.expect(
        c.users[0]
            == User {
                code: 0x41,
                dots: [0x0C, 0x0E, 0x1B, 0x49, 0x0F],
            },
        || "user bytes".to_string(),
    );
    let mut bytes = Vec::new();
    for code in [
        0x0C, 0x80, 0x81, 0x82, 0x83, 0x84, 0x85, 0x86, 0x87, 0x88, 0x89, 0x8A, 0x8B, 0x8C, 0x8D, 0x8E, 0x80,
    ] {
        bytes.extend_from_slice(&[0x1B, 0x43, code, 0, 0, 0, 0, 0]);
    }
    let (c, _) = after(&[&bytes[..], &[0x41, 0x0C]].concat());
    r.cases += 1;
    r.expect(c.count == 16 && c.codes == picture(&[(0, 0x41), (1, 0x0C)]), || {
        "sixteen user characters".to_string()
    });
    bytes.extend_from_slice(&[0x1B, 0x43, 0x0E, 0, 0, 0, 0, 0, 0x41, 0x0E, 0x0C]);
    let (c, _) = after(&bytes);
    let right = c.codes == picture(&[(0, 0x41), (1, 0x0E)]) && c.cursor == 0 && c.users[0].code == 0x81 && c.users[14].code == 0x80;
    r.cases += 1;
    r.expect(right, || "the seventeenth user character".to_string());
    // fonts and the Euro mark
    let (c, _) = after(&[0x1A, 0x19, 0x0E]);
    r.cases += 1;
    r.expect(c.euro && c.font == 1 && c.fonts == [1; CELLS], || {
        "19h, and a clear".to_string()
    });
    let (c, _) = after(&[0x1A, 0x19, 0x0E, 0x1B, 0x49]);
    r.cases += 1;
    r.expect(c == Condition::power_up(0), || "Initialise".to_string());
    let (c, _) = after(&[0x1B, 0x4C, 0x40, 0x1B, 0x54, 0x00, 0x15]);
    r.cases += 1;
    r.expect(c.luminance == 1 && c.speed == 0 && c.shown, || {
        "luminance, speed, cursor".to_string()
    });
}

/// The table of move lengths that the product had until it worked them out: rows of 40 digits.
fn move_table() -> Vec<Vec<usize>> {
    let sheet = include_str!("../../crates/bench_sheet/specs/MoveSheet.antt");
    let row = |line: &str| -> Vec<usize> { line.bytes().map(|digit| (digit - b'0') as usize).collect() };
    sheet.lines().filter_map(|line| line.split("digits \"").nth(1)?.strip_suffix('"')).map(row).collect()
}

/// The table of move lengths has these numbers, and its rule holds: 0 exactly from a place to itself, otherwise
/// the least over first moves of that move's bytes plus the number from where it leads.
fn move_rule(r: &mut Report, moves: &Moves) {
    let table = move_table();
    r.expect(table.len() == CELLS && table.iter().all(|row| row.len() == CELLS), || {
        "the move table has not 40 rows of 40 numbers".to_string()
    });
    let lands = |from: usize, bytes: &[u8]| {
        let mut c = Condition::power_up(0);
        c.cursor = from;
        for &b in bytes {
            c.take(b);
        }
        c.cursor
    };
    for a in 0..CELLS {
        for b in 0..CELLS {
            let number = moves.path(a, b).len();
            let mut least = usize::MAX;
            for &m in &SINGLE_MOVES {
                least = least.min(1 + moves.path(lands(a, &[m]), b).len());
            }
            for p in 0..CELLS {
                least = least.min(3 + moves.path(lands(a, &[0x1B, 0x48, p as u8]), b).len());
            }
            let rule = if a == b {
                number == 0
            } else {
                number == least && number > 0
            };
            r.cases += 1;
            r.expect(rule && number <= 3, || format!("the fewest move bytes from {} to {}", a, b));
            r.expect(table.get(a).and_then(|row| row.get(b)) == Some(&number), || {
                format!("the move table from {} to {}", a, b)
            });
            r.expect(lands(a, moves.path(a, b)) == b, || {
                format!("the way from {} to {}", a, b)
            });
        }
    }
    let examples: [(usize, usize, &[u8]); 3] = [(1, 20, &[0x08, 0x0A]), (5, 0, &[0x0C]), (20, 19, &[0x1B, 0x48, 0x13])];
    for (a, b, path) in examples {
        r.cases += 1;
        r.expect(moves.path(a, b) == path, || format!("the way from {} to {}", a, b));
    }
}

/// Any condition in mode 1 with nothing half received; without its user characters where these are in the way.
fn can_be_planned(rng: &mut Rng, in_the_way: impl Fn(&Condition) -> bool) -> Condition {
    let mut c = inputs::any_condition(rng);
    c.mode = 1;
    c.scroll_on = false;
    c.half = Half::Nothing;
    if in_the_way(&c) {
        c.users = Condition::power_up(0).users;
        c.count = 0;
    }
    c
}

/// Plans of two fonts worked out by hand: the bytes before, from power-up; the cells that are then wanted
/// otherwise, with code and font; the asked cursor; the plan.
fn two_fonts(r: &mut Report, moves: &Moves) {
    type Example<'a> = (&'a [u8], &'a [(usize, u8, u8)], u32, &'a [u8]);
    let four = [(0, 0x41, 1), (1, 0x42, 0), (2, 0x43, 1), (3, 0x44, 0)];
    let examples: [Example; 12] = [
        // there and back, with Euro on and off
        (
            &[0x1A],
            &four,
            4,
            &[0x19, 0x41, 0x18, 0x1A, 0x42, 0x19, 0x43, 0x18, 0x1A, 0x44],
        ),
        (&[], &four, 4, &[0x19, 0x41, 0x18, 0x42, 0x19, 0x43, 0x18, 0x44]),
        // Katakana is selected: the first switch goes back
        (&[0x19, 0x0E], &[(0, 0x41, 0)], 1, &[0x18, 0x41]),
        (&[0x1A, 0x19, 0x0E], &[(0, 0x41, 0)], 1, &[0x18, 0x1A, 0x41]),
        (&[0x19], &[(0, 0x41, 1)], 1, &[0x41]),
        // nothing is wrong: only moves, though no cell has the selected font
        (&[0x19], &[], 0, &[]),
        (&[0x1A, 0x19, 0x1B, 0x48, 0x14], &[], 19, &[0x1B, 0x48, 0x13]),
        // the switch comes after the moves
        (&[], &[(21, 0x41, 1)], 22, &[0x09, 0x0A, 0x19, 0x41]),
        (&[], &[(39, 0x41, 1)], 0, &[0x1B, 0x48, 0x27, 0x19, 0x41]),
        // only the font is wrong
        (&[], &[(0, 0x20, 1)], 1, &[0x19, 0x20]),
        // a right cell of the other font needs no switch
        (&[], &[(0, 0x41, 1), (2, 0x42, 1)], 3, &[0x19, 0x41, 0x09, 0x42]),
        (
            &[0x1A],
            &[(0, 0x41, 1), (2, 0x42, 0)],
            3,
            &[0x19, 0x41, 0x09, 0x18, 0x1A, 0x42],
        ),
    ];
    for (before, cells, asked, expected) in examples {
        let (c, _) = after(before);
        let (mut codes, mut fonts) = (c.codes, c.fonts);
        for &(p, code, font) in cells {
            codes[p] = code;
            fonts[p] = font;
        }
        r.cases += 1;
        let got = plan_fonts(&c, &codes, &fonts, asked, moves);
        r.expect(got.as_deref() == Ok(expected), || {
            format!("two fonts, {} and not {:02X?}", hex(expected), got)
        });
    }
    // Katakana on the lower line, Latin above
    let wanted = picture(&[(0, 0x41), (1, 0x42), (20, 0xB1), (21, 0xB2)]);
    let mut fonts = [0; CELLS];
    fonts[20..].fill(1);
    let lounge = [&[0x41, 0x42, 0x0A, 0x0D, 0x19, 0xB1, 0xB2][..], &[0x20; 18]].concat();
    r.cases += 1;
    r.expect(
        plan_fonts(&after(&[]).0, &wanted, &fonts, 0, moves) == Ok(lounge),
        || "Katakana on the lower line".to_string(),
    );
    // the longest: every cell with a switch, every second one of two bytes; from either font
    let (c, _) = after(&[0x1A, 0x1B, 0x48, 0x05]);
    let (d, _) = after(&[0x1A, 0x19, 0x0E, 0x1B, 0x48, 0x05]);
    for (c, there, pair) in [
        (c, [1, 0], [0x19, 0x41, 0x18, 0x1A, 0x41]),
        (d, [0, 1], [0x18, 0x1A, 0x41, 0x19, 0x41]),
    ] {
        let mut fonts = [0; CELLS];
        fonts.iter_mut().enumerate().for_each(|(p, f)| *f = there[p % 2]);
        let longest = [&[0x0C][..], &pair.repeat(20), &[0x1B, 0x48, 0x27]].concat();
        r.cases += 1;
        r.expect(
            longest.len() == 104 && plan_fonts(&c, &[0x41; CELLS], &fonts, 39, moves) == Ok(longest),
            || format!("the longest plan, from font {}", c.font),
        );
    }
    for (switches, most) in [(false, 44), (true, 104)] {
        r.cases += 1;
        r.expect(longest_plan(moves, switches) == most, || {
            format!("no plan is longer than {} bytes", most)
        });
    }
    // the selected font wanted everywhere: the plan of one font
    let mut rng = Rng::new(2);
    for _ in 0..2_000 {
        let c = can_be_planned(&mut rng, |_| true);
        let codes = [0; CELLS].map(|_: u8| 0x20 + rng.below(2) as u8);
        let asked = rng.below(CELLS) as u32;
        let one = plan(&c, &codes, asked, moves);
        r.cases += 1;
        r.expect(
            one.is_ok() && one == plan_fonts(&c, &codes, &[c.font; CELLS], asked, moves),
            || format!("two fonts: otherwise than with one font from {:?}", c),
        );
    }
}

/// The longest plan of all: over every set of wrong cells, the fonts they are wanted in, the font selected
/// before, the cursor before and after, with Euro on.
fn longest_plan(moves: &Moves, switches: bool) -> usize {
    // by selected font and cursor, with the cells so far right or written
    let mut longest = [[0; CELLS]; 2];
    for p in 0..CELLS {
        let mut next = longest;
        for (before, font) in [(0, 0), (0, 1), (1, 0), (1, 1)] {
            if switches || before == font {
                let switch = [[0, 1], [2, 0]][before][font];
                let bytes = (0..CELLS).map(|at| longest[before][at] + moves.path(at, p).len() + switch + 1);
                let written = &mut next[font][(p + 1) % CELLS];
                *written = bytes.max().unwrap().max(*written);
            }
        }
        longest = next;
    }
    let ends = (0..2 * CELLS * CELLS).map(|i| {
        let (font, at, asked) = (i % 2, i / 2 % CELLS, i / 2 / CELLS);
        longest[font][at] + moves.path(at, asked).len()
    });
    ends.max().unwrap()
}

/// Plans that may start from a clear, worked out by hand: bytes before, the cells that are not 20h in the
/// selected font, asked cursor, the plan. Where no cell has another font both planners give it.
fn from_a_clear(r: &mut Report, moves: &Moves) {
    type Cells<'a> = &'a [(usize, u8, u8)];
    let user = inputs::define(0x0E, [0; 5]);
    let full = |before: &[u8]| [before, &[0x41; CELLS]].concat();
    let blanks = |first: &[u8], n: usize| [first, &vec![0x20; n]].concat();
    let examples: [(Vec<u8>, Cells, u32, Vec<u8>); 11] = [
        // one character, or none, on a full glass; the moves start at the kept cursor
        (full(&[]), &[(0, 0x42, 0)], 0, vec![0x0E, 0x42, 0x08]),
        (full(&[]), &[], 0, vec![0x0E]),
        (full(&[0x1B, 0x48, 0x07]), &[(7, 0x42, 0)], 8, vec![0x0E, 0x42]),
        (full(&[]), &[(39, 0x42, 0)], 0, vec![0x0E, 0x1B, 0x48, 0x27, 0x42]),
        // cleared in the font that is selected at the start
        (full(&[0x19]), &[(0, 0x42, 1)], 1, vec![0x0E, 0x42]),
        (full(&[0x19, 0x1A]), &[(0, 0x42, 0)], 1, vec![0x0E, 0x18, 0x1A, 0x42]),
        // a tie, and one byte more and less than one
        (vec![0x41, 0x0C], &[], 5, vec![0x20, 0x1B, 0x48, 0x05]),
        (vec![0x41], &[], 1, vec![0x0E]),
        (vec![0x41, 0x0C], &[], 1, vec![0x20]),
        // a user character on 0Eh: not wanted, and wanted
        (full(&user), &[(0, 0x42, 0)], 0, blanks(&[0x42], 39)),
        (full(&user), &[(0, 0x0E, 0)], 0, blanks(&[0x0E], 39)),
    ];
    for (before, cells, asked, expected) in &examples {
        let (c, _) = after(before);
        let (mut codes, mut fonts) = ([0x20; CELLS], [c.font; CELLS]);
        for &(p, code, font) in *cells {
            codes[p] = code;
            fonts[p] = font;
        }
        r.cases += 1;
        let got = plan_fonts(&c, &codes, &fonts, *asked, moves);
        let alike = fonts != [c.font; CELLS] || got == plan(&c, &codes, *asked, moves);
        r.expect(alike && got.as_ref() == Ok(expected), || {
            format!("from a clear, {} and not {:02X?}", hex(expected), got)
        });
    }
    // wholly in the other font: no help from the clear
    let (c, _) = after(&full(&[]));
    r.cases += 1;
    r.expect(
        plan_fonts(&c, &[0x20; CELLS], &[1; CELLS], 0, moves) == Ok(blanks(&[0x19], 40)),
        || "a blank picture in the other font".to_string(),
    );
}

/// The refusals of the planner of two fonts: what is lent, from power-up after these bytes, and the answer.
fn two_fonts_refused(r: &mut Report, moves: &Moves) {
    type Example<'a> = (&'a [u8], u8, usize, u32, usize, u32);
    // bytes before, a wanted font, how many fonts, asked cursor, room, answer
    let examples: [Example; 14] = [
        (&[], 0, 40, 0, 104, 0),
        (&[], 0, 40, 0, 103, 256 + 10),
        (&[], 0, 39, 40, 0, 256 + 1),
        (&[], 0, 41, 0, 104, 256 + 1),
        (&[], 2, 40, 0, 104, 256 + 3),
        (&[], 0, 40, 40, 104, 256 + 3),
        (&[0x1B], 255, 40, 0, 104, 256 + 3),
        (&[0x12, 0x1B], 0, 40, 0, 104, 256 + 6),
        (&[0x12], 0, 40, 0, 0, 256 + 7),
        (&[0x1B, 0x43, 0x18, 0, 0, 0, 0, 0], 0, 40, 0, 104, 256 + 8),
        (&[0x1B, 0x43, 0x19, 0, 0, 0, 0, 0], 0, 40, 0, 104, 256 + 8),
        (&[0x1B, 0x43, 0x1A, 0, 0, 0, 0, 0], 0, 40, 0, 103, 256 + 8),
        (&[0x1B, 0x43, 0x0D, 0, 0, 0, 0, 0], 0, 40, 0, 104, 256 + 8),
        (&[0x1B, 0x43, 0x17, 0, 0, 0, 0, 0], 0, 40, 0, 104, 0),
    ];
    for (before, font, count, asked, room, answer) in examples {
        let (c, _) = after(before);
        let mut fonts = vec![0; count];
        fonts[7] = font;
        let mut out = vec![0xEE; room];
        r.cases += 1;
        let got = host_plan_fonts(&c.to_block(), &c.codes, &fonts, asked, &mut out, moves);
        r.expect(got == answer && out.iter().all(|&x| x == 0xEE), || {
            format!("after {}: answer {} and not {}", hex(before), answer, got)
        });
    }
    // a user character on 18h, 19h or 1Ah stops only this planner; there it may be wanted
    let (c, _) = after(&[0x1B, 0x43, 0x19, 0, 0, 0, 0, 0]);
    r.cases += 1;
    r.expect(plan(&c, &picture(&[(0, 0x19)]), 1, moves) == Ok(vec![0x19]), || {
        "19h as a user character".to_string()
    });
}

/// The codes and the asked cursors of these pictures, as a reel is lent them.
fn lent(pictures: &[([u8; CELLS], u8)]) -> (Vec<u8>, Vec<u8>) {
    let codes = pictures.iter().flat_map(|&(codes, _)| codes).collect();
    (codes, pictures.iter().map(|&(_, asked)| asked).collect())
}

/// Reels worked out by hand: the bytes before, from power-up; the pictures; the bytes of each plan.
fn reels(r: &mut Report, moves: &Moves) {
    type Example<'a> = (&'a [u8], &'a [([u8; CELLS], u8)], &'a [&'a [u8]]);
    let blank = [0x20; CELLS];
    let one = picture(&[(0, 0x41)]);
    let both = picture(&[(0, 0x41), (1, 0x42)]);
    let two = picture(&[(0, 0x41), (21, 0x42)]);
    let user = inputs::define(0x01, [1; 5]);
    let on_clear = inputs::define(0x0E, [1; 5]);
    let (full, other) = ([0x41; CELLS], [0x42; CELLS]);
    // to cell 0 from 5 by 0Ch; from 39 by 09h, which is smaller
    let longest = |way: u8, codes: &[u8]| [&[way][..], codes, &[0x1B, 0x48, 0x27]].concat();
    let (first, second, third) = (longest(0x0C, &full), longest(0x09, &other), longest(0x09, &full));
    let examples: [Example; 9] = [
        (&[], &[], &[]),
        // a module that cannot be planned from may well have no pictures
        (&[0x12, 0x1B], &[], &[]),
        // the bench sheet's picture, again, and a blank one: the cursor is at 0 already, so the clear is enough
        (
            &[],
            &[(two, 0), (two, 0), (blank, 0)],
            &[&[0x41, 0x0A, 0x42, 0x0C], &[], &[0x0E]],
        ),
        // the cells and the cursor are where the plan before leaves them; the last is as long from a clear, a tie
        (
            &[],
            &[(one, 1), (both, 2), (two, 0)],
            &[&[0x41], &[0x42], &[0x08, 0x20, 0x08, 0x0A, 0x42, 0x0C]],
        ),
        // only the cursor goes on
        (
            &[],
            &[(blank, 20), (blank, 19), (blank, 0)],
            &[&[0x0A], &[0x1B, 0x48, 0x13], &[0x0C]],
        ),
        // Katakana selected: the first picture brings the cells into that font, and there they stay
        (
            &[0x19],
            &[(blank, 0), (picture(&[(0, 0xB1)]), 1), (blank, 1)],
            &[&[0x0E], &[0xB1], &[0x0E]],
        ),
        // a user character below 20h
        (&user, &[(picture(&[(0, 0x01)]), 1), (blank, 1)], &[&[0x01], &[0x0E]]),
        // one on 0Eh: nothing clears, not even after it was written
        (
            &on_clear,
            &[(picture(&[(0, 0x0E)]), 1), (blank, 1)],
            &[&[0x0E], &[0x08, 0x20]],
        ),
        // the longest plan, again and again
        (
            &[0x1B, 0x48, 0x05],
            &[(full, 39), (other, 39), (full, 39)],
            &[&first, &second, &third],
        ),
    ];
    for (before, pictures, plans) in examples {
        let (c, _) = after(before);
        let (codes, cursors) = lent(pictures);
        let made = Reel {
            bytes: plans.concat(),
            lengths: plans.iter().map(|bytes| bytes.len()).collect(),
        };
        r.cases += 1;
        let got = reel(&c, &codes, &cursors, PLAN_ROOM * pictures.len(), moves);
        r.expect(got.as_ref() == Ok(&made), || {
            format!("a reel, {:02X?} and not {:02X?}", made, got)
        });
    }
    // 64 of the longest fill 2,816 bytes; a byte less is too little room, and 65 are too many
    let (c, _) = after(&[0x1B, 0x48, 0x05]);
    let many: Vec<_> = (0..65).map(|i| (if i % 2 == 0 { full } else { other }, 39)).collect();
    let (codes, cursors) = lent(&many);
    let got = |n: usize, room: usize| reel(&c, &codes[..CELLS * n], &cursors[..n], room, moves);
    let mut most = Reel {
        bytes: [third, second].concat().repeat(32),
        lengths: vec![44; 64],
    };
    most.bytes[0] = 0x0C;
    let right = most.bytes.len() == 2_816
        && got(64, 2_816) == Ok(most)
        && got(64, 2_815) == Err((64, 10))
        && got(65, 2_860) == Err((64, 3));
    r.cases += 1;
    r.expect(right, || "a reel of 64 pictures".to_string());
}

/// The answers of a reel to a host: the bytes before, from power-up; for each picture its first code and asked cursor;
/// how many codes are lent beyond or short of 40 for each; how many lengths; the room; the answer and the lengths
/// that are not 0. (All was 7 before.)
fn reels_answered(r: &mut Report, moves: &Moves) {
    type Example<'a> = (&'a [u8], &'a [(u8, u8)], isize, usize, usize, u32, &'a [u8]);
    const WHOLE: u32 = 65_536 + 256 * 64;
    let on_move = inputs::define(0x09, [0; 5]);
    let examples: [Example; 20] = [
        // 41h is written; nothing; the cursor goes on
        (&[], &[(0x41, 1), (0x41, 1), (0x41, 0)], 0, 64, 132, 2, &[1, 0, 1]),
        (&[], &[(0x41, 1), (0x20, 1)], 0, 64, 200, 2, &[1, 1]),
        (&[], &[], 0, 64, 0, 0, &[]),
        (&[0x12, 0x1B], &[], 0, 64, 0, 0, &[]),
        // the whole call
        (&[], &[(0x41, 1)], 1, 64, 44, WHOLE + 1, &[]),
        (&[], &[(0x41, 1), (0x41, 1)], -40, 64, 0, WHOLE + 1, &[]),
        (&[], &[(0x41, 1)], 0, 63, 44, WHOLE + 1, &[]),
        (&[], &[(0x41, 40)], 0, 65, 0, WHOLE + 1, &[]),
        (&[], &[], 0, 0, 0, WHOLE + 1, &[]),
        (&[], &[(0x41, 1); 65], 1, 64, 0, WHOLE + 1, &[]),
        (&[], &[(0x41, 1); 65], 0, 64, 0, WHOLE + 3, &[]),
        (&[0x1B], &[(0x00, 40)], 0, 64, 43, WHOLE + 10, &[]),
        // the first picture, which meets the start condition
        (&[0x12, 0x1B], &[(0x00, 40)], 0, 64, 44, 65_536 + 3, &[]),
        (&[0x12, 0x1B], &[(0x00, 39), (0x41, 40)], 0, 64, 88, 65_536 + 6, &[]),
        (&[0x12], &[(0x00, 39)], 0, 64, 44, 65_536 + 7, &[]),
        (&on_move, &[(0x00, 39)], 0, 64, 44, 65_536 + 8, &[]),
        (&on_move, &[(0x09, 39)], 0, 64, 44, 65_536 + 8, &[]),
        // the first that would be refused, and of its refusals the lowest
        (&[], &[(0x41, 1), (0x00, 1), (0x41, 40)], 0, 64, 132, 65_536 + 256 + 9, &[]),
        (&[], &[(0x41, 1), (0x41, 255), (0x00, 1)], 0, 64, 132, 65_536 + 256 + 3, &[]),
        (&[], &[(0x41, 1), (0x42, 1), (0x00, 40)], 0, 64, 132, 65_536 + 512 + 3, &[]),
    ];
    for (before, pictures, odd, count, room, answer, plans) in examples {
        let (c, _) = after(before);
        let whole = |&(code, asked): &(u8, u8)| (picture(&[(0, code)]), asked);
        let (mut codes, cursors) = lent(&pictures.iter().map(whole).collect::<Vec<_>>());
        codes.resize((codes.len() as isize + odd) as usize, 0x41);
        let (mut lengths, mut out) = (vec![7; count], vec![7; room]);
        let got = host_reel(&c.to_block(), &codes, &cursors, &mut lengths, &mut out, moves);
        let mut right = vec![if count == 64 { 0 } else { 7 }; count];
        right[..plans.len()].copy_from_slice(plans);
        let written = if got < 65_536 { got as usize } else { 0 };
        let kept = out[written..].iter().all(|&x| x == 7);
        r.cases += 1;
        r.expect(got == answer && lengths == right && kept, || {
            format!("a reel after {}: answer {} and not {}", hex(before), answer, got)
        });
    }
    // a damaged block is named after each wrong length and before all else
    let mut block = Condition::power_up(0).to_block();
    block[511] ^= 1;
    for (count, pictures, refusal) in [(64, 65, 2), (63, 65, 1)] {
        let (codes, cursors) = (vec![0; CELLS * pictures], vec![40; pictures]);
        let got = host_reel(&block, &codes, &cursors, &mut vec![7; count], &mut [], moves);
        r.cases += 1;
        r.expect(got == WHOLE + refusal, || {
            format!("a reel from a damaged block: answer {}", got)
        });
    }
}

/// The way back: the bytes before, from power-up; the room; the answer to a host.
fn recoveries(r: &mut Report) {
    type Example<'a> = (&'a [u8], usize, u32);
    let on_esc = inputs::define(0x1B, [1, 2, 3, 4, 5]);
    let examples: [Example; 14] = [
        (&[], 8, 8),
        (&[0x41, 0x13, 0x19, 0x1A, 0x1B, 0x53], 44, 8),
        (&[0x1B], 8, 8),
        (&[0x1B, 0x48], 8, 8),
        (&[0x1B, 0x4C], 8, 8),
        (&[0x1B, 0x54], 8, 8),
        (&[0x1B, 0x43], 8, 8),
        (&[0x1B, 0x43, 0x1A, 0x1B], 8, 8),
        (&[0x1B, 0x43], 7, 256 + 10),
        // ESC is just being made a user character, with none to four bytes held, or has been made one
        (&on_esc[..3], 8, 256 + 11),
        (&on_esc[..7], 8, 256 + 11),
        (&on_esc, 8, 256 + 11),
        (&on_esc, 7, 256 + 11),
        // Initialise without the six 00h makes it one
        (&[0x1B, 0x43, 0x1B, 0x49], 0, 256 + 11),
    ];
    for (before, room, answer) in examples {
        let (c, _) = after(before);
        let mut out = vec![7; room];
        let got = host_recover(&c.to_block(), &mut out);
        let right = if answer == 8 {
            out[..8] == BACK && out[8..].iter().all(|&x| x == 7) && c.after(&BACK).at_power_up()
        } else {
            out.iter().all(|&x| x == 7) && !(answer == 256 + 11 && c.after(&BACK).at_power_up())
        };
        r.cases += 1;
        r.expect(got == answer && right, || {
            format!("recovery after {}: answer {} and not {}", hex(before), answer, got)
        });
    }
}

/// Strings vetted by hand: the bytes before, from power-up; the wanted cells that are not blank; the asked cursor; the
/// string; what is to be said of it.
fn vettings(r: &mut Report, moves: &Moves) {
    use Vetted::{NoByte, NoCell, NoCursor, Yes};
    type Example<'a> = (&'a [u8], &'a [(usize, u8)], u32, &'a [u8], Vetted);
    let one = &[(0, 0x41)][..];
    let two = &[(0, 0x41), (21, 0x42)][..]; // the bench sheet's picture
    let (null, clear) = (inputs::define(0x00, [1; 5]), inputs::define(0x0E, [1; 5]));
    let home = [&clear[..], &[0x0E]].concat(); // 0Eh stands in cell 0, as a character
    let full = [0x41; CELLS];
    let blanks = [0x20; CELLS];
    let examples: [Example; 62] = [
        // the shortest, and longer ones: moves, a jump that leads nowhere else, a right cell written again
        (&[], two, 0, &[0x41, 0x0A, 0x42, 0x0C], Yes(0)),
        (&[], two, 0, &[0x41, 0x0A, 0x42, 0x1B, 0x48, 0x00], Yes(2)),
        (&[], two, 0, &[0x0C, 0x41, 0x1B, 0x48, 0x15, 0x42, 0x0C], Yes(3)),
        (&[], &[], 0, &[], Yes(0)),
        (&[], &[], 0, &[0x08, 0x0C, 0x0D], Yes(3)),
        (&[], &[], 0, &[0x1B, 0x48, 0x00], Yes(3)),
        (&[], &[], 1, &[0x20], Yes(0)),
        (&[], &[], 2, &[0x20, 0x20], Yes(0)),
        (&[], one, 3, &[0x41, 0x20, 0x20], Yes(0)),
        (&[0x41], one, 1, &[0x0C, 0x41], Yes(2)),
        (&[], &[], 0, &blanks, Yes(40)),
        // a write at 39 goes to 0, where nothing can be written any more; a move goes there too
        (&[], &[(39, 0x41)], 0, &[0x1B, 0x48, 0x27, 0x41], Yes(0)),
        (&[], &[(39, 0x41), (0, 0x42)], 1, &[0x1B, 0x48, 0x27, 0x41, 0x42], NoByte(4)),
        (&[0x1B, 0x48, 0x27], one, 1, &[0x09, 0x41], Yes(0)),
        (&[], &[], 1, &[0x1B, 0x48, 0x27, 0x09, 0x09], Yes(4)),
        // the clear: first, where it helps and where it does not; not first, and not twice; and 0Fh never
        (&full, one, 1, &[0x0E, 0x41], Yes(0)),
        (&full, one, 1, &[0x0E, 0x09, 0x0C, 0x41], Yes(2)),
        (&full, &[], 0, &blanks, Yes(39)),
        (&[], one, 1, &[0x0E, 0x41], Yes(1)),
        (&full, one, 1, &[0x0C, 0x0E, 0x41], NoByte(1)),
        (&full, one, 1, &[0x41, 0x0E], NoByte(1)),
        (&full, &[], 0, &[0x0E, 0x0E], NoByte(1)),
        (&full, &[], 0, &[0x0F], NoByte(0)),
        (&full, &[], 0, &[0x0E, 0x0F], NoByte(1)),
        // cleared cells have the selected font; without it, or with some cells left, they are wrong
        (&[0x19], &[], 0, &[0x0E], Yes(0)),
        (&[0x19], &[], 0, &blanks, Yes(39)),
        (&[0x19], &[], 0, &[], NoCell(0)),
        (&[0x19], &[], 39, &blanks[..39], NoCell(39)),
        // a user character on 0Eh is written, wherever it stands, and nothing clears
        (&clear, &[(0, 0x0E)], 1, &[0x0E], Yes(0)),
        (&clear, &[(0, 0x0E), (1, 0x0E)], 2, &[0x0E, 0x0E], Yes(0)),
        (&clear, &[(5, 0x0E)], 6, &[0x1B, 0x48, 0x05, 0x0E], Yes(0)),
        (&clear, one, 1, &[0x0E, 0x0C, 0x41], NoByte(2)),
        (&clear, &[], 1, &[0x0E], NoCell(0)),
        // the shortest is then without a clear
        (&home, &[], 0, &[0x0C, 0x20, 0x0C], Yes(0)),
        (&home, &[], 0, &[0x0C, 0x20, 0x1B, 0x48, 0x00], Yes(2)),
        // a user character below 20h; without one the byte is no step, though the module ignores it
        (&null, &[(0, 0x00)], 1, &[0x00], Yes(0)),
        (&null, &[(1, 0x00)], 2, &[0x20, 0x00], Yes(0)),
        (&[], &[], 0, &[0x00], NoByte(0)),
        (&[], &[], 0, &[0x0C, 0x1F], NoByte(1)),
        (&[], one, 1, &[0x41, 0x0B], NoByte(1)),
        // nor are the font's and the mode's bytes, though nothing changes by them
        (&[], one, 1, &[0x18, 0x41], NoByte(0)),
        (&[], one, 1, &[0x19, 0x18, 0x41], NoByte(0)),
        (&[0x1A], one, 1, &[0x41, 0x1A], NoByte(1)),
        (&[], one, 1, &[0x11, 0x41], NoByte(0)),
        // a cell written twice, first wrong and then right, and twice right; falling order
        (&[], one, 1, &[0x42, 0x08, 0x41], NoByte(2)),
        (&[], one, 1, &[0x41, 0x0C, 0x41], NoByte(2)),
        (&[], two, 1, &[0x1B, 0x48, 0x15, 0x42, 0x0C, 0x41], NoByte(5)),
        // jumps that are none: too far, another command, cut
        (&[], one, 1, &[0x1B, 0x48, 0x28, 0x41], NoByte(0)),
        (&[], one, 1, &[0x41, 0x1B, 0x48, 0xFF], NoByte(1)),
        (&[], &[], 0, &[0x1B, 0x49], NoByte(0)),
        (&[], one, 1, &[0x41, 0x1B], NoByte(1)),
        (&[], one, 1, &[0x41, 0x1B, 0x48], NoByte(1)),
        (&[], &[], 0, &[0x1B, 0x1B, 0x48, 0x00], NoByte(0)),
        // the place is a place, though it is a code too
        (&null, &[], 14, &[0x1B, 0x48, 0x0E], Yes(0)),
        (&null, &[], 27, &[0x1B, 0x48, 0x1B], Yes(0)),
        // the earliest byte is said, before any cell; the lowest cell, before the cursor; then the cursor
        (&[], one, 1, &[0x42, 0x0C, 0x41, 0x00], NoByte(2)),
        (&[], one, 1, &[0x00, 0x0C, 0x41, 0x41], NoByte(0)),
        (&[], one, 1, &[0x42], NoCell(0)),
        (&[], two, 0, &[0x09, 0x0A], NoCell(0)),
        (&[], two, 0, &[0x41], NoCell(21)),
        (&[], two, 0, &[0x41, 0x0A, 0x42], NoCursor),
        (&[], two, 39, &[0x41, 0x0A, 0x42, 0x0C], NoCursor),
    ];
    for (before, cells, asked, string, right) in examples {
        let (c, _) = after(before);
        r.cases += 1;
        let got = vet(&c, &picture(cells), asked, string, moves);
        r.expect(got == right, || format!("vetting {}: {:?} and not {:?}", hex(string), right, got));
    }
    plans_vetted(r, moves);
}

/// Of every plan it says yes, with no excess; and the plan is no longer than the search over all strings says.
fn plans_vetted(r: &mut Report, moves: &Moves) {
    let mut rng = Rng::new(11);
    for i in 0..5_000 {
        let c = can_be_planned(&mut rng, |c| PLANNERS_CODES.iter().any(|&m| c.is_user(m)));
        let mut codes = c.codes;
        for code in codes.iter_mut() {
            if !c.writes(*code) || rng.once_in(4) {
                *code = if rng.once_in(2) { 0x20 } else { 0x41 };
            }
        }
        let asked = rng.below(CELLS) as u32;
        let bytes = plan(&c, &codes, asked, moves).expect("a picture that can be planned");
        r.cases += 1;
        r.expect(vet(&c, &codes, asked, &bytes, moves) == Vetted::Yes(0), || {
            format!("vetting the plan {}", hex(&bytes))
        });
        if i % 20 == 0 {
            let fewest = fewest_bytes(&c, &Wanted::in_one_font(&c, codes, asked as usize), moves);
            r.expect(fewest == bytes.len(), || format!("{} bytes are enough, not {}", fewest, hex(&bytes)));
        }
    }
}

/// What a host is answered: the bytes before, from power-up; what is wrong with the call besides; the first wanted
/// code; the asked cursor; how long the string is, of 41h and 09h; the answer.
fn vettings_answered(r: &mut Report, moves: &Moves) {
    #[derive(Clone, Copy, PartialEq)]
    enum Wrong {
        Nothing,
        Block,
        Codes,
        Damaged,
        Mode,
    }
    use Wrong::{Block, Codes, Damaged, Mode, Nothing};
    type Example<'a> = (&'a [u8], Wrong, u8, u32, usize, u32);
    const REFUSED: u32 = 65_536;
    let on_move = inputs::define(0x09, [0; 5]);
    let examples: [Example; 24] = [
        (&[], Nothing, 0x41, 1, 1, 1),
        (&[], Nothing, 0x41, 2, 2, 1),
        (&[], Nothing, 0x41, 7, 7, 1 + 7 - 4),
        (&[], Nothing, 0x41, 0, 32_760, 1 + 32_760 - 2),
        (&[], Nothing, 0x41, 8, 32_768, 1 + 32_768 - 4),
        (&[], Nothing, 0x42, 1, 1, 0),
        (&[], Nothing, 0x41, 0, 1, 0),
        (&[], Nothing, 0x41, 0, 0, 0),
        (&[], Nothing, 0x41, 9, 32_769, REFUSED + 4),
        // each refusal where all that come behind it hold too
        (&[], Block, 0x41, 1, 1, REFUSED + 1),
        (&[], Codes, 0x41, 1, 1, REFUSED + 1),
        (&[0x12, 0x1B], Block, 0x00, 40, 40_000, REFUSED + 1),
        (&[0x12, 0x1B], Codes, 0x00, 40, 40_000, REFUSED + 1),
        (&[0x12, 0x1B], Damaged, 0x00, 40, 40_000, REFUSED + 2),
        (&[0x12, 0x1B], Mode, 0x00, 39, 40_000, REFUSED + 3),
        (&[0x12, 0x1B], Nothing, 0x00, 40, 40_000, REFUSED + 3),
        (&[0x12, 0x1B], Nothing, 0x00, 256, 40_000, REFUSED + 3),
        (&[0x12, 0x1B], Nothing, 0x00, 39, 32_769, REFUSED + 4),
        (&on_move, Nothing, 0x00, 39, 32_769, REFUSED + 4),
        (&[0x12, 0x1B], Nothing, 0x00, 39, 32_768, REFUSED + 6),
        (&[0x12], Nothing, 0x00, 39, 1, REFUSED + 7),
        (&on_move, Nothing, 0x00, 39, 1, REFUSED + 8),
        (&on_move, Nothing, 0x41, 1, 1, REFUSED + 8),
        (&[], Nothing, 0x00, 39, 1, REFUSED + 9),
    ];
    for (before, wrong, first, asked, length, answer) in examples {
        let mut block = after(before).0.to_block().to_vec();
        match wrong {
            Block => block.push(0),
            Damaged => block[511] ^= 0x40,
            Mode => {
                block[4] = 4;
                seal(&mut block);
            }
            _ => {}
        }
        let codes = picture(&[(0, first)]);
        let codes = if wrong == Codes { &codes[1..] } else { &codes };
        let string: Vec<u8> = (0..length).map(|i| if i == 0 { 0x41 } else { 0x09 }).collect();
        r.cases += 1;
        let got = host_vet(&block, codes, asked, &string, moves);
        r.expect(got == answer, || {
            format!("vetting {} bytes after {}: {} and not {}", length, hex(before), answer, got)
        });
    }
}

/// What `vet` prints, by hand, from power-up for the bench sheet's picture: the bytes of the block and of the
/// picture, the asked cursor, the string, the line.
fn vettings_printed(r: &mut Report, moves: &Moves) {
    type Example<'a> = (usize, usize, u8, &'a [u8], &'a str);
    let eleven = [0x41, 0x0A, 0x42, 0x0C];
    let examples: [Example; 11] = [
        (512, 41, 0, &eleven, "yes excess 0\n"),
        (512, 41, 0, &[0x41, 0x0A, 0x42, 0x1B, 0x48, 0x00], "yes excess 2\n"),
        (512, 41, 0, &[0x41, 0x0A, 0x42, 0x1B, 0x48], "no, byte 3\n"),
        (512, 41, 0, &[0x41, 0x0C], "no, cell 21\n"),
        (512, 41, 39, &eleven, "no, cursor\n"),
        (511, 41, 40, &eleven, "refused 1\n"),
        (512, 40, 0, &eleven, "refused 1\n"),
        (512, 42, 0, &eleven, "refused 1\n"),
        (512, 0, 0, &eleven, "refused 1\n"),
        (512, 41, 40, &[0x0C; 32_769], "refused 3\n"),
        (512, 41, 39, &[0x0C; 32_769], "refused 4\n"),
    ];
    for (block, bytes, asked, string, line) in examples {
        let mut picture = [&picture(&[(0, 0x41), (21, 0x42)])[..], &[asked]].concat();
        picture.resize(bytes, 0);
        r.cases += 1;
        let got = vet_line(&Condition::power_up(0).to_block()[..block], &picture, string, moves);
        r.expect(got == line, || format!("{} is printed of {}", got.trim_end(), hex(string)));
    }
}

/// Files of blocks: the first, where a to d are good blocks, p is that of power-up for font 0 and x and y are bad; its
/// tail; the second; and all that is printed.
fn salvages(r: &mut Report) {
    type Example<'a> = (&'a str, usize, &'a str, &'a str);
    let most = "a".repeat(10_000);
    let examples: [Example; 11] = [
        ("", 0, "", "kept 0 changed 0\n"),
        ("", 511, "", "tail 511 dropped\nkept 0 changed 0\n"),
        ("a", 0, "a", "kept 1 changed 0\n"),
        ("x", 0, "p", "block 0 power-up\nkept 0 changed 1\n"),
        ("xy", 1, "pp", "block 0 power-up\nblock 1 power-up\ntail 1 dropped\nkept 0 changed 2\n"),
        // the number is that of the last good block, not of its copy
        (
            "axybx",
            17,
            "aaabb",
            "block 1 repeated 0\nblock 2 repeated 0\nblock 4 repeated 3\ntail 17 dropped\nkept 2 changed 3\n",
        ),
        ("xbxa", 0, "pbba", "block 0 power-up\nblock 2 repeated 1\nkept 2 changed 2\n"),
        // the same block again is good again, and a good block of power-up is no replacement
        ("ccxpx", 0, "cccpp", "block 2 repeated 1\nblock 4 repeated 3\nkept 3 changed 2\n"),
        ("dddx", 0, "dddd", "block 3 repeated 2\nkept 3 changed 1\n"),
        (&most, 0, &most, "kept 10000 changed 0\n"),
        (&most, 511, &most, "tail 511 dropped\nkept 10000 changed 0\n"),
    ];
    let block = |letter: char| match letter {
        'a' => after(&[0x41]).0.to_block(),
        'b' => after(&[0x1B, 0x43, 0x1B, 1, 2, 3, 4, 5]).0.to_block(),
        'c' => after(&[0x13, 0x1B, 0x48, 0x13, 0x43]).0.to_block(),
        'd' => Condition::power_up(1).to_block(),
        'p' => Condition::power_up(0).to_block(),
        'x' => [0; BLOCK],
        _ => {
            // mode 0, under a right check
            let mut b = Condition::power_up(0).to_block();
            b[4] = 0;
            seal(&mut b);
            b
        }
    };
    let file = |letters: &str, tail: usize| {
        let mut bytes: Vec<u8> = letters.chars().flat_map(block).collect();
        bytes.resize(bytes.len() + tail, 0x56);
        bytes
    };
    for (first, tail, second, printed) in examples {
        let right = Salvaged {
            second: Some(file(second, 0)),
            printed: printed.to_string(),
        };
        r.cases += 1;
        r.expect(salvage(&file(first, tail)) == right, || {
            format!("the salvage of '{:.9}' and {} bytes", first, tail)
        });
    }
    for (more, tail) in [("a", 0), ("x", 511)] {
        let right = Salvaged {
            second: None,
            printed: "refused 4\n".to_string(),
        };
        r.cases += 1;
        r.expect(salvage(&file(&(most.clone() + more), tail)) == right, || {
            "10,001 blocks".to_string()
        });
    }
}

/// Every byte keeps a condition well formed; blocks read back the same; runs in pieces end alike.
fn conditions(r: &mut Report) {
    let mut rng = Rng::new(1);
    for i in 0..3_000 {
        let c = if i % 2 == 0 {
            inputs::any_condition(&mut rng)
        } else {
            inputs::reached_condition(&mut rng)
        };
        r.cases += 1;
        r.expect(c.well_formed(), || format!("not well formed: {:?}", c));
        let block = c.to_block();
        r.expect(Condition::from_block(&block).as_ref() == Ok(&c), || {
            format!("not read back: {:?}", c)
        });
        for b in 0..=255 {
            let mut next = c.clone();
            let busy = next.take(b);
            r.cases += 1;
            r.expect(next.well_formed(), || format!("{:02X} breaks {:?}", b, c));
            r.expect([4, 6, 7, 15, 20, 40, 65].contains(&busy.quick), || {
                format!("busy {} after {:02X}", busy.quick, b)
            });
            r.expect(busy.worst == busy.quick + 200 * c.flickerless as u64, || {
                format!("busy {} at the worst after {:02X}", busy.worst, b)
            });
        }
        let length = rng.below(60);
        let bytes = inputs::some_bytes(&mut rng, length);
        let whole = run(&c, &Tally::ZERO, &bytes).expect("an accepted run");
        let cut = rng.below(length + 1);
        let (half, t) = run(&c, &Tally::ZERO, &bytes[..cut]).expect("an accepted run");
        let pieces = run(&half, &t, &bytes[cut..]).expect("an accepted run");
        r.expect(whole == pieces, || format!("in pieces otherwise: {}", hex(&bytes)));
    }
}

/// A condition of the old lounge module in short: the cursor, the mode, `scroll` and `dim` where they are on, and
/// each cell that is not as a cleared one: place=code, and its marks if it has any.
fn in_short(c: &old_module::Condition) -> String {
    let mut words = vec![c.cursor.to_string(), format!("DC{}", c.mode)];
    words.extend(c.scroll_on.then(|| "scroll".to_string()));
    words.extend(c.dimming.then(|| "dim".to_string()));
    for (place, (&code, &marks)) in c.codes.iter().zip(&c.marks).enumerate() {
        match (code, marks) {
            (0x20, 0) => {}
            (_, 0) => words.push(format!("{}={:02X}", place, code)),
            _ => words.push(format!("{}={:02X}/{}", place, code, marks)),
        }
    }
    words.join(" ")
}

/// The old lounge module, worked out by hand: the pairs from reset (a command write has a colon in front), and the
/// condition after them, in short.
fn lounge_examples(r: &mut Report) {
    let examples = [
        // 001, 8.1.1 3: a write goes right one; DC1 from the top right to 20, from the bottom right to 0
        "41 -> 1 DC1 0=41",
        ":13 41 -> 20 DC1 19=41",
        ":27 41 -> 0 DC1 39=41",
        // 02: 09h goes right one, in both modes, from the top right to 20
        "09 -> 1 DC1",
        ":13 09 -> 20 DC1",
        "12 :13 09 -> 20 DC2",
        // 001, 8.1.1 1: at the bottom right it scrolls, in both modes, and the bottom line is cleared
        "42 :27 41 :27 09 -> 20 DC1 19=41",
        "42 12 :27 41 09 -> 20 DC2 19=41",
        // 001, 8.1.1 2: 0Dh goes to the left of the same line
        ":19 0D -> 20 DC1",
        ":05 0D -> 0 DC1",
        // 001, 8.1.1 4 and 02: the first DC2 write at the right end stays there, further ones shift this line
        "12 :13 41 -> 19 DC2 scroll 19=41",
        "12 :13 41 42 -> 19 DC2 scroll 18=41 19=42",
        "43 12 :27 41 42 -> 39 DC2 scroll 0=43 38=41 39=42",
        "12 :12 41 42 43 -> 19 DC2 scroll 17=41 18=42 19=43",
        // 02: scroll-on ends as on the first device: at 0Dh, 11h, 12h, an accepted position, though the same
        "12 :13 41 0D -> 0 DC2 19=41",
        "12 :13 41 11 42 -> 20 DC1 19=42",
        "12 :13 41 12 42 -> 19 DC2 scroll 19=42",
        "12 :13 41 :13 42 -> 19 DC2 scroll 19=42",
        // 02: it ends at 09h at column 19 and at a reset of the cursor's line; that of the other leaves it
        "12 :13 41 09 :13 -> 19 DC2 19=41",
        "12 :13 41 :40 42 -> 1 DC2 0=42",
        "12 :13 41 :41 42 -> 19 DC2 scroll 18=41 19=42",
        // 02: codes with no meaning are ignored, and leave it; so do 28h to 3Fh (001, 8.2: no such position)
        "12 :13 41 08 0A 0C 0E 0F 13 42 -> 19 DC2 scroll 18=41 19=42",
        "12 :13 41 :28 :3F 42 -> 19 DC2 scroll 18=41 19=42",
        // 001, 8.2: a reset fills the line with 20h, and the cursor goes to its left where it is in this line
        "41 :14 42 :40 -> 21 DC1 20=42",
        "41 :14 42 :41 -> 20 DC1 0=41",
        "41 :14 42 :05 :41 -> 5 DC1 0=41",
        // 02: other commands and codes with no meaning are ignored
        ":05 :28 :42 :7F :80 :FF 00 08 0A 0C 0E 10 13 16 1E 1F -> 5 DC1",
        // 02: codes from 20h up are written, also where 001's table is empty
        "20 80 9F FF -> 4 DC1 1=80 2=9F 3=FF",
        // 02: an area has both its positions; one position twice is one cell, blank cells too
        "41 42 43 19 01 02 -> 3 DC1 0=41 1=42/2 2=43/2",
        "1C 27 27 -> 0 DC1 39=20/4",
        // 02: a pair out of order or above 27h is dropped, with both its bytes, and does not dim
        "17 05 04 41 -> 1 DC1 0=41",
        "17 28 05 41 -> 1 DC1 0=41",
        "17 00 28 41 -> 1 DC1 0=41",
        // 02: an accepted 17h pair turns dimming on, until 18h, which takes the bright marks of all areas
        "41 17 00 00 -> 1 DC1 dim 0=41/1",
        "17 00 00 17 02 02 18 -> 0 DC1",
        "17 00 00 19 00 00 1C 00 00 18 -> 0 DC1 0=20/6",
        "17 00 00 19 00 00 1C 00 00 1A -> 0 DC1 dim 0=20/5",
        "17 00 00 19 00 00 1C 00 00 1D -> 0 DC1 dim 0=20/3",
        // 02: a new character has no marks, nor has a cleared cell; dimming stays at a reset
        "41 19 00 00 :00 42 -> 1 DC1 0=42",
        "41 17 00 00 :40 -> 0 DC1 dim",
        // 02: marks move with their characters: in the DC2 shift, where column 0 is lost, and in a scroll
        "12 :13 41 19 13 13 42 -> 19 DC2 scroll 18=41/2 19=42",
        "1C 00 01 12 :13 41 42 -> 19 DC2 scroll 0=20/4 18=41 19=42",
        "1C 00 01 :27 41 19 26 27 :27 09 -> 20 DC1 18=20/2 19=41/2",
        // 02: a command write acts at once and leaves a half-received sequence waiting
        "19 :05 00 :06 01 41 -> 7 DC1 0=20/2 1=20/2 6=41",
        "1B :09 09 1 2 3 :0C 4 5 09 -> 13 DC1 12=09",
        // 001, 8.1.1 5: a user character on a control code is shown instead; on ESC it ends all definitions
        "1B 17 1 2 3 4 5 17 00 41 -> 2 DC1 0=17 1=41",
        "1B 1B 1 2 3 4 5 1B 41 1 2 3 -> 2 DC1 0=1B 1=41",
        // the same: on 0Dh it does not end scroll-on
        "12 1B 0D 1 2 3 4 5 :13 41 0D -> 19 DC2 scroll 18=41 19=0D",
        // the same: on ESC it leaves the areas
        "1B 1B 1 2 3 4 5 1C 00 00 -> 0 DC1 0=20/4",
        // a parameter is a parameter, though it is a user code or a control code
        "1B 05 1 2 3 4 5 19 05 05 1B 42 0D 09 17 1B 12 41 -> 1 DC1 0=41 5=20/2",
    ];
    for example in examples {
        let (text, expected) = example.split_once(" -> ").expect("an arrow");
        let pairs = written(text);
        let got = old_module::run(&old_module::Condition::reset(), &pairs).expect("an accepted run");
        r.cases += 1;
        r.expect(in_short(&got) == expected, || {
            format!("lounge example {}: {}", example, in_short(&got))
        });
        // 001, 8.3: what can be read is the last byte, of a data or a command write
        r.expect(
            got.last == pairs[pairs.len() - 1] && got.half == old_module::Half::Nothing,
            || {
                format!(
                    "lounge example {}: last {:02X}, {:?}",
                    example, got.last, got.half
                )
            },
        );
    }
}

/// User characters of the old lounge module, by hand: the pairs, and what is held, oldest first: code, first and
/// fifth byte. Then what is half received.
fn lounge_users(r: &mut Report) {
    let nine: String = (0x80..=0x88)
        .map(|code| format!("1B {:X} {:X} 0 0 0 1 ", code, code - 0x80))
        .collect();
    let eight = &nine[..nine.find("1B 88").unwrap()];
    let again = format!("{} 1B 80 9 0 0 0 2", eight);
    let then = format!("{} 1B 88 8 0 0 0 1", again);
    let held = |codes: &[u8]| codes.iter().map(|&c| (c, c - 0x80, 1)).collect::<Vec<_>>();
    let examples: [(&str, Vec<(u8, u8, u8)>); 6] = [
        // 001's example; 02: the fifth byte's top five bits are dropped
        ("1B 21 84 10 02 00 01", vec![(0x21, 0x84, 1)]),
        ("1B 21 FF FF FF FF FF", vec![(0x21, 0xFF, 7)]),
        ("1B 21 00 00 00 00 F8", vec![(0x21, 0, 0)]),
        // 02: a ninth replaces the oldest
        (&nine, held(&[0x81, 0x82, 0x83, 0x84, 0x85, 0x86, 0x87, 0x88])),
        // 02: a code defined again becomes the youngest, and none goes; then the former second is the oldest
        (
            &again,
            [
                held(&[0x81, 0x82, 0x83, 0x84, 0x85, 0x86, 0x87]),
                vec![(0x80, 9, 2)],
            ]
            .concat(),
        ),
        (
            &then,
            [
                held(&[0x82, 0x83, 0x84, 0x85, 0x86, 0x87]),
                vec![(0x80, 9, 2), (0x88, 8, 1)],
            ]
            .concat(),
        ),
    ];
    for (text, users) in examples {
        let c = old_module::Condition::reset().after(&written(text));
        let got: Vec<_> = c.users[..c.count]
            .iter()
            .map(|u| (u.code, u.dots[0], u.dots[4]))
            .collect();
        r.cases += 1;
        r.expect(got == users && c.half == old_module::Half::Nothing, || {
            format!("lounge user characters {}: {:02X?}", text, got)
        });
    }
    use old_module::Half;
    let held = |code, count, held| Half::UserData { code, count, held };
    let examples = [
        ("1B", Half::Esc),
        ("1B 1B", held(0x1B, 0, [0; 4])),
        ("1B 41 17 :41 00", held(0x41, 2, [0x17, 0, 0, 0])),
        ("1B 41 1 2 3 4", held(0x41, 4, [1, 2, 3, 4])),
        ("1B 41 1 2 3 4 5", Half::Nothing),
        ("17 :05", Half::First { area: 0x17 }),
        // 02 drops the pair: a first position above 27h still waits for the second
        (
            "1C FF",
            Half::Second {
                area: 0x1C,
                first: 0xFF,
            },
        ),
        ("1C FF 00", Half::Nothing),
    ];
    for (text, half) in examples {
        let c = old_module::Condition::reset().after(&written(text));
        r.cases += 1;
        r.expect(c.half == half, || {
            format!("lounge, half received after {}: {:?}", text, c.half)
        });
    }
}

/// What the old lounge module refuses, shows and prints, by hand.
fn lounge_answers(r: &mut Report) {
    use old_module::{run, show_lounge, view, Condition, Shape, View};
    let reset = Condition::reset();
    let mut wrong = Condition::reset();
    wrong.mode = 3;
    let long = written("41").repeat(32_769);
    // lowest number first, and all of the input counts
    let refused = [
        (run(&reset, &[0]), 1),
        (run(&reset, &[2]), 1),
        (run(&reset, &[2, 0]), 3),
        (run(&wrong, &[]), 3),
        (run(&wrong, &[0]), 1),
        (run(&reset, &long), 4),
        (run(&wrong, &long), 3),
        (run(&reset, &[&long[..], &[2, 0]].concat()), 3),
        (run(&reset, &[&long[..], &[2]].concat()), 1),
    ];
    for (i, (got, number)) in refused.into_iter().enumerate() {
        r.cases += 1;
        r.expect(got == Err(number), || format!("lounge, refusal {}: {:?}", i, got));
    }
    r.cases += 1;
    r.expect(
        run(&reset, &long[2..]).is_ok() && run(&reset, &[]) == Ok(reset.clone()),
        || "lounge, the longest run and no run".to_string(),
    );

    // the user character of its code now, blank below 20h, else the built-in code
    let shows = |text: &str, place: u32| view(&reset.after(&written(text)), place);
    let plain = |shape| View {
        shape,
        level_b: false,
        blinking: false,
        underlined: false,
    };
    let dim = |shape| View {
        level_b: true,
        ..plain(shape)
    };
    let gone: String = (0x80..=0x87)
        .map(|code| format!("1B {:X} 0 0 0 0 0 ", code))
        .collect();
    let views = [
        (shows("", 39), Ok(plain(Shape::BuiltIn(0x20)))),
        (shows("41 1B 41 1 2 3 4 5", 0), Ok(plain(Shape::User(0x41)))),
        (shows("1B 09 1 2 3 4 5 09", 0), Ok(plain(Shape::User(0x09)))),
        (
            shows(&format!("1B 09 1 2 3 4 5 09 {}", gone), 0),
            Ok(plain(Shape::Blank)),
        ),
        // level B without the bright mark, while dimming is on
        (shows("41 42 17 00 00", 0), Ok(plain(Shape::BuiltIn(0x41)))),
        (shows("41 42 17 00 00", 1), Ok(dim(Shape::BuiltIn(0x42)))),
        (shows("41 42 17 00 00 18", 1), Ok(plain(Shape::BuiltIn(0x42)))),
        (
            shows("19 00 00 17 05 05", 0),
            Ok(View {
                blinking: true,
                ..dim(Shape::BuiltIn(0x20))
            }),
        ),
        (
            shows("1C 00 00", 0),
            Ok(View {
                underlined: true,
                ..plain(Shape::BuiltIn(0x20))
            }),
        ),
        (shows("", 40), Err(3)),
        (shows("", 256), Err(3)),
        (view(&wrong, 0), Err(3)),
    ];
    for (i, (got, expected)) in views.into_iter().enumerate() {
        r.cases += 1;
        r.expect(got == expected, || {
            format!("lounge, view {}: {:?} and not {:?}", i, got, expected)
        });
    }

    let text = "41 19 00 00 12 :27 42 43 17 26 27 1C 27 27 1B 21 84 10 02 00 F9 1B 0D FF 0 0 0 0";
    let expected = "41 20 20 20 20 20 20 20 20 20 20 20 20 20 20 20 20 20 20 20\n\
                    20 20 20 20 20 20 20 20 20 20 20 20 20 20 20 20 20 20 42 43\n\
                    20000000000000000000\n\
                    00000000000000000015\n\
                    cursor 39 mode 2 scroll 1 dimming 1 last 00\n\
                    user 21 84 10 02 00 01\n\
                    user 0D FF 00 00 00 00\n";
    r.cases += 2;
    r.expect(show_lounge(&written(text)) == expected, || {
        "the lounge sample".to_string()
    });
    r.expect(show_lounge(&[0, 0x41, 2, 0x41]) == "refused 3\n", || {
        "the refused lounge sample".to_string()
    });
}

/// Random pairs keep conditions of the old lounge module well formed; a run is its pairs in turn; each wrong thing
/// is seen.
fn lounge_conditions(r: &mut Report) {
    let mut rng = Rng::new(10);
    for _ in 0..3_000 {
        let c = old_inputs::some_condition(&mut rng);
        r.cases += 1;
        r.expect(c.well_formed(), || format!("not well formed: {:?}", c));
        let length = rng.below(100);
        let pairs = old_inputs::some_pairs(&mut rng, length);
        let mut next = c.clone();
        for pair in pairs.chunks_exact(2) {
            next.take(pair[0], pair[1]);
            r.cases += 1;
            r.expect(next.well_formed() && next.last == pair[1], || {
                format!("{} leads to {:?}", hex(&pairs), next)
            });
        }
        r.expect(old_module::run(&c, &pairs) == Ok(next), || {
            format!("in pieces otherwise: {}", hex(&pairs))
        });
        let mut spoiled = c.clone();
        let wrong = rng.pick(&old_inputs::WRONGS);
        old_inputs::spoil(&mut spoiled, wrong, &mut rng);
        r.expect(!spoiled.well_formed(), || {
            format!("{:?} is not seen: {:?}", wrong, spoiled)
        });
    }
}

fn main() {
    let mut r = Report::new();
    let moves = Moves::new();
    bench_sheet(&mut r, &moves);
    println!("bench sheet: 15 cases, {} differences", r.differences);
    sample(&mut r);
    worked_examples(&mut r);
    move_rule(&mut r, &moves);
    two_fonts(&mut r, &moves);
    from_a_clear(&mut r, &moves);
    two_fonts_refused(&mut r, &moves);
    reels(&mut r, &moves);
    reels_answered(&mut r, &moves);
    recoveries(&mut r);
    vettings(&mut r, &moves);
    vettings_answered(&mut r, &moves);
    vettings_printed(&mut r, &moves);
    salvages(&mut r);
    conditions(&mut r);
    lounge_examples(&mut r);
    lounge_users(&mut r);
    lounge_answers(&mut r);
    lounge_conditions(&mut r);
    // the bench sheet, the sample, examples by hand, ways, plans of two fonts, plans from a clear, refusals,
    // reels and their answers, ways back, strings vetted, plans vetted, salvages, conditions and each byte on each
    let first = 15 + 2 + 31 + 1_603 + 2_017 + 12 + 15 + 10 + 22 + 14 + 97 + 5_000 + 13 + 3_000 + 768_000;
    // the old lounge module: examples, user characters and what is half received, answers, conditions, pairs
    let second = 50 + 14 + 24 + 3_000 + 140_000;
    r.end("self", first + second);
}
