//! Runs the program `show_lounge` on many inputs and compares all that it writes with the independent
//! interpreter. Usage: show_lounge PROGRAM.. (the words with which `show_lounge` is started).

mod old_inputs;
mod old_module;
mod program;
mod report;
mod rng;

use old_inputs::*;
use old_module::{COMMAND, DATA, LONGEST_RUN};
use program::{By, Program};
use rng::Rng;

const WAYS: [By; 3] = [By::Pipe, By::Pieces, By::File];

/// Nothing, a sample, and each byte as data and as command: alone, and while a sequence is half received.
fn each_byte(s: &mut Program) {
    for by in WAYS {
        s.try_on(&[], by);
        s.try_on(
            &written("41 12 :27 42 43 17 00 26 1C 26 27 1B 41 84 10 02 00 F9"),
            by,
        );
    }
    for before in [
        "",
        "41 1B",
        "41 1B 42 1 2 3",
        "1B 17 1 2 3 4",
        "41 42 43 19",
        "41 42 43 17 01",
        "12 :13 41 19 00 13",
    ] {
        for b in 0..=255 {
            for kind in [DATA, COMMAND] {
                s.on(&[written(before), vec![kind, b], written("58 59")].concat());
            }
        }
    }
}

/// The lists that `lounge` tries too.
fn lists(s: &mut Program) {
    let positions = [
        0x00, 0x01, 0x12, 0x13, 0x14, 0x15, 0x17, 0x1B, 0x26, 0x27, 0x28, 0x80, 0xFF,
    ];
    let lists = [
        areas(&positions),
        cut_sequences(),
        line_ends(),
        users_on_every_code(),
        many_users(),
        damaged(),
    ];
    for input in lists.concat() {
        s.on(&input);
    }
}

/// Lengths around 65,536 bytes, which are 32,768 pairs, and far above; there a kind above 1, or half a pair,
/// still decides the answer.
fn lengths(s: &mut Program, rng: &mut Rng) {
    for n in [
        LONGEST_RUN - 1,
        LONGEST_RUN,
        LONGEST_RUN + 1,
        LONGEST_RUN + 2,
        50_000,
        65_536,
        131_072,
        500_000,
    ] {
        let good = mixed(n);
        s.on(&printable(n));
        s.on_length(&good);
        s.on_length(&good[..2 * n - 1]);
        for by in WAYS {
            for at in [0, LONGEST_RUN - 1, LONGEST_RUN, LONGEST_RUN + 1, n / 2, n - 1] {
                if at < n {
                    let mut wrong = good.clone();
                    wrong[2 * at] = rng.pick(&[2, 3, 0x41, 0x80, 0xFF]);
                    s.try_on(&wrong, by);
                    s.try_on(&wrong[..2 * n - 1], by);
                }
            }
        }
    }
}

/// Random pairs of every flavour; some are damaged.
fn random(s: &mut Program, rng: &mut Rng, cases: usize) {
    for i in 0..cases {
        let length = if i % 10 == 0 {
            rng.below(3_000)
        } else {
            rng.below(200)
        };
        let mut input = some_pairs(rng, length);
        if rng.once_in(20) {
            input.push(rng.byte());
        }
        if rng.once_in(20) && length > 0 {
            input[2 * rng.below(length)] = rng.byte();
        }
        let by = match i % 40 {
            7 => By::File,
            8 => By::Pieces,
            _ => By::Pipe,
        };
        s.try_on(&input, by);
    }
}

fn main() {
    let mut s = Program::new("show_lounge", old_module::show_lounge);
    let mut rng = Rng::new(9);
    each_byte(&mut s);
    lists(&mut s);
    lengths(&mut s, &mut rng);
    random(&mut s, &mut rng, 3_000);
    s.end(10_000);
}
