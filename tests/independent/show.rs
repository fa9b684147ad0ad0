//! Runs the program `show` on many inputs and compares all that it writes with the independent
//! interpreter. Usage: show PROGRAM.. (the words with which `show` is started).

mod inputs;
mod module;
mod program;
mod report;
mod rng;

use inputs::{commands, Flavour};
use program::{By, Program};
use rng::Rng;

/// The display full of letters, in the given mode.
fn filled(mode: u8) -> Vec<u8> {
    let mut s: Vec<u8> = (0..40).map(|i| 0x61 + i % 26).collect();
    s.push(0x10 + mode);
    s
}

fn main() {
    let mut s = Program::new("show", module::show);
    let mut rng = Rng::new(2);

    // nothing, the sample, each single byte, alone and while flickerless is on
    for &by in &[By::Pipe, By::Pieces, By::File] {
        s.try_on(&[], by);
        s.try_on(&[0x41, 0x0A, 0x42, 0x0C], by);
    }
    for b in 0..=255u8 {
        s.on(&[b]);
        s.on(&[0x1B, 0x53, b, 0x41]);
    }

    // every ESC sequence, cut at every place, alone and with bytes after it
    for b in 0..=255u8 {
        s.on(&[0x1B, b]);
        s.on(&[0x1B, b, 0x41, 0x42, 0x1B, 0x48, 0x15, 0x43]);
        s.on(&[0x1B, 0x48, b, 0x5A]);
    }
    for b in (0..=255u8).step_by(17) {
        s.on(&[0x1B, 0x4C, b, 0x5A]);
        s.on(&[0x1B, 0x54, b, 0x5A]);
    }
    let sequences: [&[u8]; 8] = [
        &[0x1B, 0x48, 0x15],
        &[0x1B, 0x4C, 0x80],
        &[0x1B, 0x53],
        &[0x1B, 0x54, 0x0A],
        &[0x1B, 0x49],
        &[0x1B, 0x43, 0x41, 0x0C, 0x0E, 0x1B, 0x49, 0xFF],
        &[0x1B, 0x43, 0x0C, 0x1B, 0x48, 0x05, 0x1B, 0x48],
        &[0x1B, 0x43, 0x1B, 0x01, 0x02, 0x03, 0x04, 0x05],
    ];
    for seq in &sequences {
        for cut in 0..=seq.len() {
            for tail in [
                &[][..],
                &[0x58],
                &[0x41, 0x0C, 0x59],
                &[0x1B, 0x48, 0x27, 0x5A, 0x5A],
                &[0x1B, 0x1B, 0x49],
            ] {
                let mut input = vec![0x61, 0x62];
                input.extend_from_slice(&seq[..cut]);
                input.extend_from_slice(tail);
                s.on(&input);
            }
        }
    }

    // each control byte at each edge of the display, in each mode, then a writing
    for mode in 1..=3 {
        for &p in &[0, 1, 18, 19, 20, 21, 38, 39] {
            for b in 0..=0x20u8 {
                let mut input = filled(mode);
                input.extend_from_slice(&[0x1B, 0x48, p, b, 0x58, 0x59]);
                s.on(&input);
            }
        }
    }
    // the same in mode 3 after a write at the line's end (scroll-on)
    for &p in &[19, 39] {
        for b in 0..=0x20u8 {
            for n in 0..2 {
                let mut input = filled(3);
                input.extend_from_slice(&[0x1B, 0x48, p, 0x51]);
                input.extend(std::iter::repeat(b).take(n + 1));
                input.extend_from_slice(&[0x58, 0x59]);
                s.on(&input);
            }
        }
        for e in [
            &[0x1B, 0x48, p][..],
            &[0x1B, 0x48, 0x28],
            &[0x1B, 0x58],
            &[0x1B, 0x53],
            &[0x1B, 0x54, 1],
            &[0x1B, 0x49],
        ] {
            let mut input = filled(3);
            input.extend_from_slice(&[0x1B, 0x48, p, 0x51]);
            input.extend_from_slice(e);
            input.extend_from_slice(&[0x58, 0x59]);
            s.on(&input);
        }
    }

    // user characters: on every code; 15 to 20 of them, each then written
    for input in inputs::users_on_every_code().iter().chain(&inputs::many_users()) {
        s.on(input);
    }

    // lengths at the limit
    for n in [32_767, 32_768, 32_769, 32_770, 40_000, 65_536, 65_537, 100_000, 1_000_000] {
        s.on_length(&inputs::mixed(n));
    }

    // random bytes and random commands
    for i in 0..500 {
        let length = if i % 10 == 0 { rng.below(3_000) } else { rng.below(120) };
        let input = rng.bytes(length);
        s.on(&input);
    }
    for i in 0..2_000 {
        let flavour = rng.pick(&[
            Flavour::ScrollUp,
            Flavour::ScrollUp,
            Flavour::ScrollLeft,
            Flavour::ScrollLeft,
            Flavour::UserCharacters,
            Flavour::UserCharacters,
            Flavour::Text,
            Flavour::Mixed,
        ]);
        let length = if i % 10 == 0 { rng.below(3_000) } else { rng.below(300) };
        let input = commands(&mut rng, length, flavour, true);
        s.try_on(
            &input,
            if i % 40 == 7 {
                By::File
            } else if i % 40 == 8 {
                By::Pieces
            } else {
                By::Pipe
            },
        );
    }

    s.end(5_300);
}
