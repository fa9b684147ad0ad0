//! Runs the program `tell` on many inputs and compares all that it writes with the independent
//! interpreter. Usage: tell PROGRAM.. (the words with which `tell` is started).

mod inputs;
mod module;
mod program;
mod report;
mod rng;

use inputs::{commands, define, Flavour};
use module::{run, Condition, Shows, Tally, CELLS};
use program::{By, Program};
use rng::Rng;

/// What a cell shows, by the query for its position.
fn shown(c: &Condition, position: usize) -> String {
    match c.shows(position) {
        Shows::Blank => "blank".to_string(),
        Shows::User(code) => format!("user {:02X}", code),
        Shows::Euro => "euro".to_string(),
        Shows::BuiltIn { code, font } => format!("code {:02X} font {}", code, font),
    }
}

/// A user character by the three queries, each asked by its code.
fn drawn(c: &Condition, code: u8) -> String {
    let dots: String = (1..=35).map(|k| if c.dot(code, k).unwrap() { '1' } else { '0' }).collect();
    let underline = c.underline(code).unwrap() as u8;
    format!("user {:02X} {} underline {} lit {}", code, dots, underline, c.lit(code).unwrap())
}

fn told(input: &[u8]) -> String {
    let (c, t) = match run(&Condition::power_up(0), &Tally::ZERO, input) {
        Err(n) => return format!("refused {}\n", n),
        Ok(after) => after,
    };
    let mut lines: Vec<String> = (0..CELLS).map(|p| format!("cell {} {}", p, shown(&c, p))).collect();
    lines.extend(c.users[..c.count].iter().map(|u| drawn(&c, u.code)));
    lines.push(format!(
        "bytes {} busy {} flickerless {} worst {}",
        t.bytes, t.busy, t.flickerless, t.worst
    ));
    lines.join("\n") + "\n"
}

fn main() {
    let mut s = Program::new("tell", told);
    let mut rng = Rng::new(7);

    // nothing, the bench sheet's user character, each single byte
    for &by in &[By::Pipe, By::Pieces, By::File] {
        s.try_on(&[], by);
        s.try_on(&define(0x21, [0x84, 0x10, 0x02, 0x00, 0x01]), by);
    }
    for b in 0..=255u8 {
        s.on(&[b]);
    }

    // each dot alone, the underline, and each bit that is dropped; then each value of each data byte with the others full
    for bit in 0..40 {
        let mut data = [0; 5];
        data[bit / 8] = 1 << (bit % 8);
        s.on(&define(0x41, data));
    }
    for i in 0..5 {
        for value in (0..=255u8).step_by(5) {
            let mut data = [0xFF; 5];
            data[i] = value;
            s.on(&define(0x09, data));
        }
    }

    // user characters: on every code; 15 to 20 of them, each then written, so that codes below 20h are left whose
    // user character is gone
    for input in inputs::users_on_every_code().iter().chain(&inputs::many_users()) {
        s.on(input);
    }

    // ADh and other codes in both fonts, with Euro on and off before and after, and with a user character there
    for before in [&[][..], &[0x18], &[0x19], &[0x1A], &[0x19, 0x1A], &[0x1A, 0x19], &[0x1A, 0x18]] {
        for after in [&[][..], &[0x18], &[0x19], &[0x1A], &[0x1A, 0x19]] {
            for user in [vec![], define(0xAD, [1, 2, 3, 4, 5]), define(0x20, [0xAA; 5]), define(0xAE, [0xFF; 5])] {
                for late in [false, true] {
                    let mut input = if late { Vec::new() } else { user.clone() };
                    input.extend_from_slice(before);
                    input.extend_from_slice(&[0xAC, 0xAD, 0xAE, 0x20, 0x7F, 0xFF]);
                    if late {
                        input.extend_from_slice(&user);
                    }
                    input.extend_from_slice(after);
                    input.extend_from_slice(&[0xAD, 0x0F][..rng.below(3)]);
                    s.on(&input);
                }
            }
        }
    }

    // lengths at the limit
    for n in [32_767, 32_768, 32_769, 32_770, 100_000] {
        s.on_length(&inputs::mixed(n));
    }

    // random commands, most of them about user characters, and random bytes
    for i in 0..1_500 {
        let flavour = rng.pick(&[
            Flavour::UserCharacters,
            Flavour::UserCharacters,
            Flavour::UserCharacters,
            Flavour::ScrollUp,
            Flavour::ScrollLeft,
            Flavour::Mixed,
        ]);
        let length = if i % 10 == 0 { rng.below(3_000) } else { rng.below(400) };
        s.on(&commands(&mut rng, length, flavour, true));
    }
    for _ in 0..200 {
        let length = rng.below(1_000);
        s.on(&rng.bytes(length));
    }

    s.end(2_900);
}
