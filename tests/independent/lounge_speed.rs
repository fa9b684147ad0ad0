//! What a pair costs on the old lounge module: the independent interpreter beside lounge_run, each from reset
//! on 32,768 pairs. `tests/run.sh speed` counts the instructions of this program. Linked with
//! liblounge_entry.a.
//! Usage: lounge_speed own|entry printable|mixed REPEATS, or: lounge_speed check (both leave the same).

mod old_entry;
mod old_inputs;
mod old_module;
mod rng;

use old_entry::{expected_run, to_state};
use old_module::{run, Condition, LONGEST_RUN};

/// Hides a value from the compiler, so that no repeat is left out (std's black_box came after 1.63).
fn hidden<T>(x: T) -> T {
    unsafe {
        let y = std::ptr::read_volatile(&x);
        std::mem::forget(x);
        y
    }
}

/// Both answer the byte that can be read at the end.
fn own(pairs: &[u8], repeats: usize) -> u8 {
    let mut last = 0;
    for _ in 0..repeats {
        let start = hidden(Condition::reset());
        last = hidden(run(&start, pairs).expect("an accepted run")).last;
    }
    last
}

fn product(pairs: &[u8], repeats: usize) -> u8 {
    let start = to_state(&Condition::reset());
    let mut last = 0;
    for _ in 0..repeats {
        let mut state = start;
        assert_eq!(old_entry::run(&mut state, pairs), 0);
        last = old_entry::from_state(&state).last;
    }
    last
}

fn main() {
    let words: Vec<String> = std::env::args().skip(1).collect();
    let words: Vec<&str> = words.iter().map(|w| w.as_str()).collect();
    let input = |name: &str| match name {
        "printable" => old_inputs::printable(LONGEST_RUN),
        "mixed" => old_inputs::mixed(LONGEST_RUN),
        _ => usage(),
    };
    match words[..] {
        ["check"] => {
            for name in ["printable", "mixed"] {
                let pairs = input(name);
                let mut state = to_state(&Condition::reset());
                let expected = expected_run(&state, &pairs);
                let answer = old_entry::run(&mut state, &pairs);
                if answer != expected.0 || state[..] != expected.1 {
                    println!("lounge_speed: the two differ on {}", name);
                    std::process::exit(1);
                }
            }
            println!("lounge_speed: both leave the same on 32,768 printable and on 32,768 mixed pairs");
        }
        [who, what, repeats] => {
            let pairs = input(what);
            let repeats = repeats.parse().unwrap_or_else(|_| usage());
            let last = match who {
                "own" => own(&pairs, repeats),
                "entry" => product(&pairs, repeats),
                _ => usage(),
            };
            println!("{:02X}", last);
        }
        _ => usage(),
    }
}

fn usage() -> ! {
    eprintln!("usage: lounge_speed own|entry printable|mixed REPEATS, or: lounge_speed check");
    std::process::exit(2)
}
