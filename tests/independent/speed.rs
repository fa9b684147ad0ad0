//! What an input byte costs: the independent interpreter beside sign_run, each from power-up on 32,768
//! bytes. `tests/run.sh speed` counts the instructions of this program. Linked with libsign.a.
//! Usage: speed own|sign INPUT REPEATS, or: speed check (both leave the same). The inputs: printable, mixed, mixed-16,
//! definitions, initialise.

mod inputs;
mod module;
mod rng;
mod sign;

use module::*;

/// Hides a value from the compiler, so that no repeat is left out (std's black_box came after 1.63).
fn hidden<T>(x: T) -> T {
    unsafe {
        let y = std::ptr::read_volatile(&x);
        std::mem::forget(x);
        y
    }
}

fn own(bytes: &[u8], repeats: usize) -> [u8; TALLY] {
    let mut t = Tally::ZERO;
    for _ in 0..repeats {
        let start = hidden(Condition::power_up(0));
        let (c, after) = run(&start, &Tally::ZERO, bytes).expect("an accepted run");
        hidden(c);
        t = after;
    }
    t.to_bytes()
}

fn product(bytes: &[u8], repeats: usize) -> [u8; TALLY] {
    let start = Condition::power_up(0).to_block();
    let mut tally = [0; TALLY];
    for _ in 0..repeats {
        let mut block = start;
        tally = [0; TALLY];
        assert_eq!(sign::run(&mut block, &mut tally, bytes), 0);
    }
    tally
}

fn main() {
    let words: Vec<String> = std::env::args().skip(1).collect();
    let words: Vec<&str> = words.iter().map(|w| w.as_str()).collect();
    let input = |name: &str| match name {
        "printable" => inputs::printable(LONGEST_RUN),
        "mixed" => inputs::mixed(LONGEST_RUN),
        "mixed-16" => inputs::mixed_16(LONGEST_RUN),
        "definitions" => inputs::all_definitions(LONGEST_RUN),
        "initialise" => inputs::all_initialise(LONGEST_RUN),
        _ => usage(),
    };
    match words[..] {
        ["check"] => {
            for name in ["printable", "mixed", "mixed-16", "definitions", "initialise"] {
                let bytes = input(name);
                let mut block = Condition::power_up(0).to_block();
                let mut expected = block;
                let (mut t, mut u) = ([0; TALLY], [0; TALLY]);
                let a = sign::run(&mut block, &mut t, &bytes);
                let b = host_run(&mut expected, &mut u, &bytes);
                if a != b || block != expected || t != u {
                    println!("speed: the two differ on {}", name);
                    std::process::exit(1);
                }
            }
            println!("speed: both leave the same on 32,768 bytes of each input");
        }
        [who, what, repeats] => {
            let bytes = input(what);
            let repeats = repeats.parse().unwrap_or_else(|_| usage());
            let tally = match who {
                "own" => own(&bytes, repeats),
                "sign" => product(&bytes, repeats),
                _ => usage(),
            };
            println!("{:?}", tally);
        }
        _ => usage(),
    }
}

fn usage() -> ! {
    eprintln!("usage: speed own|sign INPUT REPEATS, or: speed check");
    std::process::exit(2)
}
