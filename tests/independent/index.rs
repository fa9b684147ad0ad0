//! A condition by value may have any index. Each call of the library that takes a condition is given well-formed ones
//! whose index is the list's, and the same with entries changed, which it is to refuse by 3. Linked with
//! libindex_entry.a, the tests' entry. No block holds an index, so no host's call can be given such a condition.

mod inputs;
mod module;
mod report;
mod rng;

use inputs::{any_condition, reached_condition};
use module::*;
use report::Report;
use rng::Rng;

extern "C" {
    fn index_refusal(call: u32, s: *const u8, s_len: usize, entries: *const u8, entries_len: usize) -> u32;
}

const CALLS: [&str; 10] = [
    "run", "plan", "plan_fonts", "reel", "recover", "write", "view", "dot", "underline", "lit",
];

const ENTRIES: usize = 256;

/// How often each call was due each refusal, 0 to 11.
type Met = [[u64; 12]; CALLS.len()];

fn asked(call: usize, block: &[u8], entries: &[u8]) -> u32 {
    unsafe { index_refusal(call as u32, block.as_ptr(), block.len(), entries.as_ptr(), entries.len()) }
}

/// What the paper says of an index: from code to place in the list, 0 for none, otherwise 1 to 16.
fn index_of(c: &Condition) -> [u8; ENTRIES] {
    let mut entries = [0; ENTRIES];
    for (code, entry) in entries.iter_mut().enumerate() {
        *entry = c.place_of_user(code as u8).map_or(0, |place| place as u8 + 1);
    }
    entries
}

/// The refusal of each call for a condition with the index of its list, by the independent program; 0 for none.
fn due(call: usize, c: &Condition, moves: &Moves) -> u32 {
    fn number<T>(answer: Result<T, u32>) -> u32 {
        answer.err().unwrap_or(0)
    }
    let oldest = c.users[0].code;
    let formed = if c.well_formed() { 0 } else { 3 };
    match CALLS[call] {
        "run" => number(run(c, &Tally::ZERO, &[])),
        "plan" => number(plan(c, &[0x20; CELLS], 0, moves)),
        "plan_fonts" => number(plan_fonts(c, &[0x20; CELLS], &[0; CELLS], 0, moves)),
        "reel" => reel(c, &[], &[], 1, moves).err().map_or(0, |(_, n)| n),
        "recover" => number(recover(c, 8)),
        "dot" => formed.max(number(c.dot(oldest, 1))),
        "underline" => formed.max(number(c.underline(oldest))),
        "lit" => formed.max(number(c.lit(oldest))),
        _ => formed,
    }
}

/// All calls with these entries: what is due, or 3 where they are not those of the list.
fn all_calls(report: &mut Report, met: &mut Met, c: &Condition, entries: &[u8; ENTRIES], moves: &Moves) {
    let block = c.to_block();
    let agrees = *entries == index_of(c);
    for call in 0..CALLS.len() {
        let expected = if agrees { due(call, c, moves) } else { 3 };
        let got = asked(call, &block, entries);
        met[call][expected as usize] += 1;
        report.cases += 1;
        report.expect(got == expected, || {
            format!("{}: {} and not {} with {:?} for {:?}", CALLS[call], got, expected, &entries[..], c)
        });
    }
}

fn main() {
    let moves = Moves::new();
    let mut rng = Rng::new(9);
    let mut report = Report::new();
    let mut met: Met = [[0; 12]; CALLS.len()];
    for i in 0..400 {
        let c = if i % 2 == 0 { any_condition(&mut rng) } else { reached_condition(&mut rng) };
        let right = index_of(&c);
        all_calls(&mut report, &mut met, &c, &right, &moves);
        // every entry alone, with one more, one less, none, the oldest's, the youngest's and any
        for code in 0..ENTRIES {
            let any = rng.byte();
            for value in [right[code].wrapping_add(1), right[code].wrapping_sub(1), 0, 1, 16, any] {
                let mut wrong = right;
                wrong[code] = value;
                all_calls(&mut report, &mut met, &c, &wrong, &moves);
            }
        }
        // two exchanged, all one code further on, none, and the index of another condition
        let other = any_condition(&mut rng);
        let (a, b) = (rng.below(ENTRIES), rng.below(ENTRIES));
        let mut exchanged = right;
        exchanged.swap(a, b);
        let mut turned = right;
        turned.rotate_right(1);
        for wrong in [exchanged, turned, [0; ENTRIES], index_of(&other)] {
            all_calls(&mut report, &mut met, &c, &wrong, &moves);
        }
    }
    // a code that stands twice: its index has the first place, and the condition is refused all the same
    for _ in 0..200 {
        let mut c = any_condition(&mut rng);
        if c.count > 1 {
            c.users[c.count - 1].code = c.users[0].code;
            let right = index_of(&c);
            all_calls(&mut report, &mut met, &c, &right, &moves);
        }
    }
    // entries that are no index
    let block = Condition::power_up(0).to_block();
    for call in 0..CALLS.len() {
        for length in [0, 1, 32, 255, 257, 512] {
            let got = asked(call, &block, &vec![0; length]);
            report.expect(got == 1, || format!("{}: {} with {} entries", CALLS[call], got, length));
        }
    }
    for (call, met) in CALLS.iter().zip(met) {
        println!("index: {} accepted {}, refused 3 {}", call, met[0], met[3]);
        report.expect(met[0] > 0 && met[3] > 0, || format!("{} was not met accepted and refused", call));
    }
    report.end("index", 6_000_000)
}
