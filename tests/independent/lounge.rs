//! Calls lounge_run and lounge_view, the test entry of the old lounge module, with all kinds of arguments,
//! right and wrong, and compares each answer and each byte with the independent program. Linked with
//! liblounge_entry.a.

mod lent;
mod old_entry;
mod old_inputs;
mod old_module;
mod report;
mod rng;

use lent::Lent;
use old_entry::{expected_run, expected_view, from_state, to_state, STATE};
use old_inputs::*;
use old_module::*;
use report::{first_difference, hex, Report};
use rng::Rng;

/// Positions that are none; the low byte or the low half of some is one.
const WIDE: [u32; 10] = [
    40,
    41,
    59,
    255,
    256,
    256 + 5,
    65_536,
    65_536 + 39,
    1 << 31,
    u32::MAX,
];

/// The kinds of what is half received: nothing; ESC; a user character with 0 to 4 bytes; the first and the
/// second position awaited.
const HALVES: usize = 9;

fn kind_of(half: Half) -> usize {
    match half {
        Half::Nothing => 0,
        Half::Esc => 1,
        Half::UserData { count, .. } => 2 + count,
        Half::First { .. } => 7,
        Half::Second { .. } => 8,
    }
}

struct Lounge {
    report: Report,
    rng: Rng,
    /// Runs and views by refusal (0: accepted), to show that each was met.
    runs: [u64; 5],
    views: [u64; 4],
    /// Accepted runs by what was half received, and by the first pair: a data or a command write.
    from_half: [[u64; 2]; HALVES],
    /// Accepted runs by what they leave half received.
    to_half: [u64; HALVES],
    /// Views by what a cell shows: blank, user, built-in; and by level, blinking and underline.
    shown: [[u64; 8]; 3],
}

impl Lounge {
    fn new(seed: u64) -> Lounge {
        Lounge {
            report: Report::new(),
            rng: Rng::new(seed),
            runs: [0; 5],
            views: [0; 4],
            from_half: [[0; 2]; HALVES],
            to_half: [0; HALVES],
            shown: [[0; 8]; 3],
        }
    }

    /// One run, compared in all it leaves; answers the state after it, if it was accepted.
    fn run(&mut self, state: &[u8], pairs: &[u8]) -> Option<Vec<u8>> {
        let (expected, after) = expected_run(state, pairs);
        let mut s = Lent::new(state, &mut self.rng);
        let p = Lent::new(pairs, &mut self.rng);
        let got = old_entry::run(s.bytes_mut(), p.bytes());
        self.report.cases += 1;
        self.runs[expected as usize] += 1;
        let call = || {
            format!(
                "lounge_run, state of {} bytes, {}, {} bytes of pairs {}",
                state.len(),
                hex_all(state),
                pairs.len(),
                hex(pairs)
            )
        };
        self.report.expect(got == expected, || {
            format!("{}: answer {} and should be {}", call(), got, expected)
        });
        self.report.expect(s.bytes() == &after[..], || {
            format!("{}: state, {}", call(), first_difference(&after, s.bytes()))
        });
        self.report.expect(s.guarded() && p.untouched(), || {
            format!("{}: wrote outside", call())
        });
        if got != 0 {
            self.report.expect(s.untouched(), || {
                format!("{}: refused, and changed something", call())
            });
        }
        if expected != 0 {
            return None;
        }
        if !pairs.is_empty() {
            self.from_half[kind_of(from_state(state).half)][pairs[0] as usize] += 1;
        }
        self.to_half[kind_of(from_state(&after).half)] += 1;
        Some(s.bytes().to_vec())
    }

    fn view(&mut self, lent: &Lent, position: u32) {
        let expected = expected_view(lent.bytes(), position);
        let got = old_entry::view(lent.bytes(), position);
        self.report.cases += 1;
        if expected >= 65_536 {
            self.views[expected as usize - 65_536] += 1;
        } else {
            self.views[0] += 1;
            let shape = (expected as usize % 4_096 / 256 + 1) / 2; // of 0, 1 and 3
            self.shown[shape][expected as usize / 4_096] += 1;
        }
        self.report.expect(got == expected, || {
            format!(
                "lounge_view of {}, state {}: answer {} and should be {}",
                position,
                hex_all(lent.bytes()),
                got,
                expected
            )
        });
    }

    /// Every position, and some that are none. Nothing is written.
    fn all_views(&mut self, state: &[u8]) {
        let lent = Lent::new(state, &mut self.rng);
        for position in (0..CELLS as u32).chain(WIDE) {
            self.view(&lent, position);
        }
        self.report
            .expect(lent.untouched(), || "a view wrote somewhere".to_string());
    }

    /// One view, of any position.
    fn some_view(&mut self, state: &[u8]) {
        let position = if self.rng.once_in(4) {
            self.rng.pick(&WIDE)
        } else {
            self.rng.below(CELLS) as u32
        };
        let lent = Lent::new(state, &mut self.rng);
        self.view(&lent, position);
        self.report
            .expect(lent.untouched(), || "a view wrote somewhere".to_string());
    }

    /// A run, and all views of what it leaves, or of what it was refused for.
    fn run_and_views(&mut self, state: &[u8], pairs: &[u8]) {
        let after = self.run(state, pairs);
        self.all_views(after.as_deref().unwrap_or(state));
    }
}

/// All of a state, which is longer than what `hex` gives.
fn hex_all(bytes: &[u8]) -> String {
    bytes[..bytes.len().min(STATE)]
        .chunks(71)
        .map(hex)
        .collect::<Vec<_>>()
        .join(" ")
}

/// A condition with nearly every field away from its reset value.
fn rich() -> Condition {
    let mut c = Condition::reset();
    for i in 0..CELLS {
        c.codes[i] = (i * 7) as u8;
        c.marks[i] = (i % 8) as u8;
    }
    c.cursor = 39;
    c.mode = 2;
    c.scroll_on = true;
    c.dimming = true;
    c.last = 0xC3;
    for i in 0..7 {
        c.users[i] = User {
            code: i as u8 * 35,
            dots: [i as u8, 255, 128, 1, i as u8],
        };
    }
    c.count = 7;
    c.half = Half::UserData {
        code: 0x1B,
        count: 3,
        held: [9, 8, 7, 0],
    };
    c
}

/// Every byte value as data and as command, from many conditions: reset, one of each kind half received in
/// each mode at each line's end with scroll-on and without, and others.
fn each_byte(l: &mut Lounge) {
    let mut starts = vec![Condition::reset(), rich()];
    for (mode, cursor, scroll_on) in [
        (1, 19, false),
        (1, 39, false),
        (2, 19, false),
        (2, 19, true),
        (2, 39, false),
        (2, 39, true),
        (2, 5, false),
    ] {
        for half in [
            Half::Nothing,
            Half::Esc,
            Half::UserData {
                code: 0x41,
                count: 0,
                held: [0; 4],
            },
            Half::UserData {
                code: 0x17,
                count: 3,
                held: [1, 0, 255, 0],
            },
            Half::UserData {
                code: 0x1B,
                count: 4,
                held: [1, 2, 4, 8],
            },
            Half::First { area: 0x17 },
            Half::Second {
                area: 0x17,
                first: 0x12,
            },
            Half::Second {
                area: 0x19,
                first: 0x00,
            },
            Half::Second {
                area: 0x1C,
                first: 0x28,
            },
        ] {
            let mut c = any_condition(&mut l.rng);
            c.mode = mode;
            c.cursor = cursor;
            c.scroll_on = scroll_on;
            c.half = half;
            starts.push(c);
        }
    }
    for _ in 0..100 {
        starts.push(some_condition(&mut l.rng));
    }
    for c in starts {
        let state = to_state(&c);
        l.all_views(&state);
        for b in 0..=255 {
            for kind in [DATA, COMMAND] {
                l.run(&state, &[kind, b]);
            }
        }
    }
}

/// The lists that `show_lounge` tries from reset too: here from reset and from a condition of any kind.
fn lists(l: &mut Lounge) {
    let positions: Vec<u8> = (0..=0x29).chain([0x3F, 0x7F, 0x80, 0xFF]).collect();
    let lists = [
        areas(&positions),
        cut_sequences(),
        line_ends(),
        users_on_every_code(),
        many_users(),
        damaged(),
    ];
    for input in lists.concat() {
        l.run_and_views(&to_state(&Condition::reset()), &input);
        let c = some_condition(&mut l.rng);
        let after = l.run(&to_state(&c), &input);
        l.some_view(&after.unwrap_or_else(|| to_state(&c).to_vec()));
    }
}

/// Every byte of a state with every value that says something.
fn each_state_byte(l: &mut Lounge) {
    let mut second = rich();
    second.half = Half::Second {
        area: 0x19,
        first: 0x05,
    };
    second.count = 0;
    second.users = [NO_USER; USERS];
    let mut first = rich();
    first.half = Half::First { area: 0x1C };
    for c in [Condition::reset(), rich(), second, first] {
        for i in 0..STATE {
            for v in 0..=255u8 {
                let mut state = to_state(&c);
                state[i] = v;
                l.run(&state, &written("41 :41 17"));
                l.some_view(&state);
            }
        }
    }
}

/// Each thing that can be wrong with a condition, alone and with another: always 3, whatever the pairs.
fn spoiled(l: &mut Lounge) {
    for wrong in WRONGS {
        for other in WRONGS {
            for _ in 0..20 {
                let mut c = some_condition(&mut l.rng);
                if other != wrong {
                    spoil(&mut c, other, &mut l.rng);
                }
                spoil(&mut c, wrong, &mut l.rng);
                let length = l.rng.below(6);
                let pairs = some_pairs(&mut l.rng, length);
                let before = l.runs[3];
                l.run(&to_state(&c), &pairs);
                l.some_view(&to_state(&c));
                let refused = l.runs[3] - before == 1;
                l.report.expect(refused, || {
                    format!("{:?} and {:?} are not wrong: {:?}", wrong, other, c)
                });
            }
        }
    }
}

/// Every set of things that are wrong at once: the lowest number is given.
fn order_of_refusals(l: &mut Lounge) {
    let long = mixed(LONGEST_RUN + 1);
    for set in 0..1u32 << 6 {
        let wrong = |i: u32| set >> i & 1 == 1;
        let mut c = rich();
        if wrong(0) {
            let which = l.rng.pick(&WRONGS);
            spoil(&mut c, which, &mut l.rng);
        }
        let mut state = to_state(&c).to_vec();
        if wrong(1) {
            let length = l.rng.pick(&[0, 1, 6, 140, 142, 282, 512]);
            state.resize(length, 0);
        }
        let mut pairs = if wrong(2) {
            long.clone()
        } else {
            written("41 :13 42")
        };
        if wrong(3) {
            // the first pair
            pairs[0] = 2;
        }
        if wrong(4) {
            // the last pair, behind the longest run or not
            let last = pairs.len() - 2;
            pairs[last] = 0xFF;
        }
        if wrong(5) {
            // a kind without a byte
            let kind = l.rng.pick(&[0, 1, 2]);
            pairs.push(kind);
        }
        l.run(&state, &pairs);
        l.some_view(&state);
    }
}

/// One part alone of a wrong length: nothing changes.
fn part_lengths(l: &mut Lounge) {
    let state = to_state(&rich());
    let right: [Vec<u8>; 4] = [
        state[..13].to_vec(),
        state[13..53].to_vec(),
        state[53..93].to_vec(),
        state[93..].to_vec(),
    ];
    for part in 0..4 {
        for length in 0..60 {
            let mut parts = right.clone();
            parts[part].resize(length, 0);
            let expected = if length == right[part].len() { 0 } else { 1 };
            let before = parts.clone();
            let got = old_entry::run_parts(&mut parts, &[DATA, 0x41]);
            l.report.cases += 1;
            l.report.expect(got == expected && (expected == 0 || parts == before), || {
                format!("part {} of {} bytes: answer {}", part, length, got)
            });
        }
    }
}

/// Lengths of the state, and of the pairs, right and wrong.
fn lengths(l: &mut Lounge) {
    part_lengths(l);
    let state = to_state(&rich());
    for length in (0..400).chain([512, 1_024, 65_536 + STATE]) {
        let mut s = state.to_vec();
        s.resize(length, 0);
        for pairs in [&[][..], &[DATA, 0x41], &[2, 0x41], &[DATA]] {
            l.run(&s, pairs);
        }
        l.some_view(&s);
    }
    for c in [Condition::reset(), rich()] {
        let state = to_state(&c);
        for n in 0..200 {
            // half of these lengths are odd
            l.run(&state, &mixed(100)[..n]);
        }
        for n in [
            LONGEST_RUN - 1,
            LONGEST_RUN,
            LONGEST_RUN + 1,
            LONGEST_RUN + 2,
            65_535,
            65_536,
            65_537,
            100_000,
            200_000,
        ] {
            let good = mixed(n);
            l.run_and_views(&state, &good);
            l.run(&state, &printable(n));
            l.run(&state, &good[..2 * n - 1]);
            // a kind above 1 at some places, before and behind the longest run, and in the last pair
            for at in [
                0,
                1,
                n / 2,
                LONGEST_RUN - 2,
                LONGEST_RUN - 1,
                LONGEST_RUN,
                LONGEST_RUN + 1,
                n - 2,
                n - 1,
            ] {
                if at < n {
                    let mut wrong = good.clone();
                    wrong[2 * at] = l.rng.pick(&[2, 3, 0x41, 0x80, 0xFF]);
                    l.run(&state, &wrong);
                    l.run(&state, &wrong[..2 * n - 1]);
                }
            }
        }
    }
}

/// Any condition, any pairs, with now and then something wrong.
fn random(l: &mut Lounge, cases: usize) {
    for i in 0..cases {
        let mut c = some_condition(&mut l.rng);
        if l.rng.once_in(20) {
            let wrong = l.rng.pick(&WRONGS);
            spoil(&mut c, wrong, &mut l.rng);
        }
        let length = if i % 1_000 == 0 {
            32_700 + l.rng.below(70)
        } else {
            l.rng.below(80)
        };
        let mut pairs = some_pairs(&mut l.rng, length);
        if l.rng.once_in(40) {
            pairs.push(l.rng.byte());
        }
        if l.rng.once_in(40) && !pairs.is_empty() {
            let at = 2 * l.rng.below(pairs.len() / 2 + 1);
            if at < pairs.len() {
                pairs[at] = l.rng.byte();
            }
        }
        let state = to_state(&c);
        if i % 4 == 0 {
            l.run_and_views(&state, &pairs);
        } else {
            l.run(&state, &pairs);
        }
    }
}

/// The same pairs in one run or in several end alike; each pair alone, too.
fn pieces(l: &mut Lounge, cases: usize) {
    for i in 0..cases {
        let c = some_condition(&mut l.rng);
        let length = l.rng.below(150);
        let pairs = some_pairs(&mut l.rng, length);
        let state = to_state(&c).to_vec();
        let whole = l.run(&state, &pairs);
        let most = if i % 4 == 0 { 1 } else { 20 };
        let mut now = Some(state);
        let mut rest = &pairs[..];
        while !rest.is_empty() {
            let cut = (2 + 2 * l.rng.below(most)).min(rest.len());
            now = now.and_then(|state| l.run(&state, &rest[..cut]));
            rest = &rest[cut..];
        }
        l.report
            .expect(whole == now, || format!("in pieces otherwise: {}", hex(&pairs)));
    }
}

/// A long day: one state carried through many of the longest runs.
fn long_day(l: &mut Lounge) {
    let mut now = to_state(&Condition::reset()).to_vec();
    for i in 0..30 {
        let pairs = pairs(&mut l.rng, LONGEST_RUN, FLAVOURS[i % FLAVOURS.len()], i >= 12);
        match l.run(&now, &pairs) {
            Some(next) => now = next,
            None => return l.report.expect(false, || "a long day: refused".to_string()),
        }
        l.all_views(&now);
    }
}

/// Lengths of four gigabytes and some: not cut to 32 bits.
fn giant_lengths(l: &mut Lounge) {
    let good = to_state(&rich());
    lent::with_giant(STATE, |giant| {
        giant[..STATE].copy_from_slice(&good);
        let a = old_entry::run(giant, &[DATA, 0x41]);
        let b = old_entry::view(giant, 0);
        l.report
            .expect(a == 1 && b == 65_537 && giant[..STATE] == good, || {
                format!("a giant state: answers {} and {}", a, b)
            });
        // cut to 32 bits this is 70 right pairs; the 71st has no right kind
        giant[..STATE].fill(0);
        giant[STATE - 1] = 2;
        let mut state = good;
        let a = old_entry::run(&mut state, &giant[..giant.len() - 1]);
        l.report
            .expect(a == 3 && state == good, || format!("a giant run: answer {}", a));
        l.report.cases += 3;
    });
}

/// Each kind of answer, of what is half received and of what is shown must have been met.
fn all_met(l: &mut Lounge) {
    println!(
        "lounge: runs by answer 0, 1, 3, 4: {:?}",
        [l.runs[0], l.runs[1], l.runs[3], l.runs[4]]
    );
    println!(
        "lounge: views by answer 0, 1, 3: {:?}",
        [l.views[0], l.views[1], l.views[3]]
    );
    println!(
        "lounge: accepted runs from each kind half received, data and command first: {:?}",
        l.from_half
    );
    println!("lounge: accepted runs to each: {:?}", l.to_half);
    println!(
        "lounge: blank, user, built-in by level, blinking, underline: {:?}",
        l.shown
    );
    for n in [0, 1, 3, 4] {
        l.report
            .expect(l.runs[n] > 0, || format!("no run was answered {}", n));
    }
    for n in [0, 1, 3] {
        l.report
            .expect(l.views[n] > 0, || format!("no view was answered {}", n));
    }
    let halves = l.from_half.iter().flatten().chain(&l.to_half).all(|&n| n > 0);
    l.report.expect(halves, || {
        "a kind of what is half received was not met".to_string()
    });
    let shown = l.shown.iter().flatten().all(|&n| n > 0);
    l.report
        .expect(shown, || "a kind of what is shown was not met".to_string());
}

fn main() {
    let mut l = Lounge::new(8);
    each_byte(&mut l);
    lists(&mut l);
    each_state_byte(&mut l);
    spoiled(&mut l);
    order_of_refusals(&mut l);
    lengths(&mut l);
    random(&mut l, 40_000);
    pieces(&mut l, 1_500);
    long_day(&mut l);
    giant_lengths(&mut l);
    all_met(&mut l);
    l.report.end("lounge", 300_000);
}
