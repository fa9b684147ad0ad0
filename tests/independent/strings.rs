//! Strings to vet: pictures of every kind, plans of them, right strings by long ways, and wrong ones.
#![allow(dead_code)]

use crate::inputs::place;
use crate::module::*;
use crate::rng::Rng;
use crate::wants::*;

/// What a string is vetted against, as a host lends it.
#[derive(Clone)]
pub struct Want {
    pub block: Vec<u8>,
    pub codes: Vec<u8>,
    pub asked: u32,
}

impl Want {
    pub fn new(c: &Condition, codes: &[u8; CELLS], asked: usize) -> Want {
        Want {
            block: c.to_block().to_vec(),
            codes: codes.to_vec(),
            asked: asked as u32,
        }
    }

    /// The picture that this string leaves, if it is run.
    pub fn left_by(c: &Condition, bytes: &[u8]) -> Want {
        let left = c.after(bytes);
        Want::new(c, &left.codes, left.cursor)
    }

    fn forty(&self) -> &[u8; CELLS] {
        self.codes[..].try_into().expect("40 codes")
    }

    /// The plan, by the independent planner; this is the block's condition.
    pub fn plan(&self, c: &Condition, moves: &Moves) -> Vec<u8> {
        plan(c, self.forty(), self.asked, moves).expect("a picture that can be planned")
    }
}

/// Does this plan begin with a clear?
pub fn starts_clear(c: &Condition, bytes: &[u8]) -> bool {
    bytes.first() == Some(&CLEAR) && !c.is_user(CLEAR)
}

/// The jump to a place.
pub fn jump(to: usize) -> [u8; 3] {
    [0x1B, 0x48, to as u8]
}

/// One of the moves: a byte, or a jump.
pub fn some_move(rng: &mut Rng) -> Vec<u8> {
    match rng.below(8) {
        0 => jump(place(rng)).to_vec(),
        _ => vec![rng.pick(&SINGLE_MOVES)],
    }
}

/// A condition that can be planned from and a picture for it, of every kind: full glasses and short notices, few
/// changes and many, user characters below 20h, one on 0Eh that is wanted or not.
pub fn some_picture(rng: &mut Rng) -> (Condition, Want) {
    let mut c = start(rng, &PLANNERS_CODES);
    if rng.once_in(4) {
        user_on_clear(&mut c);
    }
    c.cursor = place(rng);
    if rng.once_in(2) {
        c.fonts = [c.font; CELLS];
    }
    let mut codes = if rng.once_in(3) {
        full(&mut c, rng);
        notice(&c, rng)
    } else {
        some_codes(&c, rng)
    };
    if c.is_user(CLEAR) && rng.once_in(2) {
        codes[rng.pick(&[0, c.cursor, 20])] = CLEAR;
    }
    let asked = place(rng);
    let want = Want::new(&c, &codes, asked);
    (c, want)
}

/// A right string by a long way: with a clear or without, right cells written again, moves that lead here and there.
pub fn long_way(c: &Condition, want: &Want, rng: &mut Rng, moves: &Moves) -> Vec<u8> {
    let goal = Wanted::in_one_font(c, *want.forty(), want.asked as usize);
    let (mut now, mut bytes) = (c.clone(), vec![]);
    if let (true, Some(blank)) = (rng.once_in(2), cleared(c)) {
        now = blank;
        bytes.push(CLEAR);
    }
    let again = rng.pick(&[1, 2, 5, 1_000]);
    let strays = rng.pick(&[1, 3, 1_000]);
    for cell in 0..=CELLS {
        let writes = cell < CELLS && (now.is_wrong(cell, &goal) || rng.once_in(again));
        if writes || cell == CELLS {
            let mut step = vec![];
            while rng.once_in(strays) && step.len() < 6 {
                step.extend(some_move(rng));
            }
            let at = now.after(&step).cursor;
            let to = if writes { cell } else { goal.asked };
            let there = jump(to);
            step.extend(if rng.once_in(3) { &there[..] } else { moves.path(at, to) });
            step.extend(writes.then(|| goal.codes[cell]));
            now = now.after(&step);
            bytes.extend(step);
        }
    }
    bytes
}

/// A right string of so many bytes: moves, a jump back, the plan; a clear stays first.
pub fn right_of_length(c: &Condition, want: &Want, length: usize, rng: &mut Rng, moves: &Moves) -> Vec<u8> {
    let bytes = want.plan(c, moves);
    let (clear, rest) = bytes.split_at(starts_clear(c, &bytes) as usize);
    let mut long = clear.to_vec();
    while long.len() + 3 + rest.len() < length {
        long.push(rng.pick(&SINGLE_MOVES));
    }
    long.extend(jump(c.cursor));
    long.extend_from_slice(rest);
    long
}

/// A string cut at this place; with a byte put in there, changed, dropped, doubled, and exchanged with the next.
pub fn changed_at(want: &Want, bytes: &[u8], at: usize, rng: &mut Rng) -> Vec<Vec<u8>> {
    let put = match rng.below(4) {
        0 => rng.pick(&[CLEAR, 0x0F, 0x18, 0x19, 0x1A, 0x1B, 0x00, 0x20]),
        1 => rng.pick(&SINGLE_MOVES),
        2 => rng.pick(&want.codes),
        _ => rng.byte(),
    };
    let (before, behind) = bytes.split_at(at);
    let mut all = vec![before.to_vec(), [before, &[put], behind].concat()];
    if let [this, rest @ ..] = behind {
        all.push([before, &[put], rest].concat());
        all.push([before, rest].concat());
        all.push([before, &[*this], behind].concat());
        if let [next, rest @ ..] = rest {
            all.push([before, &[*next, *this], rest].concat());
        }
    }
    all
}
