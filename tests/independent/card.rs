//! Blocks as boards append them to a card, good ones and those that a worn card gives back, and files of
//! them.

use crate::inputs::{any_condition, damage, reached_condition, rich};
use crate::module::{check_of, seal, Condition, Half, BLOCK};
use crate::rng::Rng;

pub type Block = [u8; BLOCK];

pub fn is_good(block: &[u8]) -> bool {
    Condition::from_block(block).is_ok()
}

/// The block changed at these places, with the check made right again.
pub fn with(block: &Block, places: &[(usize, u8)]) -> Block {
    let mut b = *block;
    for &(place, value) in places {
        b[place] = value;
    }
    seal(&mut b);
    b
}

/// A condition in which 1Bh is a user character, so that no command can be half received.
pub fn without_escape() -> Condition {
    let mut c = rich();
    c.half = Half::Nothing;
    c.users[c.count].code = 0x1B;
    c.count += 1;
    c
}

/// A good block whose check is so low that 65,521 more still fits into its two bytes.
pub fn low_check(rng: &mut Rng) -> Block {
    loop {
        let block = any_condition(rng).to_block();
        if check_of(&block) < 15 {
            return block;
        }
    }
}

/// A good block of any kind.
pub fn some_good(rng: &mut Rng) -> Block {
    let c = match rng.below(6) {
        0 => Condition::power_up(0),
        1 => Condition::power_up(1),
        2 | 3 => reached_condition(rng),
        _ => any_condition(rng),
    };
    c.to_block()
}

/// A bad block of any kind.
pub fn some_bad(rng: &mut Rng) -> Block {
    loop {
        let mut block = some_good(rng);
        wear(&mut block, rng);
        if !is_good(&block) {
            return block;
        }
    }
}

/// What a worn card, a cut write or a wrong program makes of a block; it may still be good after it.
fn wear(block: &mut Block, rng: &mut Rng) {
    let place = rng.below(BLOCK);
    match rng.below(10) {
        0 => block.copy_from_slice(&rng.bytes(BLOCK)),
        1 => block.fill(rng.pick(&[0x00, 0xFF, 0x20, 0x56])),
        2 => block[place] = rng.byte(),
        3 => block[place] ^= 1 << rng.below(8),
        4 => block[rng.below(3)] = rng.byte(),
        5 => block[510 + rng.below(2)] ^= 1 << rng.below(8),
        // cut: the rest is of another block, or was erased, or all stands elsewhere
        6 => {
            let other = some_good(rng);
            block[place..].copy_from_slice(&other[place..]);
        }
        7 => block[place..].fill(rng.pick(&[0x00, 0xFF])),
        8 => block.rotate_left(place),
        _ => damage(block, rng),
    }
}

/// So many blocks, one in `good_in` of them good; in runs, mostly, and good ones come again.
pub fn mixture(rng: &mut Rng, n: usize, good_in: usize) -> Vec<Block> {
    let mut blocks: Vec<Block> = Vec::new();
    while blocks.len() < n {
        let good = rng.once_in(good_in);
        let block = match blocks.len() {
            // the one before, or any other, once more
            held if held > 0 && rng.once_in(6) => blocks[held - 1 - rng.below(held.min(3))],
            _ if good => some_good(rng),
            _ => some_bad(rng),
        };
        if is_good(&block) == good {
            blocks.resize(n.min(blocks.len() + rng.pick(&[1, 1, 1, 2, 5])), block);
        }
    }
    blocks
}

/// What a condition may be, and what it may not, from power-up for font 0: what it is, the places that are
/// changed, under a right check, and whether the block is good. By hand from document 01.
pub const RULES: [(&str, &[(usize, u8)], bool); 94] = [
    ("no first letter", &[(0, 0x57)], false),
    ("no second letter", &[(1, 0x4C)], false),
    ("letters exchanged", &[(0, 0x4B), (1, 0x56)], false),
    ("version 0", &[(2, 0)], false),
    ("version 2", &[(2, 2)], false),
    ("cursor 39", &[(3, 39)], true),
    ("cursor 40", &[(3, 40)], false),
    ("cursor 255", &[(3, 255)], false),
    ("mode 0", &[(4, 0)], false),
    ("mode 2", &[(4, 2)], true),
    ("mode 3", &[(4, 3)], true),
    ("mode 4", &[(4, 4)], false),
    ("scroll-on at 19", &[(3, 19), (4, 3), (5, 1)], true),
    ("scroll-on at 39", &[(3, 39), (4, 3), (5, 1)], true),
    ("scroll-on at 0", &[(3, 0), (4, 3), (5, 1)], false),
    ("scroll-on at 18", &[(3, 18), (4, 3), (5, 1)], false),
    ("scroll-on at 20", &[(3, 20), (4, 3), (5, 1)], false),
    ("scroll-on at 59", &[(3, 59), (4, 3), (5, 1)], false),
    ("scroll-on in mode 1", &[(3, 19), (4, 1), (5, 1)], false),
    ("scroll-on in mode 2", &[(3, 39), (4, 2), (5, 1)], false),
    ("scroll-on 2", &[(3, 19), (4, 3), (5, 2)], false),
    ("shown", &[(6, 1)], true),
    ("shown 2", &[(6, 2)], false),
    ("font 1", &[(7, 1)], true),
    ("font 2", &[(7, 2)], false),
    ("default font 1", &[(8, 1)], true),
    ("default font 2", &[(8, 2)], false),
    ("Euro", &[(9, 1)], true),
    ("Euro 2", &[(9, 2)], false),
    ("luminance 0", &[(10, 0)], true),
    ("luminance 4", &[(10, 4)], false),
    ("speed 0", &[(11, 0)], true),
    ("speed 255", &[(11, 255)], true),
    ("flickerless", &[(12, 1)], true),
    ("flickerless 2", &[(12, 2)], false),
    ("flickerless 255", &[(12, 255)], false),
    ("after ESC", &[(13, 1)], true),
    ("awaiting position", &[(13, 2)], true),
    ("awaiting luminance", &[(13, 3)], true),
    ("awaiting speed", &[(13, 4)], true),
    ("awaiting a user code", &[(13, 5)], true),
    ("awaiting user data", &[(13, 6)], true),
    ("kind 7", &[(13, 7)], false),
    ("kind 255", &[(13, 255)], false),
    ("a code, nothing half received", &[(14, 1)], false),
    ("bytes held, nothing half received", &[(15, 1)], false),
    ("a byte, nothing half received", &[(16, 1)], false),
    ("a code after ESC", &[(13, 1), (14, 0x1B)], false),
    ("a byte after ESC", &[(13, 1), (15, 1), (16, 7)], false),
    ("a code, its code awaited", &[(13, 5), (14, 0x41)], false),
    ("a last byte, a code awaited", &[(13, 5), (19, 1)], false),
    ("user data for FFh", &[(13, 6), (14, 0xFF)], true),
    ("user data for 1Bh", &[(13, 6), (14, 0x1B)], true),
    ("none held, a first byte", &[(13, 6), (14, 0x41), (16, 1)], false),
    ("one held", &[(13, 6), (14, 0x41), (15, 1), (16, 255)], true),
    ("one held, a second byte", &[(13, 6), (15, 1), (16, 255), (17, 1)], false),
    ("two held of 0", &[(13, 6), (15, 2)], true),
    ("two held, a third byte", &[(13, 6), (15, 2), (18, 1)], false),
    ("three held", &[(13, 6), (15, 3), (16, 1), (17, 2), (18, 3)], true),
    ("three held, a fourth byte", &[(13, 6), (15, 3), (19, 1)], false),
    ("four held", &[(13, 6), (15, 4), (16, 1), (17, 2), (18, 3), (19, 255)], true),
    ("five held", &[(13, 6), (15, 5)], false),
    ("255 held", &[(13, 6), (15, 255)], false),
    ("a user character on 00h", &[(20, 1)], true),
    ("two on 00h", &[(20, 2)], false),
    ("two on 41h and 42h", &[(20, 2), (104, 0x41), (110, 0x42)], true),
    ("two on 41h", &[(20, 2), (104, 0x41), (109, 1), (110, 0x41)], false),
    ("the first and the third on 41h", &[(20, 3), (104, 0x41), (110, 0x42), (116, 0x41)], false),
    ("a fifth byte of 15", &[(20, 1), (104, 0x41), (109, 15)], true),
    ("a fifth byte of 16", &[(20, 1), (104, 0x41), (109, 16)], false),
    ("a fourth byte of 255", &[(20, 1), (104, 0x41), (108, 255)], true),
    ("17 user characters", &[(20, 17)], false),
    ("255 user characters", &[(20, 255)], false),
    ("a code without a user character", &[(104, 0x41)], false),
    ("a dot without a user character", &[(109, 1)], false),
    ("a code after the last user character", &[(20, 1), (110, 0x41)], false),
    ("a dot at the place of the 16th", &[(20, 1), (199, 1)], false),
    ("1Bh a user character", &[(20, 1), (104, 0x1B)], true),
    ("1Bh a user character, after ESC", &[(20, 1), (104, 0x1B), (13, 1)], false),
    ("1Bh a user character, awaiting position", &[(20, 1), (104, 0x1B), (13, 2)], false),
    ("1Bh the second, awaiting user data", &[(20, 2), (110, 0x1B), (13, 6), (14, 1)], false),
    ("unused place 21", &[(21, 1)], false),
    ("unused place 22", &[(22, 1)], false),
    ("unused place 23", &[(23, 255)], false),
    ("unused place 200", &[(200, 1)], false),
    ("unused place 300", &[(300, 0x20)], false),
    ("unused place 509", &[(509, 1)], false),
    ("the first code 00h", &[(24, 0)], true),
    ("the last code FFh", &[(63, 0xFF)], true),
    ("the first cell in font 1", &[(64, 1)], true),
    ("the last cell in font 1", &[(103, 1)], true),
    ("the first cell in font 2", &[(64, 2)], false),
    ("the last cell in font 255", &[(103, 255)], false),
    ("power-up as it is", &[], true),
];
