//! Bytes to lend to the product: between guard bytes, or four gigabytes of them.
#![allow(dead_code)]

use crate::rng::Rng;
use std::alloc::{alloc_zeroed, dealloc, Layout};

/// Lends four gigabytes and some bytes, all 0, which are hardly touched. False where the machine does not have them.
pub fn with_giant<F: FnOnce(&mut [u8])>(some: usize, call: F) -> bool {
    let n = (1usize << 32) + some;
    let layout = Layout::from_size_align(n, 16).unwrap();
    let p = unsafe { alloc_zeroed(layout) };
    if p.is_null() {
        println!("not tried: lengths above four gigabytes (this machine does not lend so much)");
        return false;
    }
    call(unsafe { std::slice::from_raw_parts_mut(p, n) });
    unsafe { dealloc(p, layout) };
    true
}

/// Bytes to lend, at any alignment, between guard bytes.
pub struct Lent {
    all: Vec<u8>,
    before: Vec<u8>,
    from: usize,
    to: usize,
}

impl Lent {
    pub fn new(content: &[u8], rng: &mut Rng) -> Lent {
        let from = 16 + rng.below(16);
        let to = from + content.len();
        let mut all = vec![0; to + 16 + rng.below(16)];
        let pattern = rng.byte() | 1;
        for (i, g) in all.iter_mut().enumerate() {
            *g = (i as u8).wrapping_mul(pattern) ^ 0xA5;
        }
        all[from..to].copy_from_slice(content);
        Lent {
            before: all.clone(),
            all,
            from,
            to,
        }
    }

    pub fn bytes(&self) -> &[u8] {
        &self.all[self.from..self.to]
    }

    pub fn bytes_mut(&mut self) -> &mut [u8] {
        &mut self.all[self.from..self.to]
    }

    /// The guard bytes are as they were.
    pub fn guarded(&self) -> bool {
        self.all[..self.from] == self.before[..self.from] && self.all[self.to..] == self.before[self.to..]
    }

    /// All is as it was, guard bytes too.
    pub fn untouched(&self) -> bool {
        self.all == self.before
    }
}
