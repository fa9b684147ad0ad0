//! The product's C functions (include/sign.h), on buffers with guard bytes on both sides.
#![allow(dead_code, unused_imports)]

#[path = "lent.rs"]
mod lent;
pub use lent::{with_giant, Lent};

extern "C" {
    fn sign_run(
        block: *mut u8,
        block_len: usize,
        tally: *mut u8,
        tally_len: usize,
        bytes: *const u8,
        bytes_len: usize,
    ) -> u32;
    fn sign_plan(
        block: *const u8,
        block_len: usize,
        codes: *const u8,
        codes_len: usize,
        cursor: u32,
        out: *mut u8,
        out_len: usize,
    ) -> u32;
    fn sign_plan_fonts(
        block: *const u8,
        block_len: usize,
        codes: *const u8,
        codes_len: usize,
        fonts: *const u8,
        fonts_len: usize,
        cursor: u32,
        out: *mut u8,
        out_len: usize,
    ) -> u32;
    fn sign_reel(
        block: *const u8,
        block_len: usize,
        codes: *const u8,
        codes_len: usize,
        cursors: *const u8,
        cursors_len: usize,
        lengths: *mut u8,
        lengths_len: usize,
        out: *mut u8,
        out_len: usize,
    ) -> u32;
    fn sign_recover(block: *const u8, block_len: usize, out: *mut u8, out_len: usize) -> u32;
    fn sign_vet(
        block: *const u8,
        block_len: usize,
        codes: *const u8,
        codes_len: usize,
        cursor: u32,
        bytes: *const u8,
        bytes_len: usize,
    ) -> u32;
    fn sign_power_up(font: u32, block: *mut u8, block_len: usize) -> u32;
    fn sign_view(block: *const u8, block_len: usize, position: u32) -> u32;
    fn sign_dot(block: *const u8, block_len: usize, code: u32, k: u32) -> u32;
    fn sign_underline(block: *const u8, block_len: usize, code: u32) -> u32;
    fn sign_lit(block: *const u8, block_len: usize, code: u32) -> u32;
}

pub fn run(block: &mut [u8], tally: &mut [u8], bytes: &[u8]) -> u32 {
    unsafe {
        sign_run(
            block.as_mut_ptr(),
            block.len(),
            tally.as_mut_ptr(),
            tally.len(),
            bytes.as_ptr(),
            bytes.len(),
        )
    }
}

pub fn plan(block: &[u8], codes: &[u8], cursor: u32, out: &mut [u8]) -> u32 {
    unsafe {
        sign_plan(
            block.as_ptr(),
            block.len(),
            codes.as_ptr(),
            codes.len(),
            cursor,
            out.as_mut_ptr(),
            out.len(),
        )
    }
}

pub fn plan_fonts(block: &[u8], codes: &[u8], fonts: &[u8], cursor: u32, out: &mut [u8]) -> u32 {
    unsafe {
        sign_plan_fonts(
            block.as_ptr(),
            block.len(),
            codes.as_ptr(),
            codes.len(),
            fonts.as_ptr(),
            fonts.len(),
            cursor,
            out.as_mut_ptr(),
            out.len(),
        )
    }
}

/// sign_plan_fonts where there are fonts, otherwise sign_plan.
pub fn plan_either(block: &[u8], codes: &[u8], fonts: Option<&[u8]>, cursor: u32, out: &mut [u8]) -> u32 {
    match fonts {
        Some(fonts) => plan_fonts(block, codes, fonts, cursor, out),
        None => plan(block, codes, cursor, out),
    }
}

pub fn reel(block: &[u8], codes: &[u8], cursors: &[u8], lengths: &mut [u8], out: &mut [u8]) -> u32 {
    unsafe {
        sign_reel(
            block.as_ptr(),
            block.len(),
            codes.as_ptr(),
            codes.len(),
            cursors.as_ptr(),
            cursors.len(),
            lengths.as_mut_ptr(),
            lengths.len(),
            out.as_mut_ptr(),
            out.len(),
        )
    }
}

pub fn recover(block: &[u8], out: &mut [u8]) -> u32 {
    unsafe { sign_recover(block.as_ptr(), block.len(), out.as_mut_ptr(), out.len()) }
}

pub fn vet(block: &[u8], codes: &[u8], cursor: u32, bytes: &[u8]) -> u32 {
    unsafe {
        sign_vet(
            block.as_ptr(),
            block.len(),
            codes.as_ptr(),
            codes.len(),
            cursor,
            bytes.as_ptr(),
            bytes.len(),
        )
    }
}

pub fn power_up(font: u32, block: &mut [u8]) -> u32 {
    unsafe { sign_power_up(font, block.as_mut_ptr(), block.len()) }
}

pub fn view(block: &[u8], position: u32) -> u32 {
    unsafe { sign_view(block.as_ptr(), block.len(), position) }
}

pub fn dot(block: &[u8], code: u32, k: u32) -> u32 {
    unsafe { sign_dot(block.as_ptr(), block.len(), code, k) }
}

pub fn underline(block: &[u8], code: u32) -> u32 {
    unsafe { sign_underline(block.as_ptr(), block.len(), code) }
}

pub fn lit(block: &[u8], code: u32) -> u32 {
    unsafe { sign_lit(block.as_ptr(), block.len(), code) }
}
