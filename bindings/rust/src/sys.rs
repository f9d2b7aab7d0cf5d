//! The functions of `llfree.h` that the crate calls, as the header declares them.
use crate::{Claim, Range};
use core::ffi::c_void;

#[repr(C)]
pub struct Handle {
    pub live: bool,
    pub state: *mut c_void,
}

#[repr(C)]
#[derive(Debug)]
pub struct Struct {
    pub live: bool,
    pub frame: u32,
    pub order: u8,
}

pub type Open = unsafe extern "C" fn(*mut Handle, usize, u32, *const Range, usize) -> u32;
pub type OpenZones = unsafe extern "C" fn(*mut Handle, usize, *const Range, usize, *const Range, usize) -> u32;

extern "C" {
    pub fn llfree_open(handles: *mut Handle, cores: usize, frames: u32, ranges: *const Range, count: usize) -> u32;
    pub fn llfree_open_unchecked(
        handles: *mut Handle, cores: usize, frames: u32, ranges: *const Range, count: usize,
    ) -> u32;
    pub fn llfree_open_zones(
        handles: *mut Handle, cores: usize, zones: *const Range, zone_count: usize, ranges: *const Range,
        range_count: usize,
    ) -> u32;
    pub fn llfree_open_zones_unchecked(
        handles: *mut Handle, cores: usize, zones: *const Range, zone_count: usize, ranges: *const Range,
        range_count: usize,
    ) -> u32;
    pub fn llfree_reopen(
        handles: *mut Handle, cores: usize, frames: u32, words: *const u64, count: usize, claims: *const Claim,
        claimed: usize,
    ) -> u32;
    pub fn llfree_reopen_zones(
        handles: *mut Handle, cores: usize, zones: *const Range, zone_count: usize, words: *const u64, count: usize,
        claims: *const Claim, claimed: usize,
    ) -> u32;
    pub fn llfree_close_image(handle: *mut Handle, words: *mut u64, count: usize) -> u32;
    pub fn llfree_close(handle: *mut Handle);
    pub fn llfree_image_words(frames: u32) -> usize;

    pub fn llfree_take(handle: *mut Handle, order: u8, frame: *mut u32) -> u32;
    pub fn llfree_give(handle: *mut Handle, frame: u32, order: u8) -> u32;
    pub fn llfree_split(handle: *mut Handle, frame: u32, order: u8) -> u32;
    pub fn llfree_split_to(handle: *mut Handle, frame: u32, order: u8, to: u8) -> u32;
    pub fn llfree_order_at(handle: *mut Handle, frame: u32, order: *mut u8) -> u32;
    pub fn llfree_take_at(handle: *mut Handle, frame: u32, order: u8) -> u32;
    pub fn llfree_take_block(handle: *mut Handle, order: u8, block: *mut Struct) -> u32;
    pub fn llfree_take_block_at(handle: *mut Handle, frame: u32, order: u8, block: *mut Struct) -> u32;
    pub fn llfree_give_block(handle: *mut Handle, block: *mut Struct) -> u32;
    pub fn llfree_split_block(handle: *mut Handle, block: *mut Struct, upper: *mut Struct) -> u32;
    pub fn llfree_take_frame(handle: *mut Handle, block: *mut Struct) -> u32;
    pub fn llfree_give_frame(handle: *mut Handle, block: *mut Struct) -> u32;
    pub fn llfree_take_frames(handle: *mut Handle, blocks: *mut Struct, count: usize, taken: *mut usize) -> u32;
    pub fn llfree_give_frames(handle: *mut Handle, blocks: *mut Struct, count: usize) -> u32;
    pub fn llfree_take_number(handle: *mut Handle, frame: *mut u32) -> u32;
    pub fn llfree_give_number(handle: *mut Handle, frame: u32) -> u32;
    pub fn llfree_drain(handle: *mut Handle);
    pub fn llfree_resting(handle: *mut Handle) -> u32;

    pub fn llfree_is_free(handle: *mut Handle, frame: u32, order: u8) -> bool;
    pub fn llfree_take_run(handle: *mut Handle, count: u32, frame: *mut u32) -> u32;
    pub fn llfree_give_run(handle: *mut Handle, frame: u32, count: u32) -> u32;

    pub fn llfree_frames(handle: *mut Handle) -> u32;
    pub fn llfree_free_frames(handle: *mut Handle) -> u32;
    pub fn llfree_free_huge(handle: *mut Handle) -> u32;
    pub fn llfree_zones(handle: *mut Handle) -> u32;
    pub fn llfree_home(handle: *mut Handle) -> u32;
    pub fn llfree_set_home(handle: *mut Handle, zone: u32) -> u32;
    pub fn llfree_free_frames_of(handle: *mut Handle, zone: u32) -> u32;
    pub fn llfree_free_huge_of(handle: *mut Handle, zone: u32) -> u32;
}
