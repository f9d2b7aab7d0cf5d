//! A region of memory whose page frames are taken as slices of bytes that give themselves back.
//!
//! It prints `2 slices, 12288 bytes, 4093 frames free` and `4096 frames free`.
use llfree::{Core, Frames, Pool, Processor, Refused, FRAME_BYTES};
use std::alloc::{alloc_zeroed, dealloc, handle_alloc_error, Layout};
use std::ops::{Deref, DerefMut};

const FRAMES: u32 = 4096;

struct One;

impl Processor for One {
    fn now() -> usize {
        0
    }
}

/// 16 MiB, and the cores that say who has which frame of it.
struct Region {
    first: *mut u8,
    pool: Pool<One, 2>,
}

/// The bytes of a block.
struct Slice<'r> {
    first: *mut u8,
    frames: Frames<'r, One, 2>,
}

impl Region {
    const LAYOUT: Layout = match Layout::from_size_align(FRAMES as usize * FRAME_BYTES, FRAME_BYTES) {
        Ok(layout) => layout,
        Err(_) => panic!("a page is a power of two"),
    };

    fn new() -> Result<Region, Refused> {
        let pool = Pool::of(Core::open(FRAMES, &[])?);
        // SAFETY: the layout has a size.
        let first = unsafe { alloc_zeroed(Self::LAYOUT) };
        if first.is_null() {
            handle_alloc_error(Self::LAYOUT);
        }
        Ok(Region { first, pool })
    }

    fn take(&self, order: u8) -> Result<Slice<'_>, Refused> {
        let frames = self.pool.take(order)?;
        // SAFETY: the block lies in the region, which has a page for each frame.
        let first = unsafe { self.first.add(frames.frame() as usize * FRAME_BYTES) };
        Ok(Slice { first, frames })
    }
}

impl Drop for Region {
    fn drop(&mut self) {
        // SAFETY: as it was allocated; no slice outlives the region.
        unsafe { dealloc(self.first, Self::LAYOUT) }
    }
}

impl Deref for Slice<'_> {
    type Target = [u8];

    fn deref(&self) -> &[u8] {
        // SAFETY: held blocks never share a frame, so the bytes are this slice's alone, and they are initialized.
        unsafe { std::slice::from_raw_parts(self.first, self.frames.bytes()) }
    }
}

impl DerefMut for Slice<'_> {
    fn deref_mut(&mut self) -> &mut [u8] {
        // SAFETY: as above, and `&mut self`.
        unsafe { std::slice::from_raw_parts_mut(self.first, self.frames.bytes()) }
    }
}

fn main() -> Result<(), Refused> {
    let region = Region::new()?;
    {
        let mut two = region.take(1)?;
        let one = region.take(0)?;
        two.fill(7);
        assert!(two.iter().all(|&byte| byte == 7) && one.iter().all(|&byte| byte == 0));
        let free = region.pool.with(|core| core.free_frames());
        println!("2 slices, {} bytes, {free} frames free", two.len() + one.len());
    }
    println!("{} frames free", region.pool.with(|core| core.free_frames()));
    Ok(())
}
