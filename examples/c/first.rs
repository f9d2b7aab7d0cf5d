//! The first program in Rust, over the functions of llfree.h, with the same output: blocks of page frames
//! are taken, split and given back.
use std::ffi::c_void;
use std::process::ExitCode;

const OK: u32 = 0;
const NOT_HELD: u32 = 3;

/// `llfree_plain` of the header. Only the functions below look into it.
#[repr(C)]
struct Handle {
    live: bool,
    state: *mut c_void,
}

/// `llfree_range` of the header: so many frames from the first on.
#[repr(C)]
struct Range {
    first: u32,
    frames: u32,
}

extern "C" {
    fn llfree_plain_open(handle: *mut Handle, frames: u32, ranges: *const Range, count: usize) -> u32;
    fn llfree_plain_take(handle: *mut Handle, order: u8, frame: *mut u32) -> u32;
    fn llfree_plain_give(handle: *mut Handle, frame: u32, order: u8) -> u32;
    fn llfree_plain_split(handle: *mut Handle, frame: u32, order: u8) -> u32;
    fn llfree_plain_close(handle: *mut Handle);
}

/// An open handle, which nobody copies. `&mut self` keeps the header's duties: one call at a time, and
/// pointers that nobody else uses. A status that is not `OK` is the error.
struct Memory(Handle);

impl Memory {
    fn open(frames: u32, kept: &[Range]) -> Result<Memory, u32> {
        let mut handle = Handle { live: false, state: std::ptr::null_mut() };
        let status = unsafe { llfree_plain_open(&mut handle, frames, kept.as_ptr(), kept.len()) };
        checked(status).map(|()| Memory(handle))
    }

    fn take(&mut self, order: u8) -> Result<u32, u32> {
        let mut frame = 0;
        let status = unsafe { llfree_plain_take(&mut self.0, order, &mut frame) };
        checked(status).map(|()| frame)
    }

    fn give(&mut self, frame: u32, order: u8) -> Result<(), u32> {
        checked(unsafe { llfree_plain_give(&mut self.0, frame, order) })
    }

    fn split(&mut self, frame: u32, order: u8) -> Result<(), u32> {
        checked(unsafe { llfree_plain_split(&mut self.0, frame, order) })
    }
}

impl Drop for Memory {
    fn drop(&mut self) {
        unsafe { llfree_plain_close(&mut self.0) }
    }
}

fn checked(status: u32) -> Result<(), u32> {
    if status == OK { Ok(()) } else { Err(status) }
}

fn run() -> Result<(), u32> {
    // 4,096 frames of 4 KiB, of which the first sixteen are kept back.
    let mut memory = Memory::open(4096, &[Range { first: 0, frames: 16 }])?;
    let huge = memory.take(9)?;
    println!("a huge frame begins at frame {huge}");
    println!("a frame: {}", memory.take(0)?);

    // The huge frame in halves: the upper one is given, the lower one stays held.
    memory.split(huge, 9)?;
    memory.give(huge + 256, 8)?;
    println!("the upper half is given: {OK}");

    // A wrong number is refused, and nothing changes.
    if memory.give(huge, 9) == Err(NOT_HELD) {
        println!("the whole huge frame is not held any more");
    }
    Ok(())
}

fn main() -> ExitCode {
    match run() {
        Ok(()) => ExitCode::SUCCESS,
        Err(status) => {
            eprintln!("refused with status {status}");
            ExitCode::FAILURE
        }
    }
}
