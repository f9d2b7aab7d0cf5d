//! A memory's cores, and the blocks that they take and give.
use crate::form::{Checked, Form, Unchecked, EMPTY};
use crate::sys::{self, Handle};
use crate::{Claim, Range, Refused, FRAME_BYTES};
use core::fmt;
use core::ptr;
use core::sync::atomic::{AtomicU64, Ordering};

/// Each opening has a number of its own, so a block knows its memory.
static NEXT_MEMORY: AtomicU64 = AtomicU64::new(0);

/// A core of a memory: what one thread, or one processor, takes and gives through. It may be sent to another thread;
/// each call needs it as `&mut`. The last core that is dropped frees the memory.
pub struct Core<F: Form = Checked> {
    handle: Handle,
    memory: u64,
    form: core::marker::PhantomData<F>,
}

// SAFETY: another thread may use a handle where its calls come one after the other, as a move of the value orders them.
// It is not `Sync`.
unsafe impl<F: Form> Send for Core<F> {}

/// The right to a block of `2^order` frames, which nobody else has. It goes back by [`Core::give`]; one that is
/// dropped stays held until its memory is closed.
#[must_use = "a block that is dropped stays held until its memory is closed"]
pub struct Block<F: Form = Checked> {
    right: F::Right,
    memory: u64,
}

impl<F: Form> Block<F> {
    /// The first frame, over all zones; a multiple of [`Block::frames`].
    pub fn frame(&self) -> u32 {
        F::place(&self.right).0
    }

    /// 0 to 9.
    pub fn order(&self) -> u8 {
        F::place(&self.right).1
    }

    /// How many frames it has, 1 to 512.
    pub fn frames(&self) -> u32 {
        1 << self.order()
    }

    /// How many bytes its frames have.
    pub fn bytes(&self) -> usize {
        FRAME_BYTES << self.order()
    }
}

impl Block<Checked> {
    /// Keeps the block beyond its memory: at the claim an opening at an image hands it out again.
    pub fn keep(self) -> Claim {
        Claim { frame: self.frame(), order: self.order() }
    }
}

impl<F: Form> fmt::Debug for Block<F> {
    fn fmt(&self, f: &mut fmt::Formatter<'_>) -> fmt::Result {
        f.debug_struct("Block").field("frame", &self.frame()).field("order", &self.order()).finish()
    }
}

impl<F: Form> fmt::Debug for Core<F> {
    fn fmt(&self, f: &mut fmt::Formatter<'_>) -> fmt::Result {
        f.debug_struct("Core").field("memory", &self.memory).finish_non_exhaustive()
    }
}

impl<F: Form> Core<F> {
    /// Opens a memory of this many frames with `N` cores, 1 to 1,024. All frames are free but those of `kept`, which
    /// ascend and are never given out.
    pub fn open<const N: usize>(frames: u32, kept: &[Range]) -> Result<[Core<F>; N], Refused> {
        // SAFETY: N closed handles, and the ranges of a slice.
        opened(|handles| unsafe { F::OPEN(handles, N, frames, kept.as_ptr(), kept.len()) })
    }

    /// Opens a memory of zones, as the nodes of a machine have their frames, with holes between.
    pub fn open_zones<const N: usize>(zones: &[Range], kept: &[Range]) -> Result<[Core<F>; N], Refused> {
        // SAFETY: N closed handles, and the ranges of two slices.
        opened(|handles| unsafe {
            F::OPEN_ZONES(handles, N, zones.as_ptr(), zones.len(), kept.as_ptr(), kept.len())
        })
    }

    /// Takes a block of the order. [`Refused::NoBlock`] and [`Refused::Contended`] do not say that none is free:
    /// another core may be about to give one.
    pub fn take(&mut self, order: u8) -> Result<Block<F>, Refused> {
        match F::take(&mut self.handle, order) {
            Ok(right) => Ok(Block { right, memory: self.memory }),
            Err(status) => refused(status),
        }
    }

    /// As [`Core::take`], up to this many times while it is refused for other cores.
    pub fn take_retry(&mut self, order: u8, tries: u32) -> Result<Block<F>, Refused> {
        let mut last = self.take(order);
        for _ in 1..tries {
            match last {
                Err(refused) if refused.may_pass() => last = self.take(order),
                _ => break,
            }
        }
        last
    }

    /// Takes exactly the block of the order that begins at this frame, where all of its frames are free.
    /// [`Refused::NoBlock`]: there is no such block, or it was not free; beside other cores it may be free for all that.
    pub fn take_at(&mut self, frame: u32, order: u8) -> Result<Block<F>, Refused> {
        match F::take_at(&mut self.handle, frame, order) {
            Ok(right) => Ok(Block { right, memory: self.memory }),
            Err(status) => refused(status),
        }
    }

    /// Gives a block back, whichever core took it. What is refused comes back.
    pub fn give(&mut self, block: Block<F>) -> Result<(), (Refused, Block<F>)> {
        let Block { right, memory } = self.own(block)?;
        F::give(&mut self.handle, right).map_err(|(status, right)| comes_back(status, Block { right, memory }))
    }

    /// Splits a block into its lower and its upper half. What is refused comes back.
    #[allow(clippy::type_complexity)]
    pub fn split(&mut self, block: Block<F>) -> Result<(Block<F>, Block<F>), (Refused, Block<F>)> {
        let Block { right, memory } = self.own(block)?;
        match F::split(&mut self.handle, right) {
            Ok((lower, upper)) => Ok((Block { right: lower, memory }, Block { right: upper, memory })),
            Err((status, right)) => Err(comes_back(status, Block { right, memory })),
        }
    }

    fn own(&self, block: Block<F>) -> Result<Block<F>, (Refused, Block<F>)> {
        if block.memory == self.memory {
            Ok(block)
        } else {
            Err((Refused::OtherMemory, block))
        }
    }

    /// Whether all frames of this block are free, as one look sees it; exact where no other core is in a call. False
    /// where the memory has no such block.
    pub fn is_free(&mut self, frame: u32, order: u8) -> bool {
        // SAFETY: a handle behind `&mut`; any number is safe.
        unsafe { sys::llfree_is_free(&mut self.handle, frame, order) }
    }

    /// The frames of the memory, of all zones, those that are kept too.
    pub fn frames(&mut self) -> u32 {
        // SAFETY: a handle behind `&mut`.
        unsafe { sys::llfree_frames(&mut self.handle) }
    }

    /// How many frames are free; exact where no other core is in a call.
    pub fn free_frames(&mut self) -> u32 {
        // SAFETY: a handle behind `&mut`.
        unsafe { sys::llfree_free_frames(&mut self.handle) }
    }

    /// How many huge frames are free, in the same way.
    pub fn free_huge(&mut self) -> u32 {
        // SAFETY: a handle behind `&mut`.
        unsafe { sys::llfree_free_huge(&mut self.handle) }
    }

    /// How many zones the memory has.
    pub fn zones(&mut self) -> u32 {
        // SAFETY: a handle behind `&mut`.
        unsafe { sys::llfree_zones(&mut self.handle) }
    }

    /// How many frames are free in the zone of this number, in the same way; 0 if there is none.
    pub fn free_frames_of(&mut self, zone: u32) -> u32 {
        // SAFETY: a handle behind `&mut`.
        unsafe { sys::llfree_free_frames_of(&mut self.handle, zone) }
    }

    /// How many huge frames are free in the zone of this number, in the same way.
    pub fn free_huge_of(&mut self, zone: u32) -> u32 {
        // SAFETY: a handle behind `&mut`.
        unsafe { sys::llfree_free_huge_of(&mut self.handle, zone) }
    }

    /// The home zone of this core, where its takes begin.
    pub fn home(&mut self) -> u32 {
        // SAFETY: a handle behind `&mut`.
        unsafe { sys::llfree_home(&mut self.handle) }
    }

    /// Makes the zone of this number the home of this core. [`Refused::BadRange`] if there is none.
    pub fn set_home(&mut self, zone: u32) -> Result<(), Refused> {
        // SAFETY: a handle behind `&mut`.
        Refused::of(unsafe { sys::llfree_set_home(&mut self.handle, zone) })
    }
}

/// Single frames that are soon taken again rest with the core that gave them, at most 128. A frame that rests is not
/// free: no other core reaches it until [`Core::drain`], or until its core is dropped or closed.
impl<F: Form> Core<F> {
    /// Takes a single frame: the one that came to rest with this core last; if none rests, as [`Core::take`] of order
    /// 0, with its refusals.
    pub fn take_frame(&mut self) -> Result<Block<F>, Refused> {
        match F::take_frame(&mut self.handle) {
            Ok(right) => Ok(Block { right, memory: self.memory }),
            Err(status) => refused(status),
        }
    }

    /// Gives a single frame, which rests with this core, whichever core took it. If 128 rest there already, 8 of them
    /// go back first. What is refused comes back: [`Refused::BadOrder`] for a larger block.
    pub fn give_frame(&mut self, block: Block<F>) -> Result<(), (Refused, Block<F>)> {
        let Block { right, memory } = self.own(block)?;
        F::give_frame(&mut self.handle, right).map_err(|(status, right)| comes_back(status, Block { right, memory }))
    }

    /// Gives back all frames that rest with this core.
    pub fn drain(&mut self) {
        // SAFETY: a handle behind `&mut`.
        unsafe { sys::llfree_drain(&mut self.handle) }
    }

    /// How many frames rest with this core, at most 128. They count as held in [`Core::free_frames`].
    pub fn resting(&mut self) -> u32 {
        // SAFETY: a handle behind `&mut`.
        unsafe { sys::llfree_resting(&mut self.handle) }
    }
}

/// Several single frames at once.
impl Core<Unchecked> {
    /// Takes up to `N` single frames, as [`Core::take_frame`] again and again, and hands each to `taken`. Their number is
    /// below `N` only if no frame more was found. Refused if none was found at all.
    pub fn take_frames<const N: usize>(&mut self, taken: impl FnMut(Block<Unchecked>)) -> Result<usize, Refused> {
        let (mut rights, memory) = ([EMPTY; N], self.memory);
        match Unchecked::take_frames(&mut self.handle, &mut rights) {
            Ok(count) => {
                rights.into_iter().take(count).map(|right| Block { right, memory }).for_each(taken);
                Ok(count)
            }
            Err(status) => refused(status),
        }
    }

    /// Gives these single frames, as [`Core::give_frame`]. If one is refused, all come back.
    pub fn give_frames<const N: usize>(
        &mut self, blocks: [Block<Unchecked>; N],
    ) -> Result<(), (Refused, [Block<Unchecked>; N])> {
        let memory = self.memory;
        if blocks.iter().any(|block| block.memory != memory) {
            return Err((Refused::OtherMemory, blocks));
        }
        let mut rights = blocks.map(|block| block.right);
        Unchecked::give_frames(&mut self.handle, &mut rights).map_err(|status| {
            let refused = Refused::of(status).err().unwrap_or(Refused::Unknown);
            (refused, rights.map(|right| Block { right, memory }))
        })
    }
}

impl Core<Checked> {
    /// Opens a memory of this many frames at the numbers of an image, and hands each claimed block to `claimed`, in
    /// order. What the image holds besides is held for good.
    pub fn reopen<const N: usize>(
        frames: u32, words: &[u64], claims: &[Claim], claimed: impl FnMut(Block),
    ) -> Result<[Core; N], Refused> {
        // SAFETY: N closed handles, and the elements of two slices.
        let cores = opened(|handles| unsafe {
            sys::llfree_reopen(handles, N, frames, words.as_ptr(), words.len(), claims.as_ptr(), claims.len())
        })?;
        Ok(hands_out(cores, claims, claimed))
    }

    /// [`Core::reopen`] of zones, whose numbers stand one zone after another.
    pub fn reopen_zones<const N: usize>(
        zones: &[Range], words: &[u64], claims: &[Claim], claimed: impl FnMut(Block),
    ) -> Result<[Core; N], Refused> {
        // SAFETY: N closed handles, and the elements of three slices.
        let cores = opened(|handles| unsafe {
            sys::llfree_reopen_zones(
                handles, N, zones.as_ptr(), zones.len(), words.as_ptr(), words.len(), claims.as_ptr(), claims.len(),
            )
        })?;
        Ok(hands_out(cores, claims, claimed))
    }

    /// The order of the held block that begins at this frame, as one look at the library's list sees it; none where
    /// it sees none.
    pub fn order_at(&mut self, frame: u32) -> Option<u8> {
        let mut order = 0;
        // SAFETY: a handle behind `&mut`, and a local; any number is safe.
        let status = unsafe { sys::llfree_order_at(&mut self.handle, frame, &mut order) };
        (status == 0).then_some(order)
    }

    /// Takes a run: 1 to 512 huge frames, blocks of order 9, side by side in one zone. The first frame is a multiple of
    /// 512 times their number, which is rounded up to a power of two. [`Refused::BadOrder`]: another number.
    pub fn take_run(&mut self, count: u32) -> Result<Parts, Refused> {
        let mut frame = 0;
        // SAFETY: a handle behind `&mut`, and a local; any number is safe.
        match unsafe { sys::llfree_take_run(&mut self.handle, count, &mut frame) } {
            0 => Ok(Parts { frame, order: 9, left: count, memory: self.memory }),
            status => refused(status),
        }
    }

    /// Gives what is left of a run, in one call. What is refused comes back: of another memory, of a smaller order, or
    /// nothing left.
    pub fn give_run(&mut self, run: Parts) -> Result<(), (Refused, Parts)> {
        if run.memory != self.memory {
            return Err((Refused::OtherMemory, run));
        }
        if run.order != 9 {
            return Err((Refused::BadOrder, run));
        }
        // SAFETY: a handle behind `&mut`; any number is safe.
        match unsafe { sys::llfree_give_run(&mut self.handle, run.frame, run.left) } {
            0 => Ok(()),
            status => Err((Refused::of(status).err().unwrap_or(Refused::Unknown), run)),
        }
    }

    /// Splits a block into all its blocks of an order, its own at most, in one call. What is refused comes back.
    pub fn split_to(&mut self, block: Block, order: u8) -> Result<Parts, (Refused, Block)> {
        let block = self.own(block)?;
        // SAFETY: a handle behind `&mut`; any number is safe.
        match unsafe { sys::llfree_split_to(&mut self.handle, block.frame(), block.order(), order) } {
            0 => Ok(Parts { frame: block.frame(), order, left: block.frames() >> order, memory: self.memory }),
            status => Err(comes_back(status, block)),
        }
    }
}

/// What [`Core::split_to`] made of a block, or [`Core::take_run`] took, in the order of their frames.
#[derive(Debug)]
#[must_use = "a block that is dropped stays held until its memory is closed"]
pub struct Parts {
    frame: u32,
    order: u8,
    left: u32,
    memory: u64,
}

impl Iterator for Parts {
    type Item = Block;

    fn next(&mut self) -> Option<Block> {
        self.left = self.left.checked_sub(1)?;
        let claim = Claim { frame: self.frame, order: self.order };
        // the last part may end at frame 2^32
        self.frame = self.frame.wrapping_add(1 << self.order);
        Some(Block { right: Checked::right_of(claim), memory: self.memory })
    }

    fn size_hint(&self) -> (usize, Option<usize>) {
        (self.left as usize, Some(self.left as usize))
    }
}

impl ExactSizeIterator for Parts {}

impl<F: Form> Core<F> {
    /// Closes the last core of a memory and writes its image, as many numbers as [`image_words`] says of its zones.
    /// A refused core comes back.
    pub fn close_image(mut self, words: &mut [u64]) -> Result<(), (Refused, Core<F>)> {
        // SAFETY: a handle behind `&mut`, and the elements of a slice.
        Refused::of(unsafe { sys::llfree_close_image(&mut self.handle, words.as_mut_ptr(), words.len()) })
            .map_err(|refused| (refused, self))
    }
}

/// How many numbers the image of this many frames has; 0 where no memory has this many.
pub fn image_words(frames: u32) -> usize {
    // SAFETY: any number is safe.
    unsafe { sys::llfree_image_words(frames) }
}

impl<F: Form> Drop for Core<F> {
    fn drop(&mut self) {
        // SAFETY: a handle behind `&mut`; it does nothing to a closed one.
        unsafe { sys::llfree_close(&mut self.handle) }
    }
}

fn refused<T>(status: u32) -> Result<T, Refused> {
    Refused::of(status).and(Err(Refused::Unknown))
}

fn comes_back<F: Form>(status: u32, block: Block<F>) -> (Refused, Block<F>) {
    (Refused::of(status).err().unwrap_or(Refused::Unknown), block)
}

fn opened<F: Form, const N: usize>(open: impl FnOnce(*mut Handle) -> u32) -> Result<[Core<F>; N], Refused> {
    let mut handles = [const { Handle { live: false, state: ptr::null_mut() } }; N];
    Refused::of(open(handles.as_mut_ptr()))?;
    let memory = NEXT_MEMORY.fetch_add(1, Ordering::Relaxed);
    Ok(handles.map(|handle| Core { handle, memory, form: core::marker::PhantomData }))
}

fn hands_out<const N: usize>(cores: [Core; N], claims: &[Claim], mut claimed: impl FnMut(Block)) -> [Core; N] {
    if let Some(core) = cores.first() {
        for &claim in claims {
            claimed(Block { right: Checked::right_of(claim), memory: core.memory });
        }
    }
    cores
}
