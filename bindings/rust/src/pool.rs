//! Cores that any number of threads share.
use crate::form::{Checked, Form};
use crate::{Block, Core, Refused};
use core::cell::UnsafeCell;
use core::hint;
use core::marker::PhantomData;
use core::mem::ManuallyDrop;
use core::ops::Deref;
use core::sync::atomic::{AtomicBool, Ordering};

/// How often a take of a [`Pool`] is made where other cores are in its way.
const TRIES: u32 = 20;

/// Tells on which processor a thread runs. Any number is right; a good one keeps threads apart.
pub trait Processor {
    /// The number of the processor, now.
    fn now() -> usize;
}

/// A desk with a core: one thread at a time sits at it. It has cache lines of its own.
#[repr(align(128))]
struct Desk<F: Form> {
    core: UnsafeCell<Core<F>>,
    is_taken: AtomicBool,
}

/// Cores for more threads than there are cores: a call sits down at the desk of its processor, or at the next one that
/// is not taken. A call waits only while all desks are taken.
pub struct Pool<P: Processor, const N: usize, F: Form = Checked> {
    desks: [Desk<F>; N],
    processor: PhantomData<fn() -> P>,
}

// SAFETY: the core of a desk is used by the one thread that has taken it, and a core may be sent.
unsafe impl<P: Processor, const N: usize, F: Form> Sync for Pool<P, N, F> {}

impl<P: Processor, const N: usize, F: Form> Pool<P, N, F> {
    /// A pool of a memory's cores.
    pub fn of(cores: [Core<F>; N]) -> Self {
        const { assert!(N > 0, "a pool has a core") };
        let desks = cores.map(|core| Desk { core: UnsafeCell::new(core), is_taken: AtomicBool::new(false) });
        Pool { desks, processor: PhantomData }
    }

    /// Calls `act` with a core. Where `act` itself calls the pool there have to be more desks than such calls.
    pub fn with<T>(&self, act: impl FnOnce(&mut Core<F>) -> T) -> T {
        let mut at = P::now();
        loop {
            let desk = &self.desks[at % N];
            if !desk.is_taken.swap(true, Ordering::Acquire) {
                let _seat = Seat(&desk.is_taken);
                // SAFETY: nobody else sits at the desk until the seat is dropped.
                return act(unsafe { &mut *desk.core.get() });
            }
            at = at.wrapping_add(1);
            hint::spin_loop();
        }
    }

    /// Takes a block that gives itself back.
    pub fn take(&self, order: u8) -> Result<Frames<'_, P, N, F>, Refused> {
        self.with(|core| core.take_retry(order, TRIES)).map(|block| Frames::of(self, block))
    }

    /// Takes exactly this block, as [`Core::take_at`], which gives itself back.
    pub fn take_at(&self, frame: u32, order: u8) -> Result<Frames<'_, P, N, F>, Refused> {
        self.with(|core| core.take_at(frame, order)).map(|block| Frames::of(self, block))
    }

    /// The cores again, to close them or to leave an image.
    pub fn into_cores(self) -> [Core<F>; N] {
        self.desks.map(|desk| desk.core.into_inner())
    }
}

/// Its drop leaves the desk, on a panic too.
struct Seat<'d>(&'d AtomicBool);

impl Drop for Seat<'_> {
    fn drop(&mut self) {
        self.0.store(false, Ordering::Release);
    }
}

/// A block of a pool that gives itself back.
pub struct Frames<'p, P: Processor, const N: usize, F: Form = Checked> {
    pool: &'p Pool<P, N, F>,
    block: ManuallyDrop<Block<F>>,
}

impl<'p, P: Processor, const N: usize, F: Form> Frames<'p, P, N, F> {
    fn of(pool: &'p Pool<P, N, F>, block: Block<F>) -> Self {
        Frames { pool, block: ManuallyDrop::new(block) }
    }

    /// The block itself, which no longer gives itself back.
    pub fn into_block(self) -> Block<F> {
        let mut frames = ManuallyDrop::new(self);
        // SAFETY: `frames` is neither used again nor dropped.
        unsafe { ManuallyDrop::take(&mut frames.block) }
    }

    /// Splits it into its lower and its upper half.
    pub fn split(self) -> Result<(Self, Self), (Refused, Self)> {
        let pool = self.pool;
        let block = self.into_block();
        match pool.with(|core| core.split(block)) {
            Ok((lower, upper)) => Ok((Frames::of(pool, lower), Frames::of(pool, upper))),
            Err((refused, block)) => Err((refused, Frames::of(pool, block))),
        }
    }
}

impl<P: Processor, const N: usize, F: Form> Deref for Frames<'_, P, N, F> {
    type Target = Block<F>;

    fn deref(&self) -> &Block<F> {
        &self.block
    }
}

impl<P: Processor, const N: usize, F: Form> Drop for Frames<'_, P, N, F> {
    fn drop(&mut self) {
        // SAFETY: the block is not used again.
        let block = unsafe { ManuallyDrop::take(&mut self.block) };
        // A block that the pool's own core took is never refused.
        let given = self.pool.with(|core| core.give(block));
        debug_assert!(given.is_ok());
    }
}
