//! The work that is measured, the same for every allocator. `llfree_bench` does it too, line by
//! line.
//!
//! Memory has 1,024 children, and as many cores as there are threads. A round opens it anew. Each
//! thread has a hand: its core, the list of blocks that it holds, with room for all of them, and
//! its random number; they are made before the clock starts. The threads of a phase are started
//! with the clock, in halves, and joined before it stops; the last hand works on the calling
//! thread. In the end all blocks were given, and all frames must be free.
//!
//! - `pairs`: a take of the order and a give of that block, COUNT times a thread.
//! - `fill`: each thread takes its share of all blocks of the order, so that together they fill
//!   memory, puts each last on its list, and then gives them, the last one first. This is done
//!   again and again, as often as it needs for COUNT blocks a thread or more.
//! - `random`: blocks of mixed orders, 49,152 of them held in all, of 5.5 frames in the mean, so
//!   that memory is about half full. Before the clock starts, each hand makes as many takes of a
//!   random order as its list has room for. Then come COUNT turns a thread; behind the clock each
//!   hand gives what it holds, the last one first.
//!
//! A turn of `random`: if the list is full, one block leaves it and is given; in any case a block
//! of a random order is taken, and put last. A refused take puts nothing, so the next turn gives
//! nothing.
//! - Random numbers are those of a xorshift of 64 bits: `x ^= x << 13`, then `x ^= x >> 7`, then
//!   `x ^= x << 17`, and the new `x` is the number. The first `x` of hand k, from 0 upward, which
//!   is not a number itself, is `(k + 1) * 0x9e3779b97f4a7c15` without its overflow.
//! - Where a block leaves, the first number of the turn tells its place: `(x >> 32) * n >> 32` in
//!   a list of n. The last block of the list takes that place (`swap_remove`).
//! - The next number tells the order: the zero bits below its lowest set bit, at most 9. So half
//!   of the orders are 0, a quarter are 1, and so on.
use crate::halves::in_halves;
use crate::memory::{Block, Memory};
use std::time::{Duration, Instant};

pub const CHILDREN: usize = 1024;

const FRAMES: usize = 512 * CHILDREN;

/// The blocks that all threads hold of mixed orders.
const HELD: usize = 49_152;

const MOST_ORDER: u8 = 9;

/// What a thread works with.
pub struct Hand<C> {
    core: C,
    blocks: Vec<Block>,
    random: u64,
    /// How many blocks the list has room for.
    most: usize,
    refused: u64,
}

/// How long a phase took, and how many takes of all threads were refused in it.
pub type Figure = (Duration, u64);

pub fn hands<C>(cores: Vec<C>, most: usize) -> Vec<Hand<C>> {
    let hand = |(k, core)| Hand {
        core,
        blocks: Vec::with_capacity(most),
        random: (k as u64 + 1).wrapping_mul(0x9e37_79b9_7f4a_7c15),
        most,
        refused: 0,
    };
    cores.into_iter().enumerate().map(hand).collect()
}

pub fn pairs<M: Memory>(threads: usize, order: u8, count: u64) -> Figure {
    let (memory, cores) = M::open(CHILDREN, threads);
    let (_hands, figure) = phase(hands(cores, 0), |hand: &mut Hand<M::Core>| {
        for _ in 0..count {
            match memory.take(&mut hand.core, order) {
                Ok(block) => memory.give(&mut hand.core, block),
                Err(_) => hand.refused += 1,
            }
        }
    });
    figure
}

pub fn fill<M: Memory>(threads: usize, order: u8, times: u64) -> Figure {
    let (memory, cores) = M::open(CHILDREN, threads);
    let (_hands, figure) =
        phase(hands(cores, share(threads, order)), |hand: &mut Hand<M::Core>| {
            for _ in 0..times {
                for _ in 0..hand.most {
                    hand.take(&memory, order);
                }
                hand.give_all(&memory);
            }
        });
    assert!(memory.is_all_free());
    figure
}

pub fn random<M: Memory>(threads: usize, count: u64) -> Figure {
    let (memory, cores) = M::open(CHILDREN, threads);
    let gather = |hand: &mut Hand<M::Core>| {
        for _ in 0..hand.most {
            hand.take_any(&memory);
        }
    };
    let turns = |hand: &mut Hand<M::Core>| {
        for _ in 0..count {
            hand.turn(&memory);
        }
    };
    let (hands, _gathered) = phase(hands(cores, HELD / threads), gather);
    let (hands, figure) = phase(hands, turns);
    phase(hands, |hand| hand.give_all(&memory));
    assert!(memory.is_all_free());
    figure
}

/// The blocks of the order that a thread takes where all threads fill memory.
pub fn share(threads: usize, order: u8) -> usize {
    (FRAMES >> order) / threads
}

/// All hands work at the same time, each in a thread, the last one in this.
fn phase<C: Send>(
    hands: Vec<Hand<C>>,
    work: impl Fn(&mut Hand<C>) + Sync,
) -> (Vec<Hand<C>>, Figure) {
    let run = |mut hand: Hand<C>| {
        hand.refused = 0;
        work(&mut hand);
        hand
    };
    let start = Instant::now();
    let hands = in_halves(hands, &run);
    let spent = start.elapsed();
    let refused = hands.iter().map(|hand| hand.refused).sum();
    (hands, (spent, refused))
}

impl<C> Hand<C> {
    fn take<M: Memory<Core = C>>(&mut self, memory: &M, order: u8) {
        match memory.take(&mut self.core, order) {
            Ok(block) => self.blocks.push(block),
            Err(_) => self.refused += 1,
        }
    }

    fn take_any<M: Memory<Core = C>>(&mut self, memory: &M) {
        let order = self.number().trailing_zeros().min(u32::from(MOST_ORDER)) as u8;
        self.take(memory, order);
    }

    fn turn<M: Memory<Core = C>>(&mut self, memory: &M) {
        if self.blocks.len() == self.most {
            let place = (self.number() >> 32) * self.most as u64 >> 32;
            let block = self.blocks.swap_remove(place as usize);
            memory.give(&mut self.core, block);
        }
        self.take_any(memory);
    }

    fn give_all<M: Memory<Core = C>>(&mut self, memory: &M) {
        while let Some(block) = self.blocks.pop() {
            memory.give(&mut self.core, block);
        }
    }

    /// The next random number.
    fn number(&mut self) -> u64 {
        self.random ^= self.random << 13;
        self.random ^= self.random >> 7;
        self.random ^= self.random << 17;
        self.random
    }
}
