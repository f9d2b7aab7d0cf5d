//! Tries of the three allocators: random takes and gives beside an owner of each frame, alone and
//! on threads, and worked runs of the lock-free one.
use crate::memory::{Block, Memory, Refusal};
use crate::words::{FLAG, local_of};
use crate::{bitmap::Bitmap, buddy::Buddy, lock_free::LockFree};
use std::sync::atomic::{AtomicBool, Ordering::SeqCst};
use std::thread;

const TURNS: u64 = 40_000;

/// Which frames somebody holds, as far as takes and gives tell.
struct Owners {
    held: Vec<AtomicBool>,
}

impl Owners {
    fn new(children: usize) -> Owners {
        let held = (0..512 * children).map(|_| AtomicBool::new(false)).collect();
        Owners { held }
    }

    fn frames(&self, block: &Block) -> &[AtomicBool] {
        &self.held[block.frame as usize..block.frame as usize + (1 << block.order)]
    }

    fn takes(&self, block: &Block, order: u8) {
        assert_eq!(block.order, order);
        assert_eq!(block.frame % (1 << order), 0);
        for frame in self.frames(block) {
            assert!(!frame.swap(true, SeqCst), "{block:?} overlaps a held block");
        }
    }

    fn gives(&self, block: &Block) {
        for frame in self.frames(block) {
            assert!(frame.swap(false, SeqCst));
        }
    }

    /// An aligned block of the order of which no frame is held.
    fn has_free(&self, order: u8) -> bool {
        self.held.chunks(1 << order).any(|block| block.iter().all(|frame| !frame.load(SeqCst)))
    }
}

pub fn check() {
    try_alone::<LockFree>();
    try_alone::<Bitmap>();
    try_alone::<Buddy>();
    try_threads::<LockFree>();
    try_threads::<Bitmap>();
    try_threads::<Buddy>();
    run_worked();
    println!("all tries went well");
}

fn number(random: &mut u64) -> u64 {
    *random ^= *random << 13;
    *random ^= *random >> 7;
    *random ^= *random << 17;
    *random
}

/// For a while small orders are more common, for a while all are alike.
fn random_order(number: u64, turn: u64) -> u8 {
    if turn / 500 % 2 == 0 { (number.trailing_zeros() as u8).min(9) } else { (number % 10) as u8 }
}

/// Random turns: a take of a random order, or a give of a random block of the list.
fn turns<M: Memory>(
    memory: &M,
    cores: &mut [M::Core],
    owners: &Owners,
    mut random: u64,
    refused: impl Fn(u8, Refusal),
) {
    let mut blocks = Vec::new();
    for turn in 0..TURNS {
        let place = number(&mut random);
        let core = &mut cores[place as usize % cores.len()];
        // Blocks come until memory is full, and go until it is nearly free.
        let gives = if turn / 4000 % 2 == 0 { 4 } else { 12 };
        if number(&mut random) >> 32 & 15 < gives && !blocks.is_empty() {
            let block = blocks.swap_remove((place >> 32) as usize % blocks.len());
            owners.gives(&block);
            memory.give(core, block);
            continue;
        }
        let order = random_order(number(&mut random) >> 20, turn);
        match memory.take(core, order) {
            Ok(block) => {
                owners.takes(&block, order);
                blocks.push(block);
            }
            Err(refusal) => refused(order, refusal),
        }
    }
    for block in blocks {
        owners.gives(&block);
        memory.give(&mut cores[0], block);
    }
}

/// On one thread a take is refused only where no block of its order is free, on any core.
fn try_alone<M: Memory>() {
    for number_of_cores in 1..=3 {
        for seed in 1..=4 {
            let (memory, mut cores) = M::open(20, number_of_cores);
            let owners = Owners::new(20);
            turns(&memory, &mut cores, &owners, seed, |order, refusal| {
                assert_eq!(refusal, Refusal::NoBlock);
                // The largest block of the buddy allocator is a child, so it is exact as well.
                assert!(!owners.has_free(order));
            });
            assert!(memory.is_all_free(), "{}", M::NAME);
        }
    }
}

/// With one child all threads meet at its words.
fn try_threads<M: Memory>() {
    for (seed, children) in [(1, 20), (2, 20), (3, 1), (4, 1), (5, 1), (6, 1)] {
        let (memory, cores) = M::open(children, 4);
        let owners = Owners::new(children);
        thread::scope(|scope| {
            for (k, mut core) in cores.into_iter().enumerate() {
                let (memory, owners) = (&memory, &owners);
                let random = 1000 * seed + k as u64;
                scope.spawn(move || {
                    turns(memory, std::slice::from_mut(&mut core), owners, random, |_, _| ());
                });
            }
        });
        assert!(memory.is_all_free(), "{}", M::NAME);
    }
}

/// What is asked of a core of a worked run, and its answer.
enum Line {
    Take(usize, u8, Result<u32, Refusal>),
    Give(usize, u32),
}

use Line::{Give, Take};

fn run(children: usize, cores: usize, lines: &[Line]) -> LockFree {
    let (memory, mut cores) = LockFree::open(children, cores);
    let mut blocks: Vec<Block> = Vec::new();
    for line in lines {
        match line {
            Take(core, order, answer) => {
                let taken = memory.take(&mut cores[*core], *order);
                let frame = taken.map(|block| {
                    blocks.push(block);
                    blocks[blocks.len() - 1].frame
                });
                assert_eq!(frame, *answer);
            }
            Give(core, frame) => {
                let place = blocks.iter().position(|block| block.frame == *frame).unwrap();
                memory.give(&mut cores[*core], blocks.remove(place));
            }
        }
    }
    memory
}

/// The tree words as free frames and flag, and what rests in the local words.
fn shows(memory: &LockFree, trees: &[(u64, bool)], rests: &[Option<(usize, u64)>]) {
    let table = &memory.table;
    for (tree, &(free, is_reserved)) in trees.iter().enumerate() {
        let word = table.load(table.tree_place(tree));
        assert_eq!((word % FLAG, word >= FLAG), (free, is_reserved), "tree {tree}");
    }
    for (core, &rest) in rests.iter().enumerate() {
        assert_eq!(local_of(table.load(table.local_place(core))), rest, "core {core}");
    }
}

fn run_worked() {
    run_first();
    run_nine();
    // A core that finds the only tree reserved drains the other one.
    let drained = run(8, 2, &[Take(0, 0, Ok(0)), Take(1, 0, Ok(1))]);
    shows(&drained, &[(0, true)], &[None, Some((0, 4094))]);
    // What another core gave into its own tree a core collects, before it looks for another tree.
    let mut lines: Vec<Line> = (0..8).map(|i| Take(0, 9, Ok(512 * i))).collect();
    lines.extend([Give(1, 0), Take(0, 9, Ok(0))]);
    let collected = run(24, 2, &lines);
    shows(&collected, &[(0, true), (4096, false)], &[Some((0, 0)), None]);
    // Where its own reservation has enough, it collects nothing.
    let lines = [Take(0, 9, Ok(0)), Take(1, 9, Ok(4096)), Give(1, 0), Take(0, 8, Ok(0))];
    let left = run(16, 2, &lines);
    shows(&left, &[(512, true), (0, true)], &[Some((0, 3328)), Some((1, 3584))]);
}

/// Takes and gives in one or two children.
fn run_first() {
    let none = || Err(Refusal::NoBlock);
    let one = run(1, 1, &[Take(0, 0, Ok(0))]);
    shows(&one, &[(0, true)], &[Some((0, 511))]);
    assert_eq!(one.table.bits(0), [1, 0, 0, 0, 0, 0, 0, 0]);
    run(1, 1, &[Take(0, 0, Ok(0)), Take(0, 3, Ok(8)), Take(0, 0, Ok(1))]);
    let orders = [
        Take(0, 0, Ok(0)),
        Take(0, 6, Ok(64)),
        Take(0, 7, Ok(128)),
        Take(0, 8, Ok(256)),
        Take(0, 9, none()),
        Take(0, 0, Ok(1)),
    ];
    run(1, 1, &orders);
    run(1, 1, &[Take(0, 9, Ok(0)), Take(0, 0, none()), Give(0, 0), Take(0, 0, Ok(0))]);
    run(2, 1, &[Take(0, 0, Ok(0)), Take(0, 9, Ok(512))]);
}

/// Nine huge takes leave the first tree; four gives in a row reserve it again.
fn run_nine() {
    let mut lines: Vec<Line> = (0..9).map(|i| Take(0, 9, Ok(512 * i))).collect();
    let taken = run(16, 1, &lines);
    shows(&taken, &[(0, false), (0, true)], &[Some((1, 3584))]);
    lines.extend((0..4).map(|i| Give(0, 512 * i)));
    let given = run(16, 1, &lines);
    shows(&given, &[(0, true), (3584, false)], &[Some((0, 2048))]);
    let entries: Vec<u64> = (0..9).map(|child| given.table.entry(child)).collect();
    assert_eq!(entries, [512, 512, 512, 512, FLAG, FLAG, FLAG, FLAG, FLAG]);
    // A give into the own tree ends a row of gives.
    lines.insert(11, Give(0, 4096));
    let apart = run(16, 1, &lines);
    shows(&apart, &[(2048, false), (0, true)], &[Some((1, 4096))]);
    lines.remove(11);
    // A core that begins at a tree that is wholly free prefers one that is partly free.
    lines.push(Take(2, 0, Ok(4608)));
    let preferred = run(24, 3, &lines);
    shows(&preferred, &[(0, true), (0, true)], &[Some((0, 2048)), None, Some((1, 3583))]);
}
