//! Pairs of a take and a give inside a tree, over Rust's std atomics: the atomic steps are those of
//! `low_frames` over a shared table, one by one, and the words stand in the same places. One line a
//! measurement, as `llfree_bench` prints it.
mod halves;

use halves::in_halves;
use std::sync::atomic::{AtomicU64, Ordering::SeqCst};
use std::time::Instant;

const CHILDREN: usize = 512;
const TREES: usize = CHILDREN / 8;
const TRIES: usize = 4;
const FLAG: u64 = 32768;
const STARTS: [u64; 7] = [
    !0,
    0x5555_5555_5555_5555,
    0x1111_1111_1111_1111,
    0x0101_0101_0101_0101,
    0x0001_0001_0001_0001,
    0x0000_0001_0000_0001,
    1,
];

/// The word that the entry of a child stands in: a tree has a cache line for its two.
fn entry_word(child: usize) -> usize {
    8 + 8 * (child / 8) + child % 8 / 4
}

struct Block {
    frame: usize,
    order: u32,
}

// Aligned, so that it shares no cache line with what a thread writes on its stack.
#[repr(align(128))]
struct Table {
    words: Vec<AtomicU64>,
    first_tree: usize,
    first_bits: usize,
}

impl Table {
    /// All frames are free. Word 0 is the anchor, which handing a block out and in loads.
    fn new(cores: usize) -> Table {
        let first_tree = 8 + 8 * TREES;
        let first_bits = first_tree + TREES + 7 + 8 * cores;
        let mut words = vec![0; first_bits + 8 * CHILDREN];
        for child in 0..CHILDREN {
            words[entry_word(child)] |= 512 << (16 * (child % 4));
        }
        words[first_tree..first_tree + TREES].fill(4096);
        Table {
            words: words.into_iter().map(AtomicU64::new).collect(),
            first_tree,
            first_bits,
        }
    }

    fn exchange(&self, word: usize, seen: u64, left: u64) -> bool {
        self.words[word].compare_exchange(seen, left, SeqCst, SeqCst).is_ok()
    }

    fn load(&self, word: usize) -> u64 {
        self.words[word].load(SeqCst)
    }

    fn pay(&self, tree: usize, order: u32) -> bool {
        for _ in 0..TRIES {
            let seen = self.load(self.first_tree + tree);
            if seen % FLAG < 1 << order {
                return false;
            }
            if self.exchange(self.first_tree + tree, seen, seen - (1 << order)) {
                return true;
            }
        }
        false
    }

    fn take(&self, tree: usize, order: u32) -> Option<Block> {
        for child in 8 * tree..(8 * tree + 8).min(CHILDREN) {
            let frame = match order {
                0..=6 => self.take_small(child, order),
                7 | 8 => self.take_wide(child, order),
                _ => self.take_huge(child),
            };
            if let Some(frame) = frame {
                self.load(0);
                return Some(Block { frame, order });
            }
        }
        None
    }

    fn charge(&self, child: usize, n: u64) -> bool {
        let (word, shift) = (entry_word(child), 16 * (child % 4));
        for _ in 0..TRIES {
            let seen = self.load(word);
            let entry = seen >> shift & 0xffff;
            if entry >= FLAG || entry < n {
                return false;
            }
            if self.exchange(word, seen, seen - (n << shift)) {
                return true;
            }
        }
        false
    }

    fn refund(&self, child: usize, n: u64) {
        self.words[entry_word(child)].fetch_add(n << (16 * (child % 4)), SeqCst);
    }

    fn take_small(&self, child: usize, order: u32) -> Option<usize> {
        if !self.charge(child, 1 << order) {
            return None;
        }
        for word in 8 * child..8 * child + 8 {
            for _ in 0..TRIES {
                let seen = self.load(self.first_bits + word);
                let Some(bit) = find_run(seen, order) else {
                    break;
                };
                if self.exchange(self.first_bits + word, seen, seen | mask(order, bit)) {
                    return Some(64 * word + bit as usize);
                }
            }
        }
        self.refund(child, 1 << order);
        None
    }

    fn take_wide(&self, child: usize, order: u32) -> Option<usize> {
        if !self.charge(child, 1 << order) {
            return None;
        }
        let first = self.first_bits + 8 * child;
        let count = 1 << (order - 6);
        let mut seen = [0; 8];
        for (i, word) in seen.iter_mut().enumerate() {
            *word = self.load(first + i);
        }
        while let Some(group) = (0..8)
            .step_by(count)
            .find(|&g| seen[g..g + count].iter().all(|&word| word == 0))
        {
            if self.claim_words(first, group, count, &mut seen) {
                return Some(512 * child + 64 * group);
            }
        }
        self.refund(child, 1 << order);
        None
    }

    fn claim_words(&self, first: usize, group: usize, count: usize, seen: &mut [u64; 8]) -> bool {
        for i in group..group + count {
            let mut tries = 0;
            while !self.exchange(first + i, 0, !0) {
                tries += 1;
                seen[i] = self.load(first + i);
                if seen[i] != 0 || tries == TRIES {
                    if seen[i] == 0 {
                        seen[i] = !0;
                    }
                    for claimed in group..i {
                        self.words[first + claimed].fetch_and(0, SeqCst);
                    }
                    return false;
                }
            }
        }
        true
    }

    fn take_huge(&self, child: usize) -> Option<usize> {
        let (word, shift) = (entry_word(child), 16 * (child % 4));
        for _ in 0..TRIES {
            let seen = self.load(word);
            if seen >> shift & 0xffff != 512 {
                return None;
            }
            if self.exchange(word, seen, seen - (512 << shift) + (FLAG << shift)) {
                return Some(512 * child);
            }
        }
        None
    }

    fn give(&self, block: Block) {
        let Block { frame, order } = block;
        self.load(0);
        let child = frame / 512;
        match order {
            0..=6 => {
                let run = mask(order, (frame % 64) as u32);
                self.words[self.first_bits + frame / 64].fetch_and(!run, SeqCst);
            }
            7 | 8 => {
                for word in frame / 64..(frame + (1 << order)) / 64 {
                    self.words[self.first_bits + word].fetch_and(0, SeqCst);
                }
            }
            _ => {
                let shift = 16 * (child % 4);
                self.words[entry_word(child)].fetch_sub(32256 << shift, SeqCst);
                return;
            }
        }
        self.refund(child, 1 << order);
    }

    fn pairs(&self, tree: usize, order: u32, count: u64) -> u64 {
        let mut taken = 0;
        if !self.pay(tree, order) {
            return 0;
        }
        for _ in 0..count {
            if let Some(block) = self.take(tree, order) {
                self.give(block);
                taken += 1;
            }
        }
        self.words[self.first_tree + tree].fetch_add(1 << order, SeqCst);
        taken
    }

    fn is_all_free(&self) -> bool {
        (0..CHILDREN).all(|child| self.load(entry_word(child)) == 0x0200_0200_0200_0200)
            && (0..TREES).all(|tree| self.load(self.first_tree + tree) == 4096)
            && (self.first_bits..self.words.len()).all(|word| self.load(word) == 0)
    }
}

fn mask(order: u32, bit: u32) -> u64 {
    (!0 >> (64 - (1 << order))) << bit
}

/// The first bit of the lowest aligned run of `2^order` clear bits.
fn find_run(word: u64, order: u32) -> Option<u32> {
    let mut clear = !word;
    for step in 0..order {
        clear &= clear >> (1 << step);
    }
    let starts = clear & STARTS[order as usize];
    if starts == 0 { None } else { Some(starts.trailing_zeros()) }
}

/// Nanoseconds, and how many takes found a block.
fn measure(is_shared: bool, order: u32, threads: usize, count: u64) -> (u128, u64) {
    let table = Table::new(threads);
    let start = Instant::now();
    let taken = in_halves((0..threads).collect(), &|k| {
        let tree = if is_shared { 0 } else { k * TREES / threads };
        table.pairs(tree, order, count)
    });
    let taken = taken.into_iter().sum();
    let spent = start.elapsed().as_nanos();
    assert!(table.is_all_free());
    (spent, taken)
}

fn main() {
    let words: Vec<String> = std::env::args().skip(1).collect();
    let [count, rounds] = words.as_slice() else {
        return;
    };
    let count: u64 = count.parse().unwrap();
    let rounds: u32 = rounds.parse().unwrap();
    for is_shared in [false, true] {
        for threads in [1, 2, 4] {
            for order in [0, 3, 6, 7, 9] {
                let best = (0..rounds).map(|_| measure(is_shared, order, threads, count)).min();
                let (spent, taken) = best.unwrap();
                let trees = if is_shared { "one tree" } else { "own trees" };
                println!("{trees},{threads},{order},{},{taken}", 10 * spent / u128::from(count));
            }
        }
    }
}
