//! The words of a memory, where `core_frames` has them, and takes and gives inside a tree with the
//! steps of `low_frames`, one by one.
use crate::memory::Block;
use crate::words::{CHILD_FRAMES, FLAG, TREE_CHILDREN, find_run, find_words, local_of, mask};
use std::sync::atomic::{AtomicU64, Ordering::SeqCst};

/// How often an exchange on one word is tried.
pub const TRIES: usize = 4;

/// The words that a cache line has: the anchor, a tree's entries and each local word have one alone.
const LINE: usize = 8;

const LANES: usize = 4;

pub struct Table {
    words: Vec<AtomicU64>,
    pub children: usize,
    pub trees: usize,
    pub cores: usize,
    first_tree: usize,
    first_local: usize,
    first_bits: usize,
}

impl Table {
    /// All frames are free. Word 0 is the anchor, which handing a block out and in loads.
    pub fn new(children: usize, cores: usize) -> Table {
        let trees = children.div_ceil(TREE_CHILDREN);
        let first_tree = LINE + LINE * trees;
        let first_local = first_tree + trees + LINE - 1;
        let first_bits = first_local + LINE * cores;
        let words = vec![0; first_bits + 8 * children];
        let table = Table {
            words: words.into_iter().map(AtomicU64::new).collect(),
            children,
            trees,
            cores,
            first_tree,
            first_local,
            first_bits,
        };
        for child in 0..children {
            table.refund(child, CHILD_FRAMES);
        }
        for tree in 0..trees {
            table.add(table.tree_place(tree), table.tree_size(tree));
        }
        table
    }

    pub fn tree_size(&self, tree: usize) -> u64 {
        CHILD_FRAMES * (self.children - TREE_CHILDREN * tree).min(TREE_CHILDREN) as u64
    }

    pub fn tree_place(&self, tree: usize) -> usize {
        self.first_tree + tree
    }

    pub fn local_place(&self, core: usize) -> usize {
        self.first_local + LINE * core
    }

    pub fn load(&self, place: usize) -> u64 {
        self.words[place].load(SeqCst)
    }

    pub fn exchange(&self, missed: &mut bool, place: usize, seen: u64, left: u64) -> bool {
        let made = self.words[place].compare_exchange(seen, left, SeqCst, SeqCst).is_ok();
        *missed = *missed || !made;
        made
    }

    pub fn swap(&self, place: usize, left: u64) -> u64 {
        self.words[place].swap(left, SeqCst)
    }

    pub fn add(&self, place: usize, n: u64) {
        self.words[place].fetch_add(n, SeqCst);
    }

    pub fn sub(&self, place: usize, n: u64) {
        self.words[place].fetch_sub(n, SeqCst);
    }

    fn entry_place(&self, child: usize) -> (usize, usize) {
        let line = LINE + LINE * (child / TREE_CHILDREN);
        (line + child % TREE_CHILDREN / LANES, 16 * (child % LANES))
    }

    /// The free frames of the child and its huge flag, as one number.
    pub fn entry(&self, child: usize) -> u64 {
        let (place, shift) = self.entry_place(child);
        self.load(place) >> shift & 0xffff
    }

    pub fn bits(&self, child: usize) -> [u64; 8] {
        let first = self.first_bits + 8 * child;
        let mut words = [0; 8];
        for (i, word) in words.iter_mut().enumerate() {
            *word = self.load(first + i);
        }
        words
    }

    /// A block of the order in the tree, whose frames are paid.
    pub fn take_in_tree(&self, missed: &mut bool, tree: usize, order: u8) -> Option<Block> {
        for child in TREE_CHILDREN * tree..(TREE_CHILDREN * tree + TREE_CHILDREN).min(self.children)
        {
            let frame = match order {
                0..=6 => self.take_small(missed, child, order),
                7 | 8 => self.take_wide(missed, child, order),
                _ => self.take_huge(missed, child),
            };
            if let Some(frame) = frame {
                self.load(0);
                return Some(Block { frame: frame as u32, order });
            }
        }
        None
    }

    fn charge(&self, missed: &mut bool, child: usize, n: u64) -> bool {
        let (place, shift) = self.entry_place(child);
        for _ in 0..TRIES {
            let seen = self.load(place);
            let entry = seen >> shift & 0xffff;
            if entry >= FLAG || entry < n {
                return false;
            }
            if self.exchange(missed, place, seen, seen - (n << shift)) {
                return true;
            }
        }
        false
    }

    fn refund(&self, child: usize, n: u64) {
        let (place, shift) = self.entry_place(child);
        self.add(place, n << shift);
    }

    fn take_small(&self, missed: &mut bool, child: usize, order: u8) -> Option<usize> {
        if !self.charge(missed, child, 1 << order) {
            return None;
        }
        for word in 8 * child..8 * child + 8 {
            for _ in 0..TRIES {
                let seen = self.load(self.first_bits + word);
                let Some(bit) = find_run(seen, order) else {
                    break;
                };
                let left = seen | mask(order, bit);
                if self.exchange(missed, self.first_bits + word, seen, left) {
                    return Some(64 * word + bit as usize);
                }
            }
        }
        self.refund(child, 1 << order);
        None
    }

    fn take_wide(&self, missed: &mut bool, child: usize, order: u8) -> Option<usize> {
        if !self.charge(missed, child, 1 << order) {
            return None;
        }
        let count = 1 << (order - 6);
        let mut seen = self.bits(child);
        while let Some(first) = find_words(&seen, count) {
            let Some((lost, found)) = self.claim_words(missed, child, first, count) else {
                return Some(CHILD_FRAMES as usize * child + 64 * first);
            };
            seen[lost] = found;
        }
        self.refund(child, 1 << order);
        None
    }

    /// The word that was lost, with what was found in it; then none of the words is claimed.
    fn claim_words(
        &self,
        missed: &mut bool,
        child: usize,
        first: usize,
        count: usize,
    ) -> Option<(usize, u64)> {
        for i in first..first + count {
            if let Some(found) = self.claim_word(missed, 8 * child + i) {
                for claimed in first..i {
                    self.words[self.first_bits + 8 * child + claimed].fetch_and(0, SeqCst);
                }
                return Some((i, found));
            }
        }
        None
    }

    fn claim_word(&self, missed: &mut bool, word: usize) -> Option<u64> {
        for _ in 0..TRIES {
            if self.exchange(missed, self.first_bits + word, 0, !0) {
                return None;
            }
            let seen = self.load(self.first_bits + word);
            if seen != 0 {
                return Some(seen);
            }
        }
        Some(!0)
    }

    fn take_huge(&self, missed: &mut bool, child: usize) -> Option<usize> {
        let (place, shift) = self.entry_place(child);
        for _ in 0..TRIES {
            let seen = self.load(place);
            if seen >> shift & 0xffff != CHILD_FRAMES {
                return None;
            }
            let left = seen - (CHILD_FRAMES << shift) + (FLAG << shift);
            if self.exchange(missed, place, seen, left) {
                return Some(CHILD_FRAMES as usize * child);
            }
        }
        None
    }

    /// The frames of the block are paid then.
    pub fn give_low(&self, block: Block) {
        let (frame, order) = (block.frame as usize, block.order);
        self.load(0);
        let child = frame / CHILD_FRAMES as usize;
        match order {
            0..=6 => {
                let run = mask(order, (frame % 64) as u32);
                self.words[self.first_bits + frame / 64].fetch_and(!run, SeqCst);
            }
            7 | 8 => {
                for word in frame / 64..(frame + (1 << order)) / 64 {
                    self.words[self.first_bits + word].fetch_and(0, SeqCst);
                }
            }
            _ => {
                let (place, shift) = self.entry_place(child);
                self.sub(place, (FLAG - CHILD_FRAMES) << shift);
                return;
            }
        }
        self.refund(child, 1 << order);
    }

    /// No frame is held, tree words and local words count all of them, and a tree is reserved just
    /// where it rests in a local word.
    pub fn is_all_free(&self) -> bool {
        (0..self.children)
            .all(|child| self.entry(child) == CHILD_FRAMES && self.bits(child) == [0; 8])
            && (0..self.trees).all(|tree| self.is_tree_free(tree))
    }

    fn is_tree_free(&self, tree: usize) -> bool {
        let word = self.load(self.tree_place(tree));
        let rests: Vec<u64> = (0..self.cores)
            .filter_map(|core| local_of(self.load(self.local_place(core))))
            .filter(|rest| rest.0 == tree)
            .map(|rest| rest.1)
            .collect();
        word % FLAG + rests.iter().sum::<u64>() == self.tree_size(tree)
            && word / FLAG == rests.len() as u64
    }
}
