//! The allocator of `core_frames` over std's atomics: the same steps in the same order, with a
//! reserved tree for each core.
use crate::memory::{Block, Memory, Refusal};
use crate::table::{TRIES, Table};
use crate::words::{FLAG, TREE_CHILDREN, local, local_of};

/// How many gives in a row into one tree make a core reserve it.
const GIVES_IN_A_ROW: u32 = 4;

/// A tree is nearly full, or nearly free, where not this part of it is free, or held.
const MARGIN: u64 = 16;

// Aligned, so that it shares no cache line with what a thread writes on its stack.
#[repr(align(128))]
pub struct LockFree {
    pub table: Table,
}

pub struct Core {
    number: usize,
    // The tree of the last gives that went into the word of a tree, and how many there were.
    gives: Option<(usize, u32)>,
    // Whether an exchange was lost in this take.
    missed: bool,
}

#[derive(Clone, Copy)]
enum Pass {
    PartlyFree,
    AnyFree,
}

impl Memory for LockFree {
    type Core = Core;

    const NAME: &'static str = "reference";

    fn open(children: usize, cores: usize) -> (LockFree, Vec<Core>) {
        let table = Table::new(children, cores);
        let core = |number| Core { number, gives: None, missed: false };
        (LockFree { table }, (0..cores).map(core).collect())
    }

    fn take(&self, core: &mut Core, order: u8) -> Result<Block, Refusal> {
        core.missed = false;
        match self.search(core, order) {
            Some(block) => Ok(block),
            None if core.missed => Err(Refusal::Contended),
            None => Err(Refusal::NoBlock),
        }
    }

    fn give(&self, core: &mut Core, block: Block) {
        let (tree, n) = (block.frame as usize / 512 / TREE_CHILDREN, 1 << block.order);
        self.table.give_low(block);
        if self.try_refund_own(core, tree, n) {
            core.gives = None;
            return;
        }
        self.table.add(self.table.tree_place(tree), n);
        if core.counts(tree) {
            if let Some(free) = self.try_reserve(core, tree, 0, FLAG) {
                self.install(core, tree, free);
            }
        }
    }

    fn is_all_free(&self) -> bool {
        self.table.is_all_free()
    }
}

impl Core {
    /// Records a give into the word of the tree; true where it is the fourth in a row.
    fn counts(&mut self, tree: usize) -> bool {
        let before = match self.gives {
            Some((last, count)) if last == tree => count,
            _ => 0,
        };
        if before >= GIVES_IN_A_ROW - 1 {
            self.gives = None;
            return true;
        }
        self.gives = Some((tree, before + 1));
        false
    }
}

impl LockFree {
    /// The own tree, trees that are partly free, all trees, and all again once nothing rests.
    fn search(&self, core: &mut Core, order: u8) -> Option<Block> {
        if let Some(block) = self.take_own(core, order) {
            return Some(block);
        }
        if let Some(block) = self.take_anywhere(core, order, Pass::PartlyFree) {
            return Some(block);
        }
        if let Some(block) = self.take_anywhere(core, order, Pass::AnyFree) {
            return Some(block);
        }
        self.drain();
        self.take_anywhere(core, order, Pass::AnyFree)
    }

    fn take_own(&self, core: &mut Core, order: u8) -> Option<Block> {
        let seen = self.load_own(core, 1 << order);
        let tree = self.pay_own(core, seen, 1 << order)?;
        let block = self.table.take_in_tree(&mut core.missed, tree, order);
        if block.is_none() {
            self.refund(core, tree, 1 << order);
        }
        block
    }

    /// The own local word. Where too few frames rest there, those of its tree are collected first,
    /// if there are enough then.
    fn load_own(&self, core: &mut Core, n: u64) -> u64 {
        let own = self.table.local_place(core.number);
        let seen = self.table.load(own);
        match local_of(seen) {
            Some((tree, resting)) if resting < n => {
                if let Some(free) = self.try_collect(core, tree, n - resting) {
                    self.refund(core, tree, free);
                }
                self.table.load(own)
            }
            _ => seen,
        }
    }

    fn try_collect(&self, core: &mut Core, tree: usize, least: u64) -> Option<u64> {
        let place = self.table.tree_place(tree);
        for _ in 0..TRIES {
            let seen = self.table.load(place);
            let free = seen % FLAG;
            if free == 0 || free < least {
                return None;
            }
            if self.table.exchange(&mut core.missed, place, seen, seen - free) {
                return Some(free);
            }
        }
        None
    }

    fn pay_own(&self, core: &mut Core, mut seen: u64, n: u64) -> Option<usize> {
        let own = self.table.local_place(core.number);
        for i in 0..TRIES {
            let (tree, resting) = local_of(seen)?;
            if resting < n {
                return None;
            }
            if self.table.exchange(&mut core.missed, own, seen, seen - n) {
                return Some(tree);
            }
            if i + 1 < TRIES {
                seen = self.table.load(own);
            }
        }
        None
    }

    fn refund(&self, core: &mut Core, tree: usize, n: u64) {
        if !self.try_refund_own(core, tree, n) {
            self.table.add(self.table.tree_place(tree), n);
        }
    }

    fn try_refund_own(&self, core: &mut Core, tree: usize, n: u64) -> bool {
        let own = self.table.local_place(core.number);
        for _ in 0..TRIES {
            let seen = self.table.load(own);
            match local_of(seen) {
                Some((reserved, _)) if reserved == tree => {}
                _ => return false,
            }
            if self.table.exchange(&mut core.missed, own, seen, seen + n) {
                return true;
            }
        }
        false
    }

    fn take_anywhere(&self, core: &mut Core, order: u8, pass: Pass) -> Option<Block> {
        let trees = self.table.trees;
        let start = core.number * trees / self.table.cores;
        if let Some(block) = self.take_between(core, order, pass, start, trees) {
            return Some(block);
        }
        self.take_between(core, order, pass, 0, start)
    }

    fn take_between(
        &self,
        core: &mut Core,
        order: u8,
        pass: Pass,
        from: usize,
        to: usize,
    ) -> Option<Block> {
        for tree in from..to {
            let size = self.table.tree_size(tree);
            let (least, most) = match pass {
                Pass::PartlyFree => ((size / MARGIN).max(1 << order), size - size / MARGIN),
                Pass::AnyFree => (1 << order, size),
            };
            if let Some(block) = self.take_in(core, tree, order, least, most) {
                return Some(block);
            }
        }
        None
    }

    fn take_in(
        &self,
        core: &mut Core,
        tree: usize,
        order: u8,
        least: u64,
        most: u64,
    ) -> Option<Block> {
        let free = self.try_reserve(core, tree, least, most)?;
        let block = self.table.take_in_tree(&mut core.missed, tree, order);
        if block.is_some() {
            self.install(core, tree, free - (1 << order));
        } else {
            self.unreserve(tree, free);
        }
        block
    }

    fn try_reserve(&self, core: &mut Core, tree: usize, least: u64, most: u64) -> Option<u64> {
        let place = self.table.tree_place(tree);
        for _ in 0..TRIES {
            let seen = self.table.load(place);
            if seen >= FLAG || seen < least || seen > most {
                return None;
            }
            if self.table.exchange(&mut core.missed, place, seen, FLAG) {
                return Some(seen);
            }
        }
        None
    }

    /// Makes the tree the core's; the one that it had is reserved no more.
    fn install(&self, core: &Core, tree: usize, resting: u64) {
        let word = local(Some((tree, resting)));
        let out = self.table.swap(self.table.local_place(core.number), word);
        if let Some((last, count)) = local_of(out) {
            self.unreserve(last, count);
        }
    }

    fn unreserve(&self, tree: usize, n: u64) {
        self.table.sub(self.table.tree_place(tree), FLAG - n);
    }

    fn drain(&self) {
        for core in 0..self.table.cores {
            let place = self.table.local_place(core);
            if self.table.load(place) == 0 {
                continue;
            }
            if let Some((tree, count)) = local_of(self.table.swap(place, 0)) {
                self.unreserve(tree, count);
            }
        }
    }
}
