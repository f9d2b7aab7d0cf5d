//! A binary buddy allocator under a mutex. Its largest block is a child; the free blocks of an
//! order are a list, the last that was given first.
use crate::memory::{Block, Memory, Refusal};
use std::sync::Mutex;

const MOST_ORDER: u8 = 9;

const NONE: u32 = u32::MAX;

/// No free block begins at this frame.
const HELD: u8 = 255;

// Aligned, so that it shares no cache line with what a thread writes on its stack.
#[repr(align(128))]
pub struct Buddy {
    free: Mutex<Free>,
}

struct Free {
    // The first block of each order's list.
    heads: [u32; 10],
    // For each frame that a free block begins at, its order and its neighbours in the list.
    nodes: Vec<Node>,
}

#[derive(Clone, Copy)]
struct Node {
    next: u32,
    last: u32,
    order: u8,
}

impl Memory for Buddy {
    type Core = ();

    const NAME: &'static str = "buddy";

    fn open(children: usize, cores: usize) -> (Buddy, Vec<()>) {
        let node = Node { next: NONE, last: NONE, order: HELD };
        let mut free = Free { heads: [NONE; 10], nodes: vec![node; 512 * children] };
        for child in (0..children).rev() {
            free.push(512 * child as u32, MOST_ORDER);
        }
        let free = Mutex::new(free);
        (Buddy { free }, vec![(); cores])
    }

    fn take(&self, _core: &mut (), order: u8) -> Result<Block, Refusal> {
        match self.free.lock().unwrap().take(order) {
            Some(frame) => Ok(Block { frame, order }),
            None => Err(Refusal::NoBlock),
        }
    }

    fn give(&self, _core: &mut (), block: Block) {
        self.free.lock().unwrap().give(block.frame, block.order);
    }

    fn is_all_free(&self) -> bool {
        let free = self.free.lock().unwrap();
        let is_whole = |child: &[Node]| {
            child[0].order == MOST_ORDER && child[1..].iter().all(|node| node.order == HELD)
        };
        free.nodes.chunks(512).all(is_whole)
    }
}

impl Free {
    fn take(&mut self, order: u8) -> Option<u32> {
        let mut found = (order..=MOST_ORDER).find(|&o| self.heads[usize::from(o)] != NONE)?;
        let frame = self.heads[usize::from(found)];
        self.unlink(frame);
        while found > order {
            found -= 1;
            self.push(frame + (1 << found), found);
        }
        Some(frame)
    }

    fn give(&mut self, mut frame: u32, mut order: u8) {
        while order < MOST_ORDER {
            let buddy = frame ^ 1 << order;
            if self.nodes[buddy as usize].order != order {
                break;
            }
            self.unlink(buddy);
            frame &= !(1 << order);
            order += 1;
        }
        self.push(frame, order);
    }

    fn push(&mut self, frame: u32, order: u8) {
        let next = self.heads[usize::from(order)];
        self.nodes[frame as usize] = Node { next, last: NONE, order };
        if next != NONE {
            self.nodes[next as usize].last = frame;
        }
        self.heads[usize::from(order)] = frame;
    }

    fn unlink(&mut self, frame: u32) {
        let Node { next, last, order } = self.nodes[frame as usize];
        if last == NONE {
            self.heads[usize::from(order)] = next;
        } else {
            self.nodes[last as usize].next = next;
        }
        if next != NONE {
            self.nodes[next as usize].last = last;
        }
        self.nodes[frame as usize].order = HELD;
    }
}
