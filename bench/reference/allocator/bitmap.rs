//! A bitmap under a mutex: the lowest free block of the order, looked for a word at a time.
use crate::memory::{Block, Memory, Refusal};
use crate::words::{find_run, find_words, mask};
use std::sync::Mutex;

// Aligned, so that it shares no cache line with what a thread writes on its stack.
#[repr(align(128))]
pub struct Bitmap {
    held: Mutex<Held>,
}

struct Held {
    words: Vec<u64>,
    // All words below are full.
    first: usize,
}

impl Memory for Bitmap {
    type Core = ();

    const NAME: &'static str = "bitmap";

    fn open(children: usize, cores: usize) -> (Bitmap, Vec<()>) {
        let held = Held { words: vec![0; 8 * children], first: 0 };
        let held = Mutex::new(held);
        (Bitmap { held }, vec![(); cores])
    }

    fn take(&self, _core: &mut (), order: u8) -> Result<Block, Refusal> {
        let mut held = self.held.lock().unwrap();
        let frame = if order <= 6 { held.take_run(order) } else { held.take_words(order) };
        match frame {
            Some(frame) => Ok(Block { frame: frame as u32, order }),
            None => Err(Refusal::NoBlock),
        }
    }

    fn give(&self, _core: &mut (), block: Block) {
        let (frame, order) = (block.frame as usize, block.order);
        let mut held = self.held.lock().unwrap();
        if order <= 6 {
            held.words[frame / 64] &= !mask(order, (frame % 64) as u32);
        } else {
            held.words[frame / 64..(frame + (1 << order)) / 64].fill(0);
        }
        held.first = held.first.min(frame / 64);
    }

    fn is_all_free(&self) -> bool {
        self.held.lock().unwrap().words.iter().all(|&word| word == 0)
    }
}

impl Held {
    fn take_run(&mut self, order: u8) -> Option<usize> {
        self.pass_full();
        for i in self.first..self.words.len() {
            if let Some(bit) = find_run(self.words[i], order) {
                self.words[i] |= mask(order, bit);
                return Some(64 * i + bit as usize);
            }
        }
        None
    }

    fn take_words(&mut self, order: u8) -> Option<usize> {
        self.pass_full();
        let count = 1 << (order - 6);
        let from = self.first / count * count;
        let first = from + find_words(&self.words[from..], count)?;
        self.words[first..first + count].fill(!0);
        Some(64 * first)
    }

    fn pass_full(&mut self) {
        while self.first < self.words.len() && self.words[self.first] == !0 {
            self.first += 1;
        }
    }
}
