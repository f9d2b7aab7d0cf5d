// E0599
use llfree::{Block, Unchecked};

pub fn main(block: Block<Unchecked>) -> (Block<Unchecked>, Block<Unchecked>) {
    (block.clone(), block)
}
