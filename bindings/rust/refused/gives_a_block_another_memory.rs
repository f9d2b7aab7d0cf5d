// E0451
use llfree::Block;

pub fn main(block: Block, of_another: u64) -> Block {
    Block { memory: of_another, ..block }
}
