// E0382
use llfree::{Block, Core};

pub fn main(core: &mut Core, block: Block) {
    let _ = core.give(block);
    let _ = core.give(block);
}
