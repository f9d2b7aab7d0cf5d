// E0308
use llfree::{Block, Core, Unchecked};

pub fn main(core: &mut Core<Unchecked>, block: Block) {
    let _ = core.give(block);
}
