// E0382
use llfree::{Block, Core, Unchecked};

pub fn main(core: &mut Core<Unchecked>, block: Block<Unchecked>) -> u32 {
    let _ = core.give_frame(block);
    block.frame()
}
