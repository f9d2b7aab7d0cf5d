// E0599
use llfree::{Block, Core, Refused};

pub fn main(core: &mut Core, block: Block) -> Result<(), (Refused, [Block; 1])> {
    core.give_frames([block])
}
