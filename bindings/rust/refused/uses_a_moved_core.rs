// E0382
use llfree::Core;

pub fn main(mut core: Core) -> u32 {
    drop(core);
    core.free_frames()
}
