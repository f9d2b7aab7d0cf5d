// E0277
use llfree::Core;

fn is_shared<T: Sync>(_: &T) {}

pub fn main(core: &Core) {
    is_shared(core);
}
