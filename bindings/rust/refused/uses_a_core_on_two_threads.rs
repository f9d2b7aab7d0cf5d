// E0499
use llfree::Core;

pub fn main(mut core: Core) {
    std::thread::scope(|scope| {
        scope.spawn(|| core.take(0).map(drop));
        scope.spawn(|| core.take(0).map(drop));
    });
}
