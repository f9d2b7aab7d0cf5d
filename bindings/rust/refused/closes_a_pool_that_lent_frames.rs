// E0505
use llfree::{Pool, Processor};

pub struct One;

impl Processor for One {
    fn now() -> usize {
        0
    }
}

pub fn main(pool: Pool<One, 1>) {
    let frames = pool.take(0);
    let _cores = pool.into_cores();
    drop(frames);
}
