// E0515
use llfree::{Core, Frames, Pool, Processor, Refused};

pub struct One;

impl Processor for One {
    fn now() -> usize {
        0
    }
}

pub fn main(cores: [Core; 1]) -> Result<Frames<'static, One, 1>, Refused> {
    let pool = Pool::of(cores);
    pool.take(0)
}
