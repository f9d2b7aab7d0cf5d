// unused `Block` that must be used
#![deny(unused_must_use)]
use llfree::{Core, Refused};

pub fn main(core: &mut Core) -> Result<(), Refused> {
    core.take(0)?;
    Ok(())
}
