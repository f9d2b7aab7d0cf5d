//! What each allocator offers to the work that measures it.

/// `2^order` frames from `frame` on. Whoever has it holds them; it cannot be copied.
#[derive(Debug, PartialEq, Eq)]
pub struct Block {
    pub frame: u32,
    pub order: u8,
}

#[derive(Debug, PartialEq, Eq)]
pub enum Refusal {
    NoBlock,
    Contended,
}

/// An allocator that threads share by reference, each with a core of its own.
pub trait Memory: Sync + Sized {
    type Core: Send;

    const NAME: &'static str;

    /// All frames are free.
    fn open(children: usize, cores: usize) -> (Self, Vec<Self::Core>);

    fn take(&self, core: &mut Self::Core, order: u8) -> Result<Block, Refusal>;

    fn give(&self, core: &mut Self::Core, block: Block);

    /// Nothing is held, and every counter says so.
    fn is_all_free(&self) -> bool;
}
