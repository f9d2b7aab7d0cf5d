//! Why a call was refused.
use core::fmt;

/// Why a call was refused, as `enum llfree_status` has it. Nothing has changed then.
#[repr(u32)]
#[derive(Clone, Copy, Debug, PartialEq, Eq)]
#[non_exhaustive]
pub enum Refused {
    /// No block of the order was found, or the one that was asked for was not free; beside other cores one may be free.
    NoBlock = 1,
    /// Orders are 0 to 9, and a block of order 0 has no halves.
    BadOrder = 2,
    /// No such block is held, or a claim is for none.
    NotHeld = 3,
    /// Nothing is behind the handle.
    ClosedHandle = 4,
    /// The heap had no memory for the allocator itself.
    NoMemory = 5,
    /// No memory has this many frames or cores, or zones may not lie so.
    BadGeometry = 6,
    /// Something is behind the handle already.
    OpenHandle = 7,
    /// Other cores won each exchange.
    Contended = 8,
    /// A range is empty, out of order or outside of the memory, or there are too many; or there is no such zone.
    BadRange = 9,
    /// The image has more numbers than the buffer.
    NoRoom = 10,
    /// Other cores of the memory are open.
    CoresOpen = 11,
    /// The numbers are those of no image of this many frames.
    BadImage = 12,
    /// The block is of another memory than the core. The binding says so itself.
    OtherMemory = 100,
    /// A status that this binding does not know: the library is a later one.
    Unknown = 101,
}

impl Refused {
    pub(crate) fn of(status: u32) -> Result<(), Refused> {
        use Refused::*;
        const ALL: [Refused; 12] = [
            NoBlock, BadOrder, NotHeld, ClosedHandle, NoMemory, BadGeometry, OpenHandle, Contended, BadRange, NoRoom,
            CoresOpen, BadImage,
        ];
        match status {
            0 => Ok(()),
            _ => Err(*ALL.get(status as usize - 1).unwrap_or(&Unknown)),
        }
    }

    /// Whether the same call may succeed when it is made again, since other cores run.
    pub fn may_pass(self) -> bool {
        matches!(self, Refused::NoBlock | Refused::Contended)
    }
}

impl fmt::Display for Refused {
    fn fmt(&self, f: &mut fmt::Formatter<'_>) -> fmt::Result {
        f.write_str(match self {
            Refused::NoBlock => "no block of the order was found",
            Refused::BadOrder => "orders are 0 to 9, and a frame has no halves",
            Refused::NotHeld => "no such block is held",
            Refused::ClosedHandle => "the core is closed",
            Refused::NoMemory => "no memory for the allocator",
            Refused::BadGeometry => "no memory has so many frames or cores, or such zones",
            Refused::OpenHandle => "the core is open already",
            Refused::Contended => "other cores won",
            Refused::BadRange => "the ranges are too many, empty, out of order or outside of the memory; or no such zone",
            Refused::NoRoom => "the buffer is too small for the image",
            Refused::CoresOpen => "other cores of the memory are open",
            Refused::BadImage => "the numbers are those of no image",
            Refused::OtherMemory => "the block is of another memory",
            Refused::Unknown => "the library answered a status that this binding does not know",
        })
    }
}

impl core::error::Error for Refused {}
