//! The two forms of a memory: how the library knows what is out.
use crate::sys::{self, Handle, Struct};
use crate::Refused;

/// What a block is made of, and the functions of the header that take, give and split it.
///
/// It is sealed: [`Checked`] and [`Unchecked`] are all.
pub trait Form: Sized {
    #[doc(hidden)]
    type Right: Send + Sync;
    #[doc(hidden)]
    const OPEN: sys::Open;
    #[doc(hidden)]
    const OPEN_ZONES: sys::OpenZones;
    #[doc(hidden)]
    fn take(handle: &mut Handle, order: u8) -> Result<Self::Right, u32>;
    #[doc(hidden)]
    fn take_at(handle: &mut Handle, frame: u32, order: u8) -> Result<Self::Right, u32>;
    #[doc(hidden)]
    fn give(handle: &mut Handle, right: Self::Right) -> Result<(), (u32, Self::Right)>;
    #[doc(hidden)]
    fn split(handle: &mut Handle, right: Self::Right) -> Result<(Self::Right, Self::Right), (u32, Self::Right)>;
    #[doc(hidden)]
    fn take_frame(handle: &mut Handle) -> Result<Self::Right, u32>;
    #[doc(hidden)]
    fn give_frame(handle: &mut Handle, right: Self::Right) -> Result<(), (u32, Self::Right)>;
    #[doc(hidden)]
    fn place(right: &Self::Right) -> (u32, u8);
}

/// The library keeps a list of what is out, 16 bytes a frame, and looks each give up. Images and claims are of this
/// form.
#[derive(Debug)]
pub enum Checked {}

/// The right to a block is the block's value alone: no list, a fifth less time. From C it is unchecked; here the
/// compiler keeps the duties, since a [`Block`](crate::Block) is never copied and knows its memory.
#[derive(Debug)]
pub enum Unchecked {}

#[doc(hidden)]
#[derive(Debug)]
pub struct Place {
    frame: u32,
    order: u8,
}

impl Checked {
    pub(crate) fn right_of(claim: crate::Claim) -> Place {
        Place { frame: claim.frame, order: claim.order }
    }
}

// In all functions below the handle is behind `&mut`: it is aligned, one call at a time, and nobody else looks at it.
impl Form for Checked {
    type Right = Place;
    const OPEN: sys::Open = sys::llfree_open;
    const OPEN_ZONES: sys::OpenZones = sys::llfree_open_zones;

    fn take(handle: &mut Handle, order: u8) -> Result<Place, u32> {
        let mut frame = 0;
        // SAFETY: as above; `frame` is a local.
        match unsafe { sys::llfree_take(handle, order, &mut frame) } {
            0 => Ok(Place { frame, order }),
            status => Err(status),
        }
    }

    fn take_at(handle: &mut Handle, frame: u32, order: u8) -> Result<Place, u32> {
        // SAFETY: as above; any number is safe.
        match unsafe { sys::llfree_take_at(handle, frame, order) } {
            0 => Ok(Place { frame, order }),
            status => Err(status),
        }
    }

    fn give(handle: &mut Handle, right: Place) -> Result<(), (u32, Place)> {
        // SAFETY: as above; any number is safe.
        match unsafe { sys::llfree_give(handle, right.frame, right.order) } {
            0 => Ok(()),
            status => Err((status, right)),
        }
    }

    fn split(handle: &mut Handle, right: Place) -> Result<(Place, Place), (u32, Place)> {
        // SAFETY: as above; any number is safe.
        match unsafe { sys::llfree_split(handle, right.frame, right.order) } {
            0 => {
                let order = right.order - 1;
                Ok((Place { order, ..right }, Place { frame: right.frame + (1 << order), order }))
            }
            status => Err((status, right)),
        }
    }

    fn take_frame(handle: &mut Handle) -> Result<Place, u32> {
        let mut frame = 0;
        // SAFETY: as above; `frame` is a local.
        match unsafe { sys::llfree_take_number(handle, &mut frame) } {
            0 => Ok(Place { frame, order: 0 }),
            status => Err(status),
        }
    }

    fn give_frame(handle: &mut Handle, right: Place) -> Result<(), (u32, Place)> {
        if right.order > 0 {
            return Err((Refused::BadOrder as u32, right));
        }
        // SAFETY: as above; any number is safe.
        match unsafe { sys::llfree_give_number(handle, right.frame) } {
            0 => Ok(()),
            status => Err((status, right)),
        }
    }

    fn place(right: &Place) -> (u32, u8) {
        (right.frame, right.order)
    }
}

pub(crate) const EMPTY: Struct = Struct { live: false, frame: 0, order: 0 };

/// What [`Form::take_frame`] and [`Form::give_frame`] are for one single frame, for several at once.
impl Unchecked {
    /// How many of these empty structs hold a frame then: the first ones.
    pub(crate) fn take_frames(handle: &mut Handle, rights: &mut [Struct]) -> Result<usize, u32> {
        let mut taken = 0;
        // SAFETY: as above; the structs of a slice, which are empty, and a local.
        match unsafe { sys::llfree_take_frames(handle, rights.as_mut_ptr(), rights.len(), &mut taken) } {
            0 => Ok(taken),
            status => Err(status),
        }
    }

    pub(crate) fn give_frames(handle: &mut Handle, rights: &mut [Struct]) -> Result<(), u32> {
        // SAFETY: as above; the structs of a slice were taken from this memory, which the caller has looked at.
        match unsafe { sys::llfree_give_frames(handle, rights.as_mut_ptr(), rights.len()) } {
            0 => Ok(()),
            status => Err(status),
        }
    }
}

// A struct is moved, never copied, and its bytes are written by the library alone.
impl Form for Unchecked {
    type Right = Struct;
    const OPEN: sys::Open = sys::llfree_open_unchecked;
    const OPEN_ZONES: sys::OpenZones = sys::llfree_open_zones_unchecked;

    fn take(handle: &mut Handle, order: u8) -> Result<Struct, u32> {
        let mut right = EMPTY;
        // SAFETY: as above; the struct is an empty local.
        match unsafe { sys::llfree_take_block(handle, order, &mut right) } {
            0 => Ok(right),
            status => Err(status),
        }
    }

    fn take_at(handle: &mut Handle, frame: u32, order: u8) -> Result<Struct, u32> {
        let mut right = EMPTY;
        // SAFETY: as above; any number is safe, and the struct is an empty local.
        match unsafe { sys::llfree_take_block_at(handle, frame, order, &mut right) } {
            0 => Ok(right),
            status => Err(status),
        }
    }

    fn give(handle: &mut Handle, mut right: Struct) -> Result<(), (u32, Struct)> {
        // SAFETY: as above; the struct was taken from this memory, which the caller has looked at.
        match unsafe { sys::llfree_give_block(handle, &mut right) } {
            0 => Ok(()),
            status => Err((status, right)),
        }
    }

    fn split(handle: &mut Handle, mut right: Struct) -> Result<(Struct, Struct), (u32, Struct)> {
        let mut upper = EMPTY;
        // SAFETY: as for a give; `upper` is an empty local.
        match unsafe { sys::llfree_split_block(handle, &mut right, &mut upper) } {
            0 => Ok((right, upper)),
            status => Err((status, right)),
        }
    }

    fn take_frame(handle: &mut Handle) -> Result<Struct, u32> {
        let mut right = EMPTY;
        // SAFETY: as above; the struct is an empty local.
        match unsafe { sys::llfree_take_frame(handle, &mut right) } {
            0 => Ok(right),
            status => Err(status),
        }
    }

    fn give_frame(handle: &mut Handle, mut right: Struct) -> Result<(), (u32, Struct)> {
        // SAFETY: as above; the struct was taken from this memory, which the caller has looked at.
        match unsafe { sys::llfree_give_frame(handle, &mut right) } {
            0 => Ok(()),
            status => Err((status, right)),
        }
    }

    fn place(right: &Struct) -> (u32, u8) {
        (right.frame, right.order)
    }
}
