//! How words spell their content, and runs of clear bits.

pub const CHILD_FRAMES: u64 = 512;
pub const TREE_CHILDREN: usize = 8;

/// Above the free frames of an entry the huge flag, above those of a tree word that it is reserved.
pub const FLAG: u64 = 32768;

const RESERVATION: u64 = 1 << 63;

const STARTS: [u64; 7] = [
    !0,
    0x5555_5555_5555_5555,
    0x1111_1111_1111_1111,
    0x0101_0101_0101_0101,
    0x0001_0001_0001_0001,
    0x0000_0001_0000_0001,
    1,
];

/// The local word of a core: a tree and the frames of it that rest there, or none.
pub fn local(rest: Option<(usize, u64)>) -> u64 {
    match rest {
        Some((tree, free)) => RESERVATION + ((tree as u64) << 32) + free,
        None => 0,
    }
}

pub fn local_of(word: u64) -> Option<(usize, u64)> {
    if word == 0 {
        return None;
    }
    Some(((word - RESERVATION >> 32) as usize, word & 0xffff_ffff))
}

pub fn mask(order: u8, bit: u32) -> u64 {
    (!0 >> (64 - (1 << order))) << bit
}

/// The first bit of the lowest aligned run of `2^order` clear bits.
pub fn find_run(word: u64, order: u8) -> Option<u32> {
    let mut clear = !word;
    for step in 0..order {
        clear &= clear >> (1 << step);
    }
    let starts = clear & STARTS[usize::from(order)];
    if starts == 0 { None } else { Some(starts.trailing_zeros()) }
}

/// The first of the lowest aligned group of `count` clear words.
pub fn find_words(words: &[u64], count: usize) -> Option<usize> {
    (0..words.len())
        .step_by(count)
        .find(|&first| words[first..first + count].iter().all(|&word| word == 0))
}
