//! The binding over the library: threads, pools, refusals, frames that rest, zones, images. What is out is also kept by
//! hand, a byte a frame, so that a frame in two hands is seen whatever the library answers.
use llfree::{image_words, Block, Checked, Claim, Core, Form, Frames, Pool, Processor, Range, Refused, Unchecked};
use std::sync::atomic::{AtomicU8, Ordering};
use std::sync::{mpsc, Barrier};
use std::thread;

const FRAMES: u32 = 8 * 4096;

/// A byte a frame: 1 where it is out.
struct Owners(Vec<AtomicU8>);

impl Owners {
    fn new() -> Owners {
        Owners((0..FRAMES).map(|_| AtomicU8::new(0)).collect())
    }

    fn turn<F: Form>(&self, block: &Block<F>, to: u8) {
        for frame in block.frame()..block.frame() + block.frames() {
            assert_eq!(self.0[frame as usize].swap(to, Ordering::SeqCst), 1 - to, "frame {frame}");
        }
    }
}

fn step(x: &mut u64) -> u64 {
    *x ^= *x << 13;
    *x ^= *x >> 7;
    *x ^= *x << 17;
    *x
}

fn give<F: Form>(owners: &Owners, core: &mut Core<F>, block: Block<F>) {
    owners.turn(&block, 0);
    core.give(block).map_err(|(refused, _)| refused).expect("a block that is out is given");
}

/// Four threads with a core each: blocks go back where they were taken, in halves, or by another thread.
fn blocks_wander<F: Form>() {
    let kept = [Range { first: 0, frames: 16 }];
    let cores: [Core<F>; 4] = Core::open(FRAMES, &kept).expect("a memory");
    let owners = Owners::new();
    let (ends, inboxes): (Vec<_>, Vec<_>) = (0..4).map(|_| mpsc::channel::<Block<F>>()).unzip();
    let together = Barrier::new(4);
    let mut back: Vec<_> = thread::scope(|scope| {
        let run = |number: u64, mut core: Core<F>, inbox: mpsc::Receiver<Block<F>>| {
            let (ends, owners, together) = (ends.clone(), &owners, &together);
            move || {
                together.wait();
                let mut x = 88_172_645_463_325_252 + number;
                let (mut mine, mut taken) = (Vec::new(), 0);
                for _ in 0..100_000 {
                    let r = step(&mut x);
                    match (r & 1, mine.pop()) {
                        (1, Some(block)) if r & 2 == 0 => {
                            let _ = ends[(r >> 16) as usize % 4].send(block);
                        }
                        (1, Some(block)) if r & 4 == 0 && block.order() > 0 => {
                            let (lower, upper) = core.split(block).expect("a half");
                            mine.extend([lower, upper]);
                        }
                        (1, Some(block)) => give(owners, &mut core, block),
                        (_, popped) => {
                            mine.extend(popped);
                            let order = (r >> 8) as u8 % 10;
                            let place = (r >> 32) as u32 % FRAMES >> order << order;
                            let block = if r & 8 == 0 { core.take(order) } else { core.take_at(place, order) };
                            if let Ok(block) = block {
                                owners.turn(&block, 1);
                                mine.push(block);
                                taken += 1;
                            }
                        }
                    }
                    for block in inbox.try_iter() {
                        give(owners, &mut core, block);
                    }
                }
                assert!(taken > 1_000, "only {taken} takes");
                mine.into_iter().for_each(|block| give(owners, &mut core, block));
                drop(ends);
                (core, inbox)
            }
        };
        let threads: Vec<_> = (0..).zip(cores).zip(inboxes).map(|((number, core), inbox)| scope.spawn(run(number, core, inbox))).collect();
        drop(ends.clone());
        threads.into_iter().map(|thread| thread.join().expect("a thread")).collect()
    });
    drop(ends);
    for (core, inbox) in &mut back {
        inbox.iter().for_each(|block| give(&owners, core, block));
    }
    assert_eq!(back[0].0.free_frames(), FRAMES - 16);
    assert_eq!(back[3].0.free_huge(), FRAMES / 512 - 1);
}

#[test]
fn checked_blocks_wander() {
    blocks_wander::<Checked>();
}

#[test]
fn unchecked_blocks_wander() {
    blocks_wander::<Unchecked>();
}

struct Cpu;

impl Processor for Cpu {
    fn now() -> usize {
        extern "C" {
            fn sched_getcpu() -> i32;
        }
        // SAFETY: it has no condition.
        unsafe { sched_getcpu() as usize }
    }
}

/// A hundred threads on eight cores; frames that are dropped, halved, or given by hand.
#[test]
fn a_hundred_threads_share_eight_cores() {
    let pool: Pool<Cpu, 8> = Pool::of(Core::open(FRAMES, &[]).expect("a memory"));
    let owners = Owners::new();
    thread::scope(|scope| {
        for number in 0..100 {
            let (pool, owners) = (&pool, &owners);
            scope.spawn(move || {
                let mut x = 88_172_645_463_325_252 + number;
                let mut mine: Vec<Frames<'_, Cpu, 8>> = Vec::new();
                for _ in 0..2_000 {
                    let r = step(&mut x);
                    if r & 1 == 0 && mine.len() < 20 {
                        if let Ok(frames) = pool.take((r >> 8) as u8 % 6) {
                            owners.turn(&frames, 1);
                            mine.push(frames);
                        }
                    } else if let Some(frames) = mine.pop() {
                        if r & 6 == 6 && frames.order() > 0 {
                            let (lower, upper) = frames.split().map_err(|(refused, _)| refused).expect("halves");
                            mine.extend([lower, upper]);
                        } else {
                            owners.turn(&frames, 0);
                        }
                    }
                }
                mine.iter().for_each(|frames| owners.turn(frames, 0));
            });
        }
    });
    assert_eq!(pool.with(|core| core.free_frames()), FRAMES);
    let block = pool.take_at(512 * 7, 9).expect("a huge frame").into_block();
    assert_eq!((block.frame(), pool.take_at(512 * 7, 0).err()), (512 * 7, Some(Refused::NoBlock)));
    let [mut core, ..] = pool.into_cores();
    assert_eq!(core.free_huge(), FRAMES / 512 - 1);
    core.give(block).expect("given by hand");
}

fn refuses<F: Form>() {
    let [mut a, mut b]: [Core<F>; 2] = Core::open(512, &[]).expect("a memory");
    let [mut other]: [Core<F>; 1] = Core::open(512, &[]).expect("another memory");
    let huge = a.take(9).expect("all of it");
    assert_eq!(b.take(0).unwrap_err(), Refused::NoBlock);
    assert_eq!(b.take_retry(0, 3).unwrap_err(), Refused::NoBlock);
    assert_eq!(b.take(10).unwrap_err(), Refused::BadOrder);
    let (refused, huge) = other.give(huge).expect_err("of another memory");
    assert_eq!((refused, huge.frame(), huge.order()), (Refused::OtherMemory, 0, 9));
    let (refused, huge) = other.split(huge).expect_err("of another memory");
    assert_eq!(refused, Refused::OtherMemory);
    assert_eq!((other.free_frames(), a.free_frames(), a.frames()), (512, 0, 512));
    let (lower, upper) = b.split(huge).expect("halves");
    assert_eq!((lower.frame(), upper.frame(), upper.order(), upper.bytes()), (0, 256, 8, 1 << 20));
    b.give(upper).expect("given");
    a.give(lower).expect("given");
    let (refused, frame) = { let frame = a.take(0).expect("a frame"); b.split(frame).expect_err("no halves") };
    assert_eq!(refused, Refused::BadOrder);
    b.give(frame).expect("given");
    assert_eq!(a.free_frames(), 512);
    assert_eq!(Core::<F>::open::<0>(512, &[]).err(), Some(Refused::BadGeometry));
    assert_eq!(Core::<F>::open::<1>(0, &[]).err(), Some(Refused::BadGeometry));
    assert_eq!(Core::<F>::open::<1>(512, &[Range { first: 512, frames: 1 }]).err(), Some(Refused::BadRange));
}

#[test]
fn what_is_refused() {
    refuses::<Checked>();
    refuses::<Unchecked>();
}

#[test]
fn runs_of_huge_frames() {
    let [mut a, mut b]: [Core; 2] = Core::open(20 * 512 + 7, &[Range { first: 512, frames: 1 }]).expect("a memory");
    let [mut other]: [Core; 1] = Core::open(512, &[]).expect("another memory");
    for (count, first) in [(1, 0), (2, 2), (3, 4), (4, 4), (5, 8), (8, 8), (9, 0), (16, 0), (512, 0)] {
        match a.take_run(count) {
            Ok(mut run) => {
                assert_eq!(run.len(), count as usize);
                assert!(!b.is_free(512 * first, 9) && !b.is_free(512 * first, 0));
                let block = run.next().expect("a huge frame");
                assert_eq!((block.frame(), block.order()), (512 * first, 9));
                let (refused, run) = other.give_run(run).expect_err("of another memory");
                assert_eq!(refused, Refused::OtherMemory);
                match b.give_run(run) {
                    Ok(()) => assert!(count > 1),
                    Err((refused, run)) => assert_eq!((refused, run.len(), count), (Refused::BadOrder, 0, 1)),
                }
                b.give(block).map_err(|(refused, _)| refused).expect("given");
                assert!(a.is_free(512 * first, 9));
            }
            Err(refused) => assert_eq!((refused, count > 8), (Refused::NoBlock, true)),
        }
    }
    assert!(matches!(a.take_run(0), Err(Refused::BadOrder)) && matches!(b.take_run(513), Err(Refused::BadOrder)));
    let huge = a.take_run(1).expect("a huge frame").next().expect("one");
    let parts = a.split_to(huge, 8).map_err(|(refused, _)| refused).expect("halves");
    let (refused, parts) = b.give_run(parts).expect_err("no huge frames");
    assert_eq!(refused, Refused::BadOrder);
    for part in parts {
        b.give(part).map_err(|(refused, _)| refused).expect("given");
    }
    assert!(a.is_free(20 * 512, 0) && !a.is_free(20 * 512 + 7, 0) && !a.is_free(20 * 512, 3) && !a.is_free(0, 10));
    assert_eq!((a.free_frames(), b.free_huge()), (20 * 512 + 6, 19));
}

#[test]
fn parts_of_a_block() {
    let [mut a, mut b]: [Core; 2] = Core::open(1024, &[]).expect("a memory");
    let [mut other]: [Core; 1] = Core::open(512, &[]).expect("another memory");
    let huge = a.take(9).expect("half of it");
    let first = huge.frame();
    let (refused, huge) = other.split_to(huge, 3).expect_err("of another memory");
    assert_eq!(refused, Refused::OtherMemory);
    let (refused, huge) = b.split_to(huge, 10).expect_err("no such parts");
    assert_eq!((refused, huge.order()), (Refused::BadOrder, 9));
    assert_eq!((a.order_at(first), a.order_at(first + 8), b.order_at(1 << 31)), (Some(9), None, None));
    let parts = b.split_to(huge, 3).map_err(|(refused, _)| refused).expect("parts");
    assert_eq!((a.order_at(first), a.order_at(first + 8), b.order_at(first + 4)), (Some(3), Some(3), None));
    assert_eq!((parts.len(), a.free_frames()), (64, 512));
    for (i, part) in (0..).zip(parts) {
        assert_eq!((part.frame(), part.order()), (first + 8 * i, 3));
        let core = if i % 2 == 0 { &mut a } else { &mut b };
        let frames = core.split_to(part, 0).map_err(|(refused, _)| refused).expect("frames");
        frames.for_each(|frame| core.give(frame).expect("given"));
    }
    assert_eq!((a.free_frames(), b.free_huge()), (1024, 2));
}

/// Just the block that is asked for is taken, where none of its frames is out, by either core and again when it was given.
fn takes_at_places<F: Form>() {
    let kept = [Range { first: 3, frames: 2 }];
    let [mut a, mut b]: [Core<F>; 2] = Core::open(1_024 + 100, &kept).expect("a memory");
    let has = |frame: u32, order: u8| {
        let behind = frame + (1 << order);
        frame % (1 << order) == 0 && behind <= 1_124 && (frame > 4 || behind <= 3)
    };
    let held = b.take_at(520, 3).expect("eight frames");
    for order in 0..10 {
        for frame in 0..1_200 {
            let is_free = has(frame, order) && (frame >= 528 || frame + (1 << order) <= 520);
            let core = if frame >> order & 1 == 0 { &mut a } else { &mut b };
            match core.take_at(frame, order) {
                Ok(block) => {
                    assert!(is_free, "frame {frame}, order {order}");
                    assert_eq!((block.frame(), block.order()), (frame, order));
                    assert_eq!(a.take_at(frame, order / 2).unwrap_err(), Refused::NoBlock);
                    b.give(block).map_err(|(refused, _)| refused).expect("given");
                }
                Err(refused) => assert_eq!((refused, is_free), (Refused::NoBlock, false), "frame {frame}, order {order}"),
            }
        }
    }
    for order in [10, 255] {
        assert_eq!(a.take_at(0, order).unwrap_err(), Refused::BadOrder);
    }
    assert_eq!(a.take_at(u32::MAX, 0).unwrap_err(), Refused::NoBlock);
    a.give(held).map_err(|(refused, _)| refused).expect("given");
    assert_eq!((a.free_frames(), b.free_huge()), (1_122, 1));
}

#[test]
fn blocks_at_places() {
    takes_at_places::<Checked>();
    takes_at_places::<Unchecked>();
}

fn rest(core: &mut Core<Unchecked>, block: Block<Unchecked>) {
    core.give_frame(block).map_err(|(refused, _)| refused).expect("a frame rests");
}

/// What came to rest last is taken first; from one give on where 128 rest, 8 go back.
#[test]
fn frames_rest_with_a_core() {
    let [mut a, mut b]: [Core<Unchecked>; 2] = Core::open(4_096, &[]).expect("a memory");
    let blocks: Vec<_> = (0..129).map(|_| a.take_frame().expect("a frame")).collect();
    assert_eq!(a.free_frames() + a.resting(), 4_096 - 129);
    a.drain();
    let numbers: Vec<_> = blocks.iter().map(Block::frame).collect();
    assert_eq!((numbers.iter().collect::<std::collections::HashSet<_>>().len(), a.resting()), (129, 0));
    for (given, block) in (1..).zip(blocks) {
        assert_eq!((block.order(), block.frames()), (0, 1));
        rest(&mut a, block);
        let resting = if given == 129 { 121 } else { given };
        assert_eq!((a.resting(), b.resting(), b.free_frames()), (resting, 0, 4_096 - 129 + given - resting));
    }
    let mut again: Vec<_> = (0..121).map(|_| a.take_frame().expect("it rested")).collect();
    assert!(again.iter().map(Block::frame).eq(numbers[8..].iter().rev().copied()), "the last one comes first");
    assert_eq!((a.resting(), a.free_frames()), (0, 4_096 - 121));

    rest(&mut a, again.remove(0));
    let other = a.take(0).expect("the calls for blocks leave alone what rests");
    assert_eq!(a.resting(), 1);
    again.push(other);
    again.into_iter().for_each(|block| rest(&mut b, block));
    b.drain();
    assert_eq!((a.resting(), b.resting(), b.free_frames()), (1, 0, 4_095));
    a.drain();
    assert_eq!((a.resting(), a.free_frames(), a.free_huge()), (0, 4_096, 8));
}

/// The same of frames that the library has on its list, beside the calls for blocks.
#[test]
fn checked_frames_rest_with_a_core() {
    let [mut a, mut b]: [Core; 2] = Core::open(4_096, &[]).expect("a memory");
    let mut blocks: Vec<_> = (0..129).map(|_| a.take_frame().expect("a frame")).collect();
    a.drain();
    let numbers: Vec<_> = blocks.iter().map(Block::frame).collect();
    assert!(numbers.iter().all(|&frame| b.order_at(frame) == Some(0)));
    let last = blocks.pop().expect("129");
    blocks.into_iter().for_each(|block| a.give_frame(block).map_err(|(refused, _)| refused).expect("it rests"));
    assert_eq!((a.resting(), b.order_at(numbers[0]), b.order_at(numbers[128])), (128, None, Some(0)));
    a.give_frame(last).map_err(|(refused, _)| refused).expect("it rests");
    assert_eq!((a.resting(), b.free_frames()), (121, 4_096 - 121));
    let again: Vec<_> = (0..121).map(|_| a.take_frame().expect("it rested")).collect();
    assert!(again.iter().map(Block::frame).eq(numbers[8..].iter().rev().copied()), "the last one comes first");
    again.into_iter().for_each(|block| b.give(block).map_err(|(refused, _)| refused).expect("a frame is a block"));
    let single = b.take(0).expect("a block");
    a.give_frame(single).map_err(|(refused, _)| refused).expect("a block of order 0 rests");
    let (refused, eight) = { let block = a.take(3).expect("eight"); a.give_frame(block).expect_err("too large") };
    assert_eq!((refused, eight.order(), a.resting()), (Refused::BadOrder, 3, 1));
    a.give(eight).map_err(|(refused, _)| refused).expect("given");
    a.drain();
    assert_eq!((a.free_frames(), a.free_huge()), (4_096, 8));
}

#[test]
fn what_is_refused_of_frames_that_rest() {
    let [mut a, mut b]: [Core<Unchecked>; 2] = Core::open(512, &[]).expect("a memory");
    let [mut other]: [Core<Unchecked>; 1] = Core::open(512, &[]).expect("another memory");
    let (refused, eight) = { let block = a.take(3).expect("eight"); a.give_frame(block).expect_err("too large") };
    assert_eq!((refused, eight.order(), a.resting()), (Refused::BadOrder, 3, 0));
    let (refused, eight) = other.give_frame(eight).expect_err("of another memory");
    assert_eq!((refused, other.resting(), other.free_frames()), (Refused::OtherMemory, 0, 512));
    let mut blocks: Vec<_> = (0..504).map(|_| a.take_frame().expect("a frame")).collect();
    assert_eq!(a.take_frame().unwrap_err(), Refused::NoBlock);
    rest(&mut b, blocks.remove(0));
    assert_eq!(a.take_frame().unwrap_err(), Refused::NoBlock, "what rests is its core's alone");
    blocks.push(b.take_frame().expect("it rested"));
    a.give(eight).expect("given");
    blocks.into_iter().for_each(|block| b.give(block).expect("a frame is given as a block"));
    assert_eq!((a.free_frames(), b.resting()), (512, 0));
}

/// Several at once come as one after another do, and all are refused where one is.
#[test]
fn frames_come_and_go_at_once() {
    let [mut a, mut b]: [Core<Unchecked>; 2] = Core::open(512, &[]).expect("a memory");
    let [mut other]: [Core<Unchecked>; 1] = Core::open(512, &[]).expect("another memory");
    let mut blocks = Vec::new();
    assert_eq!(a.take_frames::<0>(|_| unreachable!()), Ok(0));
    assert_eq!(a.take_frames::<100>(|block| blocks.push(block)), Ok(100));
    assert_eq!(a.take_frames::<500>(|block| blocks.push(block)), Ok(412));
    assert_eq!(a.take_frames::<1>(|_| unreachable!()), Err(Refused::NoBlock));
    assert_eq!(blocks.iter().map(Block::frame).collect::<std::collections::HashSet<_>>().len(), 512);
    let twelve: [Block<Unchecked>; 12] = blocks.drain(..12).collect::<Vec<_>>().try_into().expect("twelve");
    let numbers: Vec<_> = twelve.iter().map(Block::frame).collect();
    let (refused, twelve) = other.give_frames(twelve).expect_err("of another memory");
    assert_eq!((refused, other.resting()), (Refused::OtherMemory, 0));
    b.give_frames(twelve).map_err(|(refused, _)| refused).expect("they rest");
    assert_eq!((a.resting(), b.resting(), b.free_frames()), (0, 12, 0));
    let mut again = Vec::new();
    assert_eq!(b.take_frames::<20>(|block| again.push(block)), Ok(12));
    assert!(again.iter().map(Block::frame).eq(numbers.iter().rev().copied()), "the last one comes first");
    blocks.into_iter().chain(again).for_each(|block| a.give(block).expect("a frame is given as a block"));
    let (pair, single) = (a.take(1).expect("a pair"), a.take(0).expect("a frame"));
    let (refused, back) = a.give_frames([single, pair]).expect_err("one is too large");
    assert_eq!((refused, back[0].order(), back[1].order(), a.resting()), (Refused::BadOrder, 0, 1, 0));
}

/// A core that is dropped gives back what rests with it, and so does one that leaves an image; a refused one keeps it.
#[test]
fn a_closing_gives_back_what_rests() {
    let [mut a, mut b]: [Core<Unchecked>; 2] = Core::open(512, &[]).expect("a memory");
    let blocks: Vec<_> = (0..100).map(|_| a.take_frame().expect("a frame")).collect();
    a.drain();
    for (at, block) in blocks.into_iter().enumerate() {
        rest(if at < 30 { &mut a } else { &mut b }, block);
    }
    let mut words = [0; 9];
    let (refused, mut a) = a.close_image(&mut words).expect_err("another core is open");
    assert_eq!((refused, a.resting(), a.free_frames()), (Refused::CoresOpen, 30, 412));
    drop(b);
    assert_eq!((a.resting(), a.free_frames()), (30, 482));
    a.close_image(&mut words).expect("an image");
    assert_eq!(words, [512, 0, 0, 0, 0, 0, 0, 0, 0]);
}

/// Four threads with a core each: every frame that one takes rests with the next one's core.
#[test]
fn frames_rest_where_they_were_not_taken() {
    const ROUNDS: u32 = 50_000;
    let cores: [Core<Unchecked>; 4] = Core::open(FRAMES, &[]).expect("a memory");
    let owners = Owners::new();
    let (mut ends, inboxes): (Vec<_>, Vec<_>) = (0..4).map(|_| mpsc::sync_channel::<Block<Unchecked>>(256)).unzip();
    ends.rotate_left(1);
    let work = |mut core: Core<Unchecked>, next: mpsc::SyncSender<_>, inbox: mpsc::Receiver<_>| {
        let (mut mine, mut sent, mut got) = (None, 0, 0);
        while sent < ROUNDS || got < ROUNDS {
            if mine.is_none() && sent < ROUNDS {
                mine = core.take_frame().ok();
                mine.iter().for_each(|block| owners.turn(block, 1));
            }
            match mine.take().map(|block| next.try_send(block)) {
                Some(Ok(())) => sent += 1,
                Some(Err(mpsc::TrySendError::Full(block))) => {
                    mine = Some(block);
                    thread::yield_now();
                }
                Some(Err(mpsc::TrySendError::Disconnected(_))) => panic!("the next thread has ended"),
                None => thread::yield_now(),
            }
            if sent % 8_192 == 0 {
                core.drain();
                assert_eq!(core.resting(), 0);
            }
            let waits = sent == ROUNDS && got < ROUNDS;
            let one = waits.then(|| inbox.recv().expect("the thread before has not ended"));
            for block in one.into_iter().chain(inbox.try_iter()) {
                owners.turn(&block, 0);
                rest(&mut core, block);
                got += 1;
                assert!((1..=128).contains(&core.resting()));
            }
        }
        core
    };
    let mut back: Vec<Core<Unchecked>> = thread::scope(|scope| {
        let spawn = |((core, next), inbox)| scope.spawn(|| work(core, next, inbox));
        let threads: Vec<_> = cores.into_iter().zip(ends).zip(inboxes).map(spawn).collect();
        threads.into_iter().map(|thread| thread.join().expect("a thread")).collect()
    });
    let resting: u32 = back.iter_mut().map(Core::resting).sum();
    assert!(resting > 0, "the last call was a give");
    assert_eq!(back[0].free_frames(), FRAMES - resting);
    back.iter_mut().for_each(Core::drain);
    assert_eq!((back[0].free_frames(), back[3].free_huge()), (FRAMES, FRAMES / 512));
}

/// Zones of one child each, the second at 16 GiB.
const ZONES: [Range; 2] = [Range { first: 0, frames: 512 }, Range { first: 4_194_304, frames: 512 }];

fn takes_of_zones<F: Form>() {
    let [mut core]: [Core<F>; 1] = Core::open_zones(&ZONES, &[]).expect("zones");
    let (one, two) = (core.take(9).expect("one"), core.take(9).expect("two"));
    assert_eq!([one.frame(), two.frame()], [0, 4_194_304]);
    assert_eq!(core.take(0).unwrap_err(), Refused::NoBlock);
    core.give(two).expect("given");
    assert_eq!((core.free_frames_of(0), core.free_frames_of(1), core.free_frames_of(2)), (0, 512, 0));
    assert_eq!((core.free_huge_of(0), core.free_huge_of(1), core.free_huge_of(2)), (0, 1, 0));
    core.give(one).expect("given");
    assert_eq!(core.free_huge(), 2);
    assert_eq!((core.zones(), core.home(), core.set_home(2)), (2, 0, Err(Refused::BadRange)));
    for (zone, order) in [(1, 0), (0, 0), (1, 9), (0, 9)] {
        core.set_home(zone).expect("a home");
        let block = core.take(order).expect("a block at home");
        assert_eq!((core.home(), block.frame() / 4_194_304), (zone, zone));
        core.give(block).expect("given");
    }
}

#[test]
fn zones_have_holes() {
    takes_of_zones::<Checked>();
    takes_of_zones::<Unchecked>();
}

/// A block is kept over a closing and an opening of the same zones.
#[test]
fn a_claimed_block_outlives_its_memory() {
    let mut words = [0; 18];
    assert_eq!(ZONES.iter().map(|zone| image_words(zone.frames)).sum::<usize>(), words.len());
    let [mut core, second]: [Core; 2] = Core::open_zones(&ZONES, &[]).expect("zones");
    let kept = core.take(4).expect("sixteen frames").keep();
    let (refused, core) = core.close_image(&mut words).expect_err("another core is open");
    assert_eq!(refused, Refused::CoresOpen);
    drop(second);
    let (refused, core) = core.close_image(&mut words[..17]).expect_err("the buffer is short");
    assert_eq!(refused, Refused::NoRoom);
    core.close_image(&mut words).expect("an image");
    assert_eq!(words.map(u64::count_ones)[1..9].iter().sum::<u32>(), 16, "sixteen bits are set");

    let wrong = Claim { frame: kept.frame + 16, order: 4 };
    let refused = Core::reopen_zones::<1>(&ZONES, &words, &[wrong], |_| unreachable!()).unwrap_err();
    assert_eq!(refused, Refused::NotHeld);
    let mut claimed = Vec::new();
    let [mut core] = Core::reopen_zones::<1>(&ZONES, &words, &[kept], |block| claimed.push(block)).expect("reopened");
    assert_eq!((core.free_frames(), claimed.len()), (1_024 - 16, 1));
    core.give(claimed.remove(0)).expect("the claimed block is out");
    assert_eq!(core.free_frames(), 1_024);

    let refused = Core::reopen::<1>(512, &words[..8], &[], |_| unreachable!()).unwrap_err();
    assert_eq!(refused, Refused::BadImage);
}

#[test]
fn a_status_is_told_in_a_sentence() {
    assert_eq!(Refused::NotHeld.to_string(), "no such block is held");
    assert!(Refused::Contended.may_pass() && !Refused::NoMemory.may_pass());
}
