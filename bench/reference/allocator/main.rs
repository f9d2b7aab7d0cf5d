//! Takes and gives of a whole memory: the search of `core_frames` over Rust's std atomics, and
//! beside it a bitmap and a buddy allocator, each under a mutex. Its words are the pairs of a
//! thread and the rounds, of which the fastest counts; the word `check` tries all three instead.
mod bitmap;
mod buddy;
mod check;
#[path = "../halves.rs"]
mod halves;
mod lock_free;
mod memory;
mod table;
mod words;
mod work;

use bitmap::Bitmap;
use buddy::Buddy;
use lock_free::LockFree;
use memory::Memory;
use work::Figure;

const ORDERS: [u8; 3] = [0, 3, 9];

const THREADS: [usize; 3] = [1, 2, 4];

/// A line: the work, threads, order, allocator, tenths of a nanosecond for one take and one give of
/// one thread, and how many takes of all threads were refused in that round.
fn print<M: Memory>(work: &str, threads: usize, order: &str, count: u64, best: Figure) {
    let tenths = 10 * best.0.as_nanos() / u128::from(count);
    println!("{work},{threads},{order},{},{tenths},{}", M::NAME, best.1);
}

fn measure_pairs<M: Memory>(threads: usize, order: u8, count: u64, rounds: u32) {
    let best = (0..rounds).map(|_| work::pairs::<M>(threads, order, count)).min();
    print::<M>("pairs", threads, &order.to_string(), count, best.unwrap());
}

fn measure_filling<M: Memory>(threads: usize, order: u8, count: u64, rounds: u32) {
    let share = work::share(threads, order) as u64;
    let times = count.div_ceil(share);
    let best = (0..rounds).map(|_| work::fill::<M>(threads, order, times)).min();
    print::<M>("fill", threads, &order.to_string(), times * share, best.unwrap());
}

fn measure_random<M: Memory>(threads: usize, count: u64, rounds: u32) {
    let best = (0..rounds).map(|_| work::random::<M>(threads, count)).min();
    print::<M>("random", threads, "mixed", count, best.unwrap());
}

fn measure_all(count: u64, rounds: u32) {
    for threads in THREADS {
        for order in ORDERS {
            measure_pairs::<LockFree>(threads, order, count, rounds);
            measure_pairs::<Bitmap>(threads, order, count, rounds);
            measure_pairs::<Buddy>(threads, order, count, rounds);
        }
    }
    for threads in THREADS {
        for order in ORDERS {
            measure_filling::<LockFree>(threads, order, count, rounds);
            measure_filling::<Bitmap>(threads, order, count, rounds);
            measure_filling::<Buddy>(threads, order, count, rounds);
        }
    }
    for threads in THREADS {
        measure_random::<LockFree>(threads, count, rounds);
        // Its search is long, so fewer turns do.
        measure_random::<Bitmap>(threads, count.div_ceil(8), rounds);
        measure_random::<Buddy>(threads, count, rounds);
    }
}

fn main() {
    let words: Vec<String> = std::env::args().skip(1).collect();
    let words: Vec<&str> = words.iter().map(String::as_str).collect();
    match words.as_slice() {
        ["check"] => check::check(),
        [count, rounds] => measure_all(count.parse().unwrap(), rounds.parse().unwrap()),
        _ => {}
    }
}
