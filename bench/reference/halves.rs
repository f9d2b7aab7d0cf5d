//! Jobs on threads, started as the threads of `llfree_bench` are, so that the scheduler meets the same:
//! the front half of the jobs on a thread of its own, the back half here, each in halves again.
use std::thread;

pub fn in_halves<J: Send, X: Send>(mut front: Vec<J>, run: &(impl Fn(J) -> X + Sync)) -> Vec<X> {
    if front.len() < 2 {
        return front.into_iter().map(run).collect();
    }
    let back = front.split_off(front.len() / 2);
    thread::scope(|scope| {
        let front = scope.spawn(|| in_halves(front, run));
        let back = in_halves(back, run);
        let mut all = front.join().unwrap();
        all.extend(back);
        all
    })
}
