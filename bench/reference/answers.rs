//! The same text work as `llfree run CHILDREN 1`, written plainly with Rust's std: a trace on
//! standard input, its answers on standard output. It is compared in speed and in output.
use std::collections::{HashMap, VecDeque};
use std::fmt::Write as _;
use std::io::{Read, Write as _};

struct Frames {
    words: Vec<u64>,
}

impl Frames {
    fn mask(order: u32, bit: u32) -> u64 {
        if order == 6 { !0 } else { ((1u64 << (1 << order)) - 1) << bit }
    }

    fn take(&mut self, order: u32) -> Option<u32> {
        let size = 1usize << order;
        if order > 6 {
            let group = size / 64;
            let at = (0..self.words.len()).step_by(group).find(|&w| {
                self.words[w..w + group].iter().all(|&word| word == 0)
            })?;
            self.words[at..at + group].fill(!0);
            return Some(64 * at as u32);
        }
        for (w, word) in self.words.iter_mut().enumerate() {
            if *word == !0 {
                continue;
            }
            for bit in (0..64).step_by(size) {
                let mask = Frames::mask(order, bit);
                if *word & mask == 0 {
                    *word |= mask;
                    return Some(64 * w as u32 + bit);
                }
            }
        }
        None
    }

    fn give(&mut self, frame: u32, order: u32) {
        let w = frame as usize / 64;
        if order > 6 {
            self.words[w..w + (1 << order) / 64].fill(0);
        } else {
            self.words[w] &= !Frames::mask(order, frame % 64);
        }
    }
}

fn is_label(label: &str) -> bool {
    (1..=16).contains(&label.len())
        && label.bytes().all(|b| b.is_ascii_alphanumeric() || b == b'_' || b == b'-')
}

fn main() {
    let children: usize = std::env::args().nth(1).unwrap().parse().unwrap();
    let mut trace = String::new();
    std::io::stdin().read_to_string(&mut trace).unwrap();
    let mut frames = Frames { words: vec![0; 8 * children] };
    let mut desk: HashMap<&str, VecDeque<(u32, u32)>> = HashMap::new();
    let mut answers = String::new();
    let mut held = 0;
    for (index, record) in trace.lines().enumerate() {
        let fields: Vec<&str> = record.split(',').collect();
        let line = index + 1;
        let [core, call, label, order] = fields[..] else { panic!("bad record {line}") };
        let core: u32 = core.parse().unwrap();
        assert!(core == 0 && is_label(label));
        match call {
            "take" => {
                let order: u32 = order.parse().unwrap();
                match frames.take(order) {
                    Some(frame) => {
                        desk.entry(label).or_default().push_back((frame, order));
                        held += 1 << order;
                        writeln!(answers, "{line},{core},Taken,{frame},{order}").unwrap();
                    }
                    None => writeln!(answers, "{line},{core},NoBlock,,").unwrap(),
                }
            }
            "give" => match desk.get_mut(label).and_then(|blocks| blocks.pop_front()) {
                Some((frame, order)) => {
                    frames.give(frame, order);
                    held -= 1 << order;
                    writeln!(answers, "{line},{core},Given,{frame},{order}").unwrap();
                }
                None => writeln!(answers, "{line},{core},NotHeld,,").unwrap(),
            },
            _ => panic!("bad record {line}"),
        }
    }
    writeln!(answers, "end,,Closed,{held},{}", 512 * children - held).unwrap();
    std::io::stdout().write_all(answers.as_bytes()).unwrap();
}
