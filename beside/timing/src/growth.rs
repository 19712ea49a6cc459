//! How a pass grows with its list: records a second over one thread and over all, by the clock, beside a plain copy of the list.
use crate::calls::FLOATS;
use crate::records::{bits, LAWS};
use crate::sides::our_pass;
use std::hint::black_box;
use std::thread;
use std::time::Instant;

/// Lists of so many records; the longest has 3 GB.
pub const LENGTHS: [usize; 3] = [1_000, 100_000, 10_000_000];

fn seconds(run: impl FnOnce()) -> f64 {
    let t = Instant::now();
    run();
    t.elapsed().as_secs_f64()
}

/// A law's drawn records, over and over, up to a list's length.
fn repeated(drawn: &[u64], count: usize, list: &mut Vec<u64>) {
    list.clear();
    while list.len() < count * FLOATS {
        let left = count * FLOATS - list.len();
        list.extend_from_slice(&drawn[..drawn.len().min(left)]);
    }
}

/// The list's passes, a part for each thread; the parts hold whole records.
fn passed(model: usize, p: &[u64], threads: usize, records: &mut [u64], answers: &mut [u64]) {
    let part = (records.len() / FLOATS).div_ceil(threads);
    thread::scope(|s| {
        for (r, a) in records.chunks_mut(part * FLOATS).zip(answers.chunks_mut(part * 2)) {
            s.spawn(move || our_pass(model, p, r, a, &mut black_box([0; 3])));
        }
    });
}

pub struct Grown {
    pub law: &'static str,
    pub count: usize,
    pub threads: usize,
    /// Records a second.
    pub ours: f64,
    /// The same of a plain copy of the list by as many threads.
    pub copied: f64,
}

/// The best of a few turns, each over the list as it came.
fn grown(model: usize, count: usize, threads: usize, drawn: &[u64], came: &mut Vec<u64>, list: &mut Vec<u64>) -> Grown {
    let p = bits(LAWS[model].parameters);
    repeated(drawn, count, came);
    list.resize(came.len(), 0);
    let mut answers = vec![0; count * 2];
    let (mut ours, mut copied) = (f64::INFINITY, f64::INFINITY);
    for _ in 0..(2_000_000 / count).clamp(2, 200) {
        let part = count.div_ceil(threads) * FLOATS;
        copied = copied.min(seconds(|| {
            thread::scope(|s| {
                for (to, from) in list.chunks_mut(part).zip(came.chunks(part)) {
                    s.spawn(move || to.copy_from_slice(from));
                }
            })
        }));
        ours = ours.min(seconds(|| passed(model, &p, threads, list, &mut answers)));
    }
    Grown { law: LAWS[model].name, count, threads, ours: count as f64 / ours, copied: count as f64 / copied }
}

/// Every law, every length, one thread and as many as the machine has.
pub fn all(drawn: impl Fn(usize) -> Vec<u64>) -> Vec<Grown> {
    let cores = thread::available_parallelism().map_or(1, |n| n.get());
    let (mut came, mut list, mut rows) = (Vec::new(), Vec::new(), Vec::new());
    for model in 0..LAWS.len() {
        let drawn = drawn(model);
        for count in LENGTHS {
            for threads in [1, cores] {
                rows.push(grown(model, count, threads, &drawn, &mut came, &mut list));
            }
        }
    }
    rows
}
