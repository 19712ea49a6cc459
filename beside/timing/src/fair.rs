//! The fair rival: the Rust less its SVD over records as ours has them, with what RULES ask of ours around each update: 1 over the
//! parameters and all 37 floats, 11, the record put back where a result isn't finite (3), the determinant of the new F stored, the two
//! answers and the counts written. What it can't do is left out, in its favour: the ranges and NaNs inside an update, whether a record
//! was untouched, and the new sigma.
use crate::calls::{self, Each, Particle, FLOATS};
use crate::sides::{given, Side};
use std::hint::black_box;

/// Which word of a record a law's amount is; Drucker-Prager's dq the Rust doesn't hand out.
const AMOUNT: [usize; 4] = [33, 32, 32, 35];

struct Fair<'a> {
    amount: usize,
    records: &'a mut [u64],
    answers: &'a mut [u64],
    counts: &'a mut [u64; 3],
}

fn finite(words: &[u64]) -> bool {
    words.iter().fold(true, |ok, x| ok & f64::from_bits(*x).is_finite())
}

fn determinant(r: &[u64]) -> f64 {
    let [a, b, c, d, e, f, g, h, i]: [f64; 9] = std::array::from_fn(|k| f64::from_bits(r[k]));
    a * (e * i - f * h) - b * (d * i - f * g) + c * (d * h - e * g)
}

impl Fair<'_> {
    fn one(r: &mut [u64; FLOATS], update: &impl Fn(&mut Particle)) -> Result<(), u64> {
        if !finite(r) {
            return Err(1);
        }
        if determinant(r).to_bits() != r[36] {
            return Err(11);
        }
        let came = *r;
        let x = unsafe { &mut *r.as_mut_ptr().cast::<Particle>() };
        given(x);
        update(x);
        let new = determinant(r);
        if finite(&r[..9]) & finite(&r[30..36]) & new.is_finite() {
            r[36] = new.to_bits();
            return Ok(());
        }
        *r = came;
        Err(3)
    }
}

impl Each for Fair<'_> {
    fn each(self, update: impl Fn(&mut Particle)) {
        for (r, a) in self.records.chunks_exact_mut(FLOATS).zip(self.answers.chunks_exact_mut(2)) {
            let r: &mut [u64; FLOATS] = r.try_into().unwrap();
            let (code, value) = match Self::one(r, &update) {
                Ok(()) => (1, r[self.amount]),
                Err(n) => (2, n),
            };
            self.counts[code as usize] += 1;
            a.copy_from_slice(&[code, value]);
        }
    }
}

pub struct FairPass {
    model: usize,
    p: Vec<u64>,
    came: Vec<u64>,
    records: Vec<u64>,
    answers: Vec<u64>,
}

impl FairPass {
    pub fn new(model: usize, p: &[u64], records: &[u64]) -> Self {
        let answers = vec![0; records.len() / FLOATS * 2];
        FairPass { model, p: p.to_vec(), came: records.to_vec(), records: records.to_vec(), answers }
    }
}

impl Side for FairPass {
    fn ready(&mut self) {
        self.records.copy_from_slice(&self.came);
    }
    fn run(&mut self) {
        let (amount, mut counts) = (AMOUNT[self.model], [0; 3]);
        assert!(finite(&self.p));
        let list = Fair { amount, records: &mut self.records, answers: &mut self.answers, counts: &mut counts };
        calls::pass(self.model, &self.p, list);
        assert_eq!(black_box(counts)[2], 0);
    }
    fn records(&self) -> Vec<u64> {
        self.records.clone()
    }
}
