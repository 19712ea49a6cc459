//! Build 1: the untouched Rust with the real nalgebra, through its three C calls.
use crate::calls::CALLS;
use crate::inside::Met;
use crate::library::Library;

pub struct Untouched {
    call: extern "C" fn(usize, *const u64, *mut u64),
    factors: extern "C" fn(*const f64, *mut f64),
    op: extern "C" fn(u32, *const f64, usize, *mut f64, usize) -> u32,
}

impl Untouched {
    pub fn open(path: &str) -> Option<Untouched> {
        let lib = Library::open(path)?;
        unsafe {
            Some(Untouched {
                call: std::mem::transmute::<usize, extern "C" fn(usize, *const u64, *mut u64)>(lib.find("untouched_call")?),
                factors: std::mem::transmute::<usize, extern "C" fn(*const f64, *mut f64)>(lib.find("untouched_factors")?),
                op: std::mem::transmute::<usize, extern "C" fn(u32, *const f64, usize, *mut f64, usize) -> u32>(
                    lib.find("untouched_op")?,
                ),
            })
        }
    }

    /// U, sigma and V^T of F, each by rows.
    pub fn factors_of(&self, m: [f64; 9]) -> [f64; 21] {
        let mut o = [0.0; 21];
        (self.factors)(m.as_ptr(), o.as_mut_ptr());
        o
    }

    /// A call of the text.
    pub fn run(&self, n: usize, i: &[u64]) -> Vec<u64> {
        let mut o = vec![0; CALLS[n].outputs];
        (self.call)(n, i.as_ptr(), o.as_mut_ptr());
        o
    }

    /// One of nalgebra's operations on numbers met; nothing where it has no answer.
    pub fn operation(&self, m: &Met) -> Option<Vec<f64>> {
        let mut o = vec![0.0; m.output.len()];
        let there = (self.op)(m.op as u32, m.input.as_ptr(), m.input.len(), o.as_mut_ptr(), o.len());
        (there != 0).then_some(o)
    }
}
