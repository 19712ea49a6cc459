//! What is timed: ours, the untouched Rust, the Rust less its SVD, and the same with ours' duties (`fair.rs`); our factors and nalgebra's.
use crate::calls::{self, Particle, BARE, FLOATS};
use crate::externs::{
    pasoletu_factor_list, pasoletu_neo_hookean_stress_and_verdict, pasoletu_pass, pasoletu_pass_factored, pasoletu_read_sheet,
    pasoletu_record_neo_hookean_fpk_stress, pasoletu_run_sheet,
};
use crate::library::Library;
use crate::records::completed;
use std::hint::black_box;

/// One side of a row: `ready` puts the lists as they came, `run` is the timed part.
pub trait Side {
    fn ready(&mut self) {}
    fn run(&mut self);
    /// The records after the run.
    fn records(&self) -> Vec<u64> {
        Vec::new()
    }
}

type Pass = unsafe extern "C" fn(u64, *const u64, usize, *mut u64, usize, *mut u64, usize, *mut u64, usize) -> u8;

fn passed(pass: Pass, model: usize, p: &[u64], r: &mut [u64], a: &mut [u64], c: &mut [u64; 3]) {
    let (ps, rs, answers) = (p.len(), r.len(), a.len());
    let (r, a, c) = (r.as_mut_ptr(), a.as_mut_ptr(), c.as_mut_ptr());
    let refusal = unsafe { pass(model as u64, p.as_ptr(), ps, r, rs, a, answers, c, 3) };
    assert_eq!(refusal, 0);
}

pub fn our_pass(model: usize, p: &[u64], r: &mut [u64], a: &mut [u64], c: &mut [u64; 3]) {
    passed(pasoletu_pass, model, p, r, a, c);
}

pub struct OurPass {
    pass: Pass,
    model: usize,
    p: Vec<u64>,
    came: Vec<u64>,
    records: Vec<u64>,
    answers: Vec<u64>,
}

impl OurPass {
    pub fn new(model: usize, p: &[u64], records: &[u64]) -> Self {
        Self::by(pasoletu_pass, model, p, records)
    }

    /// The pass that factors first; what stands for the factors is 0.
    pub fn factored(model: usize, p: &[u64], records: &[u64]) -> Self {
        Self::by(pasoletu_pass_factored, model, p, &bare(records))
    }

    fn by(pass: Pass, model: usize, p: &[u64], records: &[u64]) -> Self {
        let answers = vec![0; records.len() / FLOATS * 2];
        OurPass { pass, model, p: p.to_vec(), came: records.to_vec(), records: records.to_vec(), answers }
    }
}

impl Side for OurPass {
    fn ready(&mut self) {
        self.records.copy_from_slice(&self.came);
    }
    fn run(&mut self) {
        let mut counts = [0; 3];
        passed(self.pass, self.model, &self.p, &mut self.records, &mut self.answers, &mut counts);
        black_box(&counts);
    }
    fn records(&self) -> Vec<u64> {
        self.records.clone()
    }
}

/// The records with 0 for their factors.
fn bare(records: &[u64]) -> Vec<u64> {
    records.iter().enumerate().map(|(k, x)| if (9..30).contains(&(k % FLOATS)) { 0 } else { *x }).collect()
}

/// Our factors of each record, worked and checked.
pub struct OurFactors {
    came: Vec<u64>,
    records: Vec<u64>,
    answers: Vec<u64>,
}

impl OurFactors {
    pub fn new(records: &[u64]) -> Self {
        OurFactors { came: bare(records), records: bare(records), answers: vec![0; records.len() / FLOATS * 2] }
    }
}

impl Side for OurFactors {
    fn ready(&mut self) {
        self.records.copy_from_slice(&self.came);
    }
    fn run(&mut self) {
        let mut counts = [0; 3];
        let (r, a) = (&mut self.records, &mut self.answers);
        let (rs, answers) = (r.len(), a.len());
        let refusal = unsafe { pasoletu_factor_list(r.as_mut_ptr(), rs, a.as_mut_ptr(), answers, counts.as_mut_ptr(), 3) };
        assert_eq!((refusal, black_box(counts)[2]), (0, 0));
    }
    fn records(&self) -> Vec<u64> {
        self.records.clone()
    }
}

type Svd = extern "C" fn(*const f64, *mut f64);

/// nalgebra's factors of each record, a call each, where build 1 is there. U, sigma and V^T stand as in a record; nothing is checked.
pub struct TheirFactors {
    svd: Svd,
    records: Vec<f64>,
}

impl TheirFactors {
    pub fn new(file: &str, records: &[u64]) -> Option<Self> {
        let svd = unsafe { std::mem::transmute::<usize, Svd>(Library::open(file)?.find("untouched_factors")?) };
        Some(TheirFactors { svd, records: bare(records).into_iter().map(f64::from_bits).collect() })
    }
}

impl Side for TheirFactors {
    fn run(&mut self) {
        for r in self.records.chunks_exact_mut(FLOATS) {
            let (f, factors) = r.split_at_mut(9);
            (self.svd)(f.as_ptr(), factors.as_mut_ptr());
        }
    }
    fn records(&self) -> Vec<u64> {
        self.records.iter().map(|x| x.to_bits()).collect()
    }
}

/// cfl_coeff, lambda and mu of a neo-Hookean law, and limits on its stress.
const LAW: [f64; 3] = [0.9, 27778.0, 41667.0];
const LIMITS: [f64; 2] = [1000.0, 1000.0];

/// The nine words of a record's stress, with the verdict by its principal values or without.
fn stress(record: &[u64], judged: bool, out: &mut [u64; 9]) -> u8 {
    let (law, limits) = (LAW.map(f64::to_bits), LIMITS.map(f64::to_bits));
    let (r, o) = (record.as_ptr(), out.as_mut_ptr());
    let mut verdict = 0;
    unsafe {
        if judged {
            pasoletu_neo_hookean_stress_and_verdict(law.as_ptr(), 3, limits.as_ptr(), 2, r, FLOATS, o, 9, &mut verdict, 1)
        } else {
            pasoletu_record_neo_hookean_fpk_stress(law.as_ptr(), 3, r, FLOATS, o, 9)
        }
    }
}

/// Each record's stress, with the verdict or without.
pub struct OurStress {
    pub records: Vec<u64>,
    pub judged: bool,
}

impl Side for OurStress {
    fn run(&mut self) {
        for r in self.records.chunks_exact(FLOATS) {
            let mut out = [0; 9];
            assert_eq!(stress(r, self.judged, &mut out), 0);
            black_box(out);
        }
    }
}

type Failed = extern "C" fn(*const f64, f64, f64) -> bool;

/// The Rust's verdict on the stresses that ours worked, by nalgebra's principal values, where build 1 is there.
pub struct TheirVerdict {
    failed: Failed,
    stresses: Vec<[f64; 9]>,
}

impl TheirVerdict {
    pub fn new(file: &str, records: &[u64]) -> Option<Self> {
        let failed = unsafe { std::mem::transmute::<usize, Failed>(Library::open(file)?.find("untouched_failed")?) };
        let worked = |r: &[u64]| {
            let mut out = [0; 9];
            assert_eq!(stress(r, true, &mut out), 0);
            out.map(f64::from_bits)
        };
        Some(TheirVerdict { failed, stresses: records.chunks_exact(FLOATS).map(worked).collect() })
    }
}

impl Side for TheirVerdict {
    fn run(&mut self) {
        for s in &self.stresses {
            black_box((self.failed)(s.as_ptr(), LIMITS[0], LIMITS[1]));
        }
    }
}

type Updates = Box<dyn Fn(usize, &[u64], &mut [Particle])>;

/// The Rust's updates over particles; `columns` where its matrix stands by columns.
pub struct RustPass {
    model: usize,
    p: Vec<u64>,
    came: Vec<Particle>,
    list: Vec<Particle>,
    columns: bool,
    updates: Updates,
}

/// A particle is the words of a record before the determinant, which the Rust does not keep; F turned where its matrix stands by columns.
fn turned(record: &[u64], columns: bool) -> [u64; BARE] {
    std::array::from_fn(|k| record[if columns && k < 9 { k % 3 * 3 + k / 3 } else { k }])
}

impl RustPass {
    pub fn new(model: usize, p: &[u64], records: &[u64], columns: bool, updates: Updates) -> Self {
        let particle = |r: &[u64]| unsafe { std::mem::transmute::<[u64; BARE], Particle>(turned(r, columns)) };
        let came: Vec<Particle> = records.chunks(FLOATS).map(particle).collect();
        RustPass { model, p: p.to_vec(), list: came.clone(), came, columns, updates }
    }
}

impl Side for RustPass {
    fn ready(&mut self) {
        self.list.copy_from_slice(&self.came);
    }
    fn run(&mut self) {
        (self.updates)(self.model, &self.p, &mut self.list);
    }
    fn records(&self) -> Vec<u64> {
        let words = self.list.iter().map(|x| unsafe { std::mem::transmute::<Particle, [u64; BARE]>(*x) });
        words.flat_map(|w| completed(&turned(&w, self.columns))).collect()
    }
}

/// The untouched Rust's updates, where build 1 is there.
pub fn untouched(file: &str) -> Option<impl Fn(usize, &[u64], &mut [Particle]) + Copy> {
    type Pass = extern "C" fn(usize, *const u64, *mut Particle, usize);
    let pass: Pass = unsafe { std::mem::transmute::<usize, Pass>(Library::open(file)?.find("untouched_pass")?) };
    Some(move |model, p: &[u64], list: &mut [Particle]| pass(model, p.as_ptr(), list.as_mut_ptr(), list.len()))
}

/// The factors that `svd_unordered` hands back: those that the particle in hand brings.
static mut FACTORS: *const [f64; 21] = std::ptr::null();

#[no_mangle]
fn beside_factors() -> &'static [f64; 21] {
    unsafe { &*FACTORS }
}

/// The same files, each particle's factors given.
pub fn less_svd(model: usize, p: &[u64], list: &mut [Particle]) {
    calls::pass(model, p, calls::After(list, given));
}

/// The factors of this particle are those handed back next.
pub fn given(x: &Particle) {
    unsafe { FACTORS = &x.factors };
}

// Not asked for in build 3: std's functions win over the trait's (build 4's stand in root.rs). No pass asks for principal stresses.
#[cfg(not(feature = "our_root"))]
#[no_mangle]
fn beside_elementary(_: nalgebra::hooks::Function, _: f64, _: &'static std::panic::Location<'static>) -> f64 {
    unreachable!()
}
#[no_mangle]
fn beside_principal() -> [f64; 3] {
    unreachable!()
}

/// Our function over arguments, each a C call.
pub struct OurCalls(pub unsafe extern "C" fn(f64, *mut u64, usize) -> u8, pub Vec<f64>);

impl Side for OurCalls {
    fn run(&mut self) {
        let f = black_box(self.0);
        let mut out = 0;
        for x in &self.1 {
            assert_eq!(unsafe { f(*x, &mut out, 1) }, 0);
            black_box(out);
        }
    }
}

/// Std's function over the same, through a pointer too.
pub struct StdCalls(pub fn(f64) -> f64, pub Vec<f64>);

impl Side for StdCalls {
    fn run(&mut self) {
        let f = black_box(self.0);
        for x in &self.1 {
            black_box(f(*x));
        }
    }
}

/// A sheet of 200 records read, or read and run.
pub struct Sheet {
    bytes: Vec<u8>,
    run: bool,
    records: Vec<u64>,
    answers: Vec<u64>,
}

impl Sheet {
    pub fn new(bytes: Vec<u8>, run: bool) -> Self {
        Sheet { bytes, run, records: vec![0; 200 * FLOATS], answers: vec![0; 200 * 2] }
    }
}

impl Side for Sheet {
    fn run(&mut self) {
        let (b, n, r, rs) = (self.bytes.as_ptr(), self.bytes.len(), self.records.as_mut_ptr(), self.records.len());
        let mut told = [0; 11];
        let refusal = unsafe {
            if self.run {
                pasoletu_run_sheet(b, n, r, rs, self.answers.as_mut_ptr(), self.answers.len(), told.as_mut_ptr(), 4)
            } else {
                pasoletu_read_sheet(b, n, told.as_mut_ptr(), 11, r, rs)
            }
        };
        assert_eq!((refusal, black_box(told)[if self.run { 0 } else { 9 }]), (0, 200));
    }
    fn records(&self) -> Vec<u64> {
        self.records.clone()
    }
}
