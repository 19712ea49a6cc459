//! Our C calls, found by name in the shared object.
use crate::build2::Outcome;
use crate::law::Record;
use crate::library::Library;
use nalgebra::hooks::Function;
use std::sync::OnceLock;

type Elementary = extern "C" fn(f64, *mut f64, usize) -> u8;
type Update = extern "C" fn(u64, *const f64, usize, *mut f64, usize, *mut u64, usize) -> u8;
type Friction = extern "C" fn(u64, f64, *mut f64, usize) -> u8;
type Pass = extern "C" fn(u64, *const f64, usize, *mut f64, usize, *mut u64, usize, *mut u64, usize) -> u8;

struct Ours {
    elementary: [Elementary; 5],
    friction: Friction,
    update: Update,
    pass: Pass,
}

static OURS: OnceLock<Ours> = OnceLock::new();

/// Opens the library; says what it lacks and ends where a call is not there.
pub fn open(path: &str) {
    let lib = Library::open(path).unwrap_or_else(|| stop(path, "cannot be opened"));
    let find = |name: &str| lib.find(name).unwrap_or_else(|| stop(path, &format!("lacks {name}")));
    let elementary = ["exp", "ln", "sinh", "sin", "sqrt"]
        .map(|f| unsafe { std::mem::transmute::<usize, Elementary>(find(&format!("pasoletu_{f}"))) });
    let friction = unsafe { std::mem::transmute::<usize, Friction>(find("pasoletu_nacc_friction")) };
    let update = unsafe { std::mem::transmute::<usize, Update>(find("pasoletu_flat_update")) };
    let pass = unsafe { std::mem::transmute::<usize, Pass>(find("pasoletu_flat_pass")) };
    let _ = OURS.set(Ours { elementary, friction, update, pass });
}

fn stop(path: &str, what: &str) -> ! {
    eprintln!("beside: {path} {what}");
    std::process::exit(2)
}

fn ours() -> &'static Ours {
    OURS.get().unwrap()
}

/// One of the five functions of the text; the answer, or the refusal's number.
pub fn elementary(which: Function, x: f64) -> Result<f64, u8> {
    let mut out = [0.0];
    match (ours().elementary[which as usize])(x, out.as_mut_ptr(), 1) {
        0 => Ok(out[0]),
        e => Err(e),
    }
}

/// What stands in places that no call may write, before it.
const UNWRITTEN: u64 = 0xdead_beef_0bad_f00d;

/// NACC's m of an angle, or the refusal's number. Nothing where a refused call has written.
pub fn friction(axes: u64, angle: f64) -> Option<Result<f64, u8>> {
    let mut out = [f64::from_bits(UNWRITTEN)];
    match (ours().friction)(axes, angle, out.as_mut_ptr(), 1) {
        0 => Some(Ok(out[0])),
        e => (out[0].to_bits() == UNWRITTEN).then_some(Err(e)),
    }
}

/// The update of lists as they are; the status.
pub fn update_lists(model: u64, p: &[f64], r: &mut [f64], a: &mut [u64]) -> u8 {
    (ours().update)(model, p.as_ptr(), p.len(), r.as_mut_ptr(), r.len(), a.as_mut_ptr(), a.len())
}

pub fn pass_lists(model: u64, p: &[f64], r: &mut [f64], a: &mut [u64], counts: &mut [u64]) -> u8 {
    let (n, m, k) = (r.len(), a.len(), counts.len());
    (ours().pass)(model, p.as_ptr(), p.len(), r.as_mut_ptr(), n, a.as_mut_ptr(), m, counts.as_mut_ptr(), k)
}

/// The update of a record. Nothing where a refused call has written.
pub fn update(model: u64, p: &[f64], r: &Record) -> Option<Outcome> {
    let (mut o, mut a) = (*r, [UNWRITTEN; 2]);
    match update_lists(model, p, &mut o, &mut a) {
        0 => Some(Ok((o, a))),
        e => (crate::bits(&o) == crate::bits(r) && a == [UNWRITTEN; 2]).then_some(Err(e)),
    }
}

/// Whether a call with these lists is refused by a number, nothing written.
pub fn refused_by(number: u8, model: u64, p: usize, r: usize, a: usize, counts: Option<usize>) -> bool {
    let (p, mut r, mut a) = (vec![0.5; p], vec![1.0; r], vec![UNWRITTEN; a]);
    let mut c = vec![UNWRITTEN; counts.unwrap_or(0)];
    let status = match counts {
        None => update_lists(model, &p, &mut r, &mut a),
        Some(_) => pass_lists(model, &p, &mut r, &mut a, &mut c),
    };
    status == number && r.iter().all(|x| *x == 1.0) && a.iter().chain(&c).all(|x| *x == UNWRITTEN)
}
