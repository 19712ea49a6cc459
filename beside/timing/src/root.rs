//! Build 4's elementary functions: std's, as build 3 has them, and our root in the place of the processor's.
use crate::externs::pasoletu_sqrt;
use nalgebra::hooks::Function;
use std::panic::Location;

fn root(x: f64) -> f64 {
    let mut bits = 0;
    match unsafe { pasoletu_sqrt(x, &mut bits, 1) } {
        0 => f64::from_bits(bits),
        _ => f64::NAN,
    }
}

#[no_mangle]
fn beside_elementary(which: Function, x: f64, _: &'static Location<'static>) -> f64 {
    match which {
        Function::Exp => x.exp(),
        Function::Ln => x.ln(),
        Function::Sinh => x.sinh(),
        Function::Sin => x.sin(),
        Function::Sqrt => root(x),
        Function::Cbrt => x.powf(1.0 / 3.0),
        Function::InvCbrt => x.powf(-1.0 / 3.0),
        Function::CbrtSquared => x.powf(2.0 / 3.0),
        Function::InvCbrtSquared => x.powf(-2.0 / 3.0),
        Function::PowerMinusOne => 1.0 / x,
        Function::PowerHalf => root(x),
        Function::PowerOne => x,
    }
}
