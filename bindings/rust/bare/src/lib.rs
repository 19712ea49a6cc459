//! A pass over three particles of snow with `core` alone: one at rest, one crushed, one with a NaN.
#![no_std]
use core::panic::PanicInfo;
use pasoletu::{pass_into, Answer, Particle, SnowPlasticity};

#[panic_handler]
fn panic(_: &PanicInfo) -> ! {
    loop {}
}

/// How many were stored, times 100, and how many refused, times 10, and whether the last one was refused by 1.
#[no_mangle]
pub extern "C" fn bare_pass() -> u64 {
    let mut particles = [Particle::REST, Particle::stretched([0.9, 1.0, 1.0]), Particle::stretched([f64::NAN, 1.0, 1.0])];
    let mut answers = [Answer::default(); 3];
    match pass_into(SnowPlasticity::new(), &mut particles, &mut answers) {
        Ok(counts) => 100 * counts.stored + 10 * counts.refused + u64::from(answers[2].outcome() == Err(1)),
        Err(refusal) => u64::from(refusal.number),
    }
}
