//! A floating-point mode other than IEEE's default is seen, and every call on a list panics in it with nothing written.
#![cfg(any(target_arch = "x86_64", target_arch = "aarch64"))]
use pasoletu::{
    fill_determinants, flat_pass_into, float_mode, pass, pass_into, read_sheet, report, write_sheet, Answer, Arrival,
    FlatParticle, Particle, SnowPlasticity,
};
use std::arch::asm;
use std::panic::{catch_unwind, AssertUnwindSafe};

const ROUNDING: u32 = 1;
const FLUSHED: u32 = 2;
const DENORMALS: u32 = 4;

#[cfg(target_arch = "x86_64")]
fn set(bits: u32) {
    let word = 0x1f80u32 | bits;
    unsafe { asm!("ldmxcsr [{}]", in(reg) &word, options(nostack)) };
}
#[cfg(target_arch = "x86_64")]
const MODES: [(u32, u32); 6] = [
    (0x2000, ROUNDING),
    (0x4000, ROUNDING),
    (0x6000, ROUNDING),
    (0x8000, FLUSHED),
    (0x0040, DENORMALS),
    (0x8040, FLUSHED | DENORMALS),
];

#[cfg(target_arch = "aarch64")]
fn set(bits: u32) {
    unsafe { asm!("msr fpcr, {}", in(reg) u64::from(bits), options(nostack)) };
}
#[cfg(target_arch = "aarch64")]
const MODES: [(u32, u32); 4] =
    [(0x40_0000, ROUNDING), (0x80_0000, ROUNDING), (0xc0_0000, ROUNDING), (0x100_0000, FLUSHED | DENORMALS)];

/// What is worked in a mode, or the words of its panic. The mode is this thread's own, and the default again after it.
fn within<T>(bits: u32, work: impl FnOnce() -> T) -> Result<T, String> {
    set(bits);
    let done = catch_unwind(AssertUnwindSafe(work));
    set(0);
    done.map_err(|panic| *panic.downcast::<String>().expect("words"))
}

#[test]
fn every_mode_is_seen() {
    assert_eq!(float_mode(), 0);
    for (bits, wanted) in MODES {
        assert_eq!(within(bits, float_mode), Ok(wanted));
        assert_eq!(float_mode(), 0);
    }
}

#[test]
fn the_calls_on_lists_panic() {
    let sheet = write_sheet(SnowPlasticity::new(), &[Particle::REST]).unwrap();
    for (bits, wanted) in MODES {
        let mut particles = [Particle::stretched([0.9, 1.0, 1.0]); 2];
        let mut flat = [FlatParticle::REST; 2];
        let (was, mut answers) = (particles, [Answer::default(); 2]);
        let told = [
            within(bits, || pass(SnowPlasticity::new(), &mut particles).refused).err(),
            within(bits, || pass_into(SnowPlasticity::new(), &mut particles, &mut answers)).err(),
            within(bits, || flat_pass_into(SnowPlasticity::new(), &mut flat, &mut answers)).err(),
            within(bits, || fill_determinants(&mut particles)).err(),
            within(bits, || read_sheet(&sheet)).err(),
            within(bits, || report(&was)).err(),
            within(bits, || Arrival::new().feed(&sheet)).err(),
        ];
        for words in told {
            let words = words.expect("a panic");
            assert!(words.contains("floating-point mode is not IEEE 754's default"), "{words}");
            assert!(words.contains(&format!("({wanted}: ")), "{words}");
        }
        assert_eq!((particles, flat), (was, [FlatParticle::REST; 2]));
        assert_eq!(pass(SnowPlasticity::new(), &mut particles).stored, 2);
    }
}
