//! The floating-point mode of the thread that calls. The proofs speak of IEEE 754's default, which is Rust's too: rounding to nearest, no
//! flushing of small numbers to zero. Other code of the process may have set another (a C part that is built with -ffast-math does).
use crate::table::{MODE_DENORMALS, MODE_FLUSHED, MODE_ROUNDING};

/// What of the calling thread's floating-point mode is not IEEE 754's default: 0, or a sum of 1 (results are not rounded to nearest), 2 (a
/// result below the smallest normal number becomes 0) and 4 (an input below it is read as 0). The calls on lists panic where it is not 0.
///
/// ```
/// assert_eq!(pasoletu::float_mode(), 0);
/// ```
pub fn float_mode() -> u32 {
    by_control_word().unwrap_or_else(by_arithmetic)
}

fn sum(rounding: bool, flushed: bool, denormals: bool) -> u32 {
    let part = |wrong: bool, number: usize| if wrong { number as u32 } else { 0 };
    part(rounding, MODE_ROUNDING) | part(flushed, MODE_FLUSHED) | part(denormals, MODE_DENORMALS)
}

/// From MXCSR.
#[cfg(target_arch = "x86_64")]
fn by_control_word() -> Option<u32> {
    let mut word = 0u32;
    unsafe { core::arch::asm!("stmxcsr [{}]", in(reg) &mut word, options(nostack, preserves_flags)) };
    Some(sum(word & 0x6000 != 0, word & 0x8000 != 0, word & 0x0040 != 0))
}

/// From FPCR, whose bit FZ is for results and inputs.
#[cfg(target_arch = "aarch64")]
fn by_control_word() -> Option<u32> {
    let word: u64;
    unsafe { core::arch::asm!("mrs {}, fpcr", out(reg) word, options(nomem, nostack, preserves_flags)) };
    Some(sum(word & 0xc0_0000 != 0, word & 0x100_0000 != 0, word & 0x100_0001 != 0))
}

#[cfg(not(any(target_arch = "x86_64", target_arch = "aarch64")))]
fn by_control_word() -> Option<u32> {
    None
}

/// By sums and products that the compiler cannot work beforehand.
pub(crate) fn by_arithmetic() -> u32 {
    let unknown = |x: f64| unsafe { core::ptr::read_volatile(&x) };
    let place = f64::EPSILON;
    let rounding = unknown(1.0) + unknown(place / 4.0) != 1.0 || unknown(1.0) + unknown(place * 0.75) == 1.0;
    let flushed = (unknown(f64::MIN_POSITIVE) * unknown(0.5)).to_bits() == 0;
    let denormals = unknown(f64::from_bits(1)) * unknown(1.0 / place) == 0.0;
    sum(rounding, flushed, denormals)
}

/// Panics where the mode is not the default: what is proved of this call would not hold.
pub(crate) fn held(call: &str) {
    let wrong = float_mode();
    assert!(
        wrong == 0,
        "{call}: this thread's floating-point mode is not IEEE 754's default ({wrong}: a sum of 1 rounding, 2 results flushed to zero, \
         4 denormals read as zero): set it back before the call, and leave out what set it (-ffast-math)"
    );
}

#[cfg(test)]
mod tests {
    use super::{by_arithmetic, by_control_word};

    #[test]
    fn arithmetic_and_control_word_agree() {
        assert_eq!((by_arithmetic(), by_control_word().unwrap_or(0)), (0, 0));
    }

    #[test]
    #[cfg(target_arch = "x86_64")]
    fn they_agree_in_every_mode() {
        for bits in [0x2000u32, 0x4000, 0x6000, 0x8000, 0x0040, 0x8040, 0xe040] {
            let (word, rest) = (0x1f80 | bits, 0x1f80u32);
            unsafe { core::arch::asm!("ldmxcsr [{}]", in(reg) &word, options(nostack)) };
            let told = (by_arithmetic(), by_control_word());
            unsafe { core::arch::asm!("ldmxcsr [{}]", in(reg) &rest, options(nostack)) };
            assert_eq!(Some(told.0), told.1, "{bits:x}");
            assert_ne!(told.0, 0, "{bits:x}");
        }
    }
}
