//! The processor's sticky flags, by which build 2 is watched; bit 0 is set where a NaN arose from numbers.
pub const NAN_AROSE: u32 = 1;
pub const ALL: u32 = 0x3f;

#[cfg(target_arch = "x86_64")]
pub fn flags() -> u32 {
    let mut x = 0u32;
    unsafe { std::arch::asm!("stmxcsr [{}]", in(reg) &mut x) };
    x
}

#[cfg(target_arch = "x86_64")]
pub fn set_flags(x: u32) {
    unsafe { std::arch::asm!("ldmxcsr [{}]", in(reg) &x) };
}

#[cfg(target_arch = "aarch64")]
pub fn flags() -> u32 {
    let x: u64;
    unsafe { std::arch::asm!("mrs {}, fpsr", out(reg) x) };
    x as u32
}

#[cfg(target_arch = "aarch64")]
pub fn set_flags(x: u32) {
    unsafe { std::arch::asm!("msr fpsr, {}", in(reg) x as u64) };
}
