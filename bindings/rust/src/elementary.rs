//! The elementary functions (docs/RULES.md, section 3). Each is refused by 1 where its argument is not finite, by 2 where it
//! lies below the range and by 10 where above it; ranges include their ends.
use crate::calls::number;
use crate::{table, Refusal};

macro_rules! elementary {
    ($($(#[$doc:meta])* $name:ident, $call:ident;)*) => {$(
        $(#[$doc])*
        pub fn $name(x: f64) -> Result<f64, Refusal> {
            number(concat!("elementary::", stringify!($name)), |out, n| unsafe { table::$call(x, out, n) })
        }
    )*};
}

elementary! {
    /// Range -700 to 700; within 2^-45 times the exact value; exactly 1 at 0.
    exp, pasoletu_exp;
    /// Range 2^-60 to 2^60; within 2^-45; exactly 0 at 1.
    ln, pasoletu_ln;
    /// Range -700 to 700; within 2^-45 times (1 + size of the exact value).
    sinh, pasoletu_sinh;
    /// Range -8 to 8; within 2^-45.
    sin, pasoletu_sin;
    /// Range: at least 0; correctly rounded.
    sqrt, pasoletu_sqrt;
    /// x^(1/3). Range 2^-60 to 2^60; within 2^-45 times the exact value.
    cbrt, pasoletu_cbrt;
    /// x^(-1/3), likewise.
    inv_cbrt, pasoletu_inv_cbrt;
    /// x^(2/3), likewise.
    cbrt_squared, pasoletu_cbrt_squared;
    /// x^(-2/3), likewise.
    inv_cbrt_squared, pasoletu_inv_cbrt_squared;
}
