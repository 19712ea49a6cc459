//! The Rust's `math`: three dimensions, f64, matrices as three rows of three.
use crate::calls::{entries, floats};
use crate::table::pasoletu_decomposed_times;
use crate::{utils, Refusal};

/// A number.
pub type Real = f64;
/// How many dimensions there are.
pub const DIM: usize = 3;
/// Three rows of three.
pub type Matrix<N> = [[N; DIM]; DIM];
/// Three numbers.
pub type Vector<N> = [N; DIM];

/// A tensor as its deviatoric part and its spherical part (lib.rs).
#[derive(Copy, Clone, Debug, PartialEq)]
pub struct DecomposedTensor {
    /// The tensor less its spherical part on the diagonal.
    pub deviatoric_part: Matrix<Real>,
    /// A third of the trace.
    pub spherical_part: Real,
}

impl DecomposedTensor {
    /// Refused by 1 for an input and by 3 for a result that is not finite.
    pub fn decompose(tensor: &Matrix<Real>) -> Result<Self, Refusal> {
        Ok(Self { deviatoric_part: utils::deviatoric_part(tensor)?, spherical_part: utils::spherical_part(tensor)? })
    }

    /// The tensor of zeros.
    pub fn zero() -> Self {
        Self { deviatoric_part: [[0.0; DIM]; DIM], spherical_part: 0.0 }
    }

    /// The tensor times a vector: the Rust's `*`. Refused by 1 for an input and by 3 for a result that is not finite.
    pub fn times(&self, v: &Vector<Real>) -> Result<Vector<Real>, Refusal> {
        floats("DecomposedTensor::times", |out, n| unsafe {
            pasoletu_decomposed_times(self.spherical_part, entries(&self.deviatoric_part), 9, v.as_ptr(), 3, out, n)
        })
    }
}
