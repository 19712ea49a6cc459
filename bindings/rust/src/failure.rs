use crate::calls::all_finite;
use crate::math::Real;
use crate::Refusal;

/// The limits of the failure rule (failure_maximum_stress.rs). `stress_and_verdict` of the two solid laws and the passes with failure judge by
/// them; no call judges a stress that is handed in.
#[derive(Copy, Clone, Debug, PartialEq)]
pub struct MaximumStressFailure {
    /// The limit of the greatest principal stress.
    pub max_principal_stress: Real,
    /// The limit of half the distance of the greatest and the least.
    pub max_shear_stress: Real,
}

impl MaximumStressFailure {
    /// Refused by 1 for a limit that is not finite.
    pub fn new(max_principal_stress: Real, max_shear_stress: Real) -> Result<Self, Refusal> {
        if !all_finite(&[max_principal_stress, max_shear_stress]) {
            return Err(Refusal::new(Refusal::NOT_FINITE, "MaximumStressFailure::new"));
        }
        Ok(Self { max_principal_stress, max_shear_stress })
    }

    pub(crate) fn limits(&self) -> [Real; 2] {
        [self.max_principal_stress, self.max_shear_stress]
    }
}
