//! The eight models, in two dimensions the four plastic ones, and the flag set that their files name.
#[cfg(feature = "dim3")]
mod elasticity_corotated_linear;
#[cfg(feature = "dim3")]
mod elasticity_neo_hookean;
#[cfg(feature = "dim3")]
mod eos_monaghan_sph;
#[cfg(feature = "dim3")]
mod failure_maximum_stress;
mod plasticity_drucker_prager;
mod plasticity_nacc;
mod plasticity_rankine;
mod plasticity_snow;

#[cfg(feature = "dim3")]
pub use elasticity_corotated_linear::*;
#[cfg(feature = "dim3")]
pub use elasticity_neo_hookean::*;
#[cfg(feature = "dim3")]
pub use eos_monaghan_sph::*;
#[cfg(feature = "dim3")]
pub use failure_maximum_stress::*;
pub use plasticity_drucker_prager::*;
pub use plasticity_nacc::*;
pub use plasticity_rankine::*;
pub use plasticity_snow::*;

#[derive(Copy, Clone, Debug, PartialEq)]
pub struct ActiveTimestepBounds(u32);

impl ActiveTimestepBounds {
    pub const CONSTITUTIVE_MODEL_BOUND: Self = Self(1);
    pub const PARTICLE_VELOCITY_BOUND: Self = Self(2);
    pub const PARTICLE_DISPLACEMENT_BOUND: Self = Self(4);
    pub const SINGLE_PARTICLE_STABILITY_BOUND: Self = Self(8);
    pub const DEFORMATION_GRADIENT_CHANGE_BOUND: Self = Self(16);
}

impl core::ops::BitOr for ActiveTimestepBounds {
    type Output = Self;
    fn bitor(self, other: Self) -> Self {
        Self(self.0 | other.0)
    }
}
