use crate::calls::*;
use crate::math::{Matrix, Real, Vector};
use crate::table::*;
use crate::Refusal;

/// Monaghan's equation of state (eos_monaghan_sph.rs). `gamma` is read as a signed number: 4294967295 means -1. Each call is
/// refused by 1 for an input that is not finite and by 3 for a NaN or a result that is not finite.
#[derive(Copy, Clone, Debug, PartialEq)]
pub struct MonaghanSphEos {
    /// The pressure that the density's power is multiplied by.
    pub pressure0: Real,
    /// The power, read as a signed number.
    pub gamma: u32,
    /// The viscosity; 0 for none.
    pub viscosity: Real,
    /// The largest size of a negative pressure.
    pub max_neg_pressure: Real,
}

impl MonaghanSphEos {
    /// Refused by 1 for an argument that is not finite.
    pub fn new(pressure0: Real, gamma: u32, viscosity: Real) -> Result<Self, Refusal> {
        if !all_finite(&[pressure0, viscosity]) {
            return Err(Refusal::new(Refusal::NOT_FINITE, "MonaghanSphEos::new"));
        }
        Ok(Self { pressure0, gamma, viscosity, max_neg_pressure: MONAGHAN_MAX_NEG_PRESSURE })
    }

    /// The pressure.
    pub fn pressure(&self, particle_mass: Real, particle_volume0: Real, particle_density_fluid: Real) -> Result<Real, Refusal> {
        number("MonaghanSphEos::pressure", |out, n| unsafe {
            pasoletu_monaghan_pressure(
                self.pressure0,
                self.gamma,
                self.viscosity,
                self.max_neg_pressure,
                particle_mass,
                particle_volume0,
                particle_density_fluid,
                out,
                n,
            )
        })
    }

    /// True.
    pub fn is_fluid(&self) -> bool {
        true
    }

    /// The Kirchhoff stress.
    pub fn kirchhoff_stress(
        &self,
        particle_mass: Real,
        particle_volume0: Real,
        particle_density_fluid: Real,
        particle_fluid_deformation_gradient_det: Real,
        particle_velocity_gradient: &Matrix<Real>,
    ) -> Result<Matrix<Real>, Refusal> {
        matrix("MonaghanSphEos::kirchhoff_stress", |out, n| unsafe {
            pasoletu_monaghan_kirchhoff_stress(
                self.pressure0,
                self.gamma,
                self.viscosity,
                self.max_neg_pressure,
                particle_mass,
                particle_volume0,
                particle_density_fluid,
                particle_fluid_deformation_gradient_det,
                entries(particle_velocity_gradient),
                9,
                out,
                n,
            )
        })
    }

    /// Also refused by 10, where a root's argument is infinite. Where the single-particle root's argument is negative, or NaN
    /// from its own products and quotient, the other step is the answer.
    pub fn timestep_bound(
        &self,
        particle_fluid_deformation_gradient_det: Real,
        particle_mass: Real,
        particle_volume0: Real,
        particle_density_fluid: Real,
        particle_velocity: &Vector<Real>,
        cell_width: Real,
    ) -> Result<Real, Refusal> {
        number("MonaghanSphEos::timestep_bound", |out, n| unsafe {
            pasoletu_monaghan_timestep_bound(
                self.pressure0,
                self.gamma,
                self.viscosity,
                self.max_neg_pressure,
                particle_fluid_deformation_gradient_det,
                particle_mass,
                particle_volume0,
                particle_density_fluid,
                particle_velocity.as_ptr(),
                3,
                cell_width,
                out,
                n,
            )
        })
    }
}
