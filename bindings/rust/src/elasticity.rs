//! Stress and energy of the two solid laws.
use crate::calls::*;
use crate::math::{Matrix, Real, Vector};
use crate::table::*;
use crate::{utils, MaximumStressFailure, Particle, Refusal};

/// Which part of the neo-Hookean energy `phase_coeff` weakens below determinant 1. From there up it weakens both.
#[derive(Copy, Clone, Debug, Default, PartialEq, Eq)]
pub enum EnergySplit {
    /// The volumetric part, as the Rust has it.
    #[default]
    Rust,
    /// The deviatoric part, as the stress has it: one split for both.
    AsStress,
}

/// Neo-Hookean stress and energy (elasticity_neo_hookean.rs). Each call is refused by 1 for an input that is not finite, by 2
/// where F's determinant lies below the range of the powers and the logarithm, by 10 where above it, by 3 for a NaN or a
/// result not finite.
///
/// `stress_and_verdict` and the calls that end in `_of` take a particle with the determinant that it holds: what the latter answer is what
/// the others answer of its F, phase and hardening, in every bit. They are refused by 1 for any of its floats, then by 11 for a determinant
/// that isn't F's.
#[derive(Copy, Clone, Debug, PartialEq)]
pub struct NeoHookeanElasticity {
    /// The Rust's coefficient for its time step. No call of this crate looks at its size.
    pub cfl_coeff: Real,
    /// The first Lamé parameter.
    pub lambda: Real,
    /// The second Lamé parameter.
    pub mu: Real,
}

impl NeoHookeanElasticity {
    /// Refused by 1 for an argument and by 3 for a modulus that is not finite.
    pub fn new(young_modulus: Real, poisson_ratio: Real) -> Result<Self, Refusal> {
        let (lambda, mu) = utils::lame_lambda_mu(young_modulus, poisson_ratio).map_err(|r| r.of("NeoHookeanElasticity::new"))?;
        Ok(Self { cfl_coeff: NEO_HOOKEAN_CFL_COEFF, lambda, mu })
    }

    fn law(&self) -> [Real; 3] {
        [self.cfl_coeff, self.lambda, self.mu]
    }

    /// The first Piola-Kirchhoff stress; no split and no phase.
    pub fn fpk_stress(&self, deformation_gradient: &Matrix<Real>, hardening: Real) -> Result<Matrix<Real>, Refusal> {
        matrix("NeoHookeanElasticity::fpk_stress", |out, n| unsafe {
            pasoletu_neo_hookean_fpk_stress(self.law().as_ptr(), 3, hardening, entries(deformation_gradient), 9, out, n)
        })
    }

    /// (1 - 0.001) phase phase + 0.001. Refused by 1 for a phase and by 3 for a result that is not finite.
    pub fn phase_coeff(phase: Real) -> Result<Real, Refusal> {
        number("NeoHookeanElasticity::phase_coeff", |out, n| unsafe { pasoletu_phase_coeff(phase, out, n) })
    }

    /// False.
    pub fn is_fluid(&self) -> bool {
        false
    }

    /// Below determinant 1 the volumetric part is the tensile one, as the Rust has it.
    pub fn elastic_energy_density(
        &self,
        particle_phase: Real,
        elastic_hardening: Real,
        deformation_gradient: &Matrix<Real>,
    ) -> Result<Real, Refusal> {
        let (law, f) = (self.law(), entries(deformation_gradient));
        number("NeoHookeanElasticity::elastic_energy_density", |out, n| unsafe {
            let (phase, hardening) = (particle_phase, elastic_hardening);
            pasoletu_neo_hookean_elastic_energy_density(law.as_ptr(), 3, phase, hardening, f, 9, out, n)
        })
    }

    /// The energy by the split that is named; `EnergySplit::Rust` is `elastic_energy_density`, bit for bit.
    pub fn elastic_energy_density_in(
        &self,
        split: EnergySplit,
        particle_phase: Real,
        elastic_hardening: Real,
        deformation_gradient: &Matrix<Real>,
    ) -> Result<Real, Refusal> {
        let (law, f) = (self.law(), entries(deformation_gradient));
        number("NeoHookeanElasticity::elastic_energy_density_in", |out, n| unsafe {
            let (one_split, phase, hardening) = (flag(split == EnergySplit::AsStress), particle_phase, elastic_hardening);
            pasoletu_neo_hookean_elastic_energy_density_in(law.as_ptr(), 3, one_split, phase, hardening, f, 9, out, n)
        })
    }

    /// [`fpk_stress`](Self::fpk_stress) of a particle.
    pub fn fpk_stress_of(&self, particle: &Particle) -> Result<Matrix<Real>, Refusal> {
        let (law, record) = (self.law(), particle.floats().as_ptr());
        let told = matrix("NeoHookeanElasticity::fpk_stress_of", |out, n| unsafe {
            pasoletu_record_neo_hookean_fpk_stress(law.as_ptr(), 3, record, Particle::FLOATS, out, n)
        });
        told.map_err(|r| placed(r, &law, particle))
    }

    /// The Kirchhoff stress of a particle, its tensile part times `phase_coeff` (from determinant 1 up all of it, below 1 the deviatoric
    /// part), and the verdict on the principal values of that very stress. The library works these out itself; refused by 14, after all
    /// else, where they miss their check. 1 is also for a limit.
    pub fn stress_and_verdict(&self, limits: &MaximumStressFailure, particle: &Particle) -> Result<StressVerdict, Refusal> {
        let (law, two, record) = (self.law(), limits.limits(), particle.floats().as_ptr());
        let told = judged("NeoHookeanElasticity::stress_and_verdict", |stress, verdict| unsafe {
            let out = stress.as_mut_ptr().cast();
            pasoletu_neo_hookean_stress_and_verdict(
                law.as_ptr(),
                3,
                two.as_ptr(),
                2,
                record,
                Particle::FLOATS,
                out,
                9,
                verdict,
                1,
            )
        });
        told.map_err(|r| placed(r, &[law[0], law[1], law[2], two[0], two[1]], particle))
    }

    /// [`elastic_energy_density`](Self::elastic_energy_density) of a particle.
    pub fn elastic_energy_density_of(&self, particle: &Particle) -> Result<Real, Refusal> {
        let (law, record) = (self.law(), particle.floats().as_ptr());
        let told = number("NeoHookeanElasticity::elastic_energy_density_of", |out, n| unsafe {
            pasoletu_record_neo_hookean_elastic_energy_density(law.as_ptr(), 3, record, Particle::FLOATS, out, n)
        });
        told.map_err(|r| placed(r, &law, particle))
    }

    /// [`elastic_energy_density_in`](Self::elastic_energy_density_in) of a particle.
    pub fn elastic_energy_density_in_of(&self, split: EnergySplit, particle: &Particle) -> Result<Real, Refusal> {
        let (law, record) = (self.law(), particle.floats().as_ptr());
        let told = number("NeoHookeanElasticity::elastic_energy_density_in_of", |out, n| unsafe {
            let one_split = flag(split == EnergySplit::AsStress);
            pasoletu_record_neo_hookean_elastic_energy_density_in(law.as_ptr(), 3, one_split, record, Particle::FLOATS, out, n)
        });
        told.map_err(|r| placed(r, &law, particle))
    }

    /// [`pos_energy`](Self::pos_energy) of a particle.
    pub fn pos_energy_of(&self, particle: &Particle) -> Result<Real, Refusal> {
        let (law, record) = (self.law(), particle.floats().as_ptr());
        let told = number("NeoHookeanElasticity::pos_energy_of", |out, n| unsafe {
            pasoletu_record_neo_hookean_pos_energy(law.as_ptr(), 3, record, Particle::FLOATS, out, n)
        });
        told.map_err(|r| placed(r, &law, particle))
    }

    /// The positive part of the energy.
    pub fn pos_energy(
        &self,
        particle_phase: Real,
        particle_elastic_hardening: Real,
        particle_deformation_gradient: &Matrix<Real>,
    ) -> Result<Real, Refusal> {
        let (law, f) = (self.law(), entries(particle_deformation_gradient));
        number("NeoHookeanElasticity::pos_energy", |out, n| unsafe {
            let (phase, hardening) = (particle_phase, particle_elastic_hardening);
            pasoletu_neo_hookean_pos_energy(law.as_ptr(), 3, phase, hardening, f, 9, out, n)
        })
    }
}

/// A stress and the verdict on it, which is always of this very stress.
#[derive(Copy, Clone, Debug, PartialEq)]
pub struct StressVerdict {
    /// The Kirchhoff stress.
    pub stress: Matrix<Real>,
    /// Whether the greatest principal value is over its limit, or half the distance of greatest and least over the other.
    pub failed: bool,
}

/// What a call that judges a particle writes, or its refusal.
fn judged(name: &'static str, call: impl FnOnce(&mut Matrix<Real>, *mut u64) -> u8) -> Result<StressVerdict, Refusal> {
    let (mut stress, mut verdict) = ([[0.0; 3]; 3], [0u64]);
    match call(&mut stress, verdict.as_mut_ptr()) {
        0 => Ok(StressVerdict { stress, failed: verdict[0] != 0 }),
        number => Err(Refusal::new(number, name)),
    }
}

/// A refusal of a particle, with the first float of it that is not finite; one of the law comes before it and has no name here.
fn placed(refusal: Refusal, law: &[Real], particle: &Particle) -> Refusal {
    let named = refusal.number == Refusal::NOT_FINITE && all_finite(law);
    Refusal { place: if named { particle.first_not_finite() } else { None }, ..refusal }
}

/// Corotated linear stress and energy (elasticity_corotated_linear.rs). The factors of F are given. Each call is refused by 1
/// for an input that is not finite and by 3 for a NaN or a result that is not finite.
///
/// `stress_and_verdict` and the calls that end in `_of` take a particle with its factors and the determinant that it holds, and answer what the others do; they
/// are refused by 1 for any of its floats, then by 11 for a determinant that isn't F's.
#[derive(Copy, Clone, Debug, PartialEq)]
pub struct CorotatedLinearElasticity {
    /// Whether a failed particle (phase 0.0) loses its tensile stress.
    pub split_stress_on_failure: bool,
    /// The Rust's coefficient for its time step. No call of this crate looks at its size.
    pub cfl_coeff: Real,
    /// The first Lamé parameter.
    pub lambda: Real,
    /// The second Lamé parameter.
    pub mu: Real,
}

impl CorotatedLinearElasticity {
    /// Refused by 1 for an argument and by 3 for a modulus that is not finite.
    pub fn new(young_modulus: Real, poisson_ratio: Real) -> Result<Self, Refusal> {
        let (lambda, mu) =
            utils::lame_lambda_mu(young_modulus, poisson_ratio).map_err(|r| r.of("CorotatedLinearElasticity::new"))?;
        Ok(Self { split_stress_on_failure: true, cfl_coeff: COROTATED_CFL_COEFF, lambda, mu })
    }

    pub(crate) fn law(&self) -> [Real; 4] {
        [flag(self.split_stress_on_failure), self.cfl_coeff, self.lambda, self.mu]
    }

    /// Takes the product of the singular values for the determinant.
    pub fn elastic_energy_density(&self, singular_values: &Vector<Real>, elastic_hardening: Real) -> Result<Real, Refusal> {
        let (law, s) = (self.law(), singular_values.as_ptr());
        number("CorotatedLinearElasticity::elastic_energy_density", |out, n| unsafe {
            pasoletu_corotated_elastic_energy_density(law.as_ptr(), 4, elastic_hardening, s, 3, out, n)
        })
    }

    /// The Kirchhoff stress of a particle, by the factors that stand in it, and the verdict on the principal values of that very stress.
    /// At phase exactly 1.0 the stress is whole; its tensile part is dropped only at phase 0.0 with `split_stress_on_failure`. Refused by
    /// 14, after all else, where the principal values, which the library works out itself, miss their check. 1 is also for a limit.
    pub fn stress_and_verdict(&self, limits: &MaximumStressFailure, particle: &Particle) -> Result<StressVerdict, Refusal> {
        let (law, two, record) = (self.law(), limits.limits(), particle.floats().as_ptr());
        let told = judged("CorotatedLinearElasticity::stress_and_verdict", |stress, verdict| unsafe {
            let out = stress.as_mut_ptr().cast();
            pasoletu_corotated_stress_and_verdict(law.as_ptr(), 4, two.as_ptr(), 2, record, Particle::FLOATS, out, 9, verdict, 1)
        });
        told.map_err(|r| placed(r, &[law[1], law[2], law[3], two[0], two[1]], particle))
    }

    /// [`elastic_energy_density`](Self::elastic_energy_density) of a particle, by the product of its singular values.
    pub fn elastic_energy_density_of(&self, particle: &Particle) -> Result<Real, Refusal> {
        let (law, record) = (self.law(), particle.floats().as_ptr());
        let told = number("CorotatedLinearElasticity::elastic_energy_density_of", |out, n| unsafe {
            pasoletu_record_corotated_elastic_energy_density(law.as_ptr(), 4, record, Particle::FLOATS, out, n)
        });
        told.map_err(|r| placed(r, &law, particle))
    }

    /// [`pos_energy`](Self::pos_energy) of a particle.
    pub fn pos_energy_of(&self, particle: &Particle) -> Result<Real, Refusal> {
        let (law, record) = (self.law(), particle.floats().as_ptr());
        let told = number("CorotatedLinearElasticity::pos_energy_of", |out, n| unsafe {
            pasoletu_record_corotated_pos_energy(law.as_ptr(), 4, record, Particle::FLOATS, out, n)
        });
        told.map_err(|r| placed(r, &law, particle))
    }

    /// The positive part of the energy. Takes the determinant of F.
    pub fn pos_energy(
        &self,
        deformation_gradient: &Matrix<Real>,
        singular_values: &Vector<Real>,
        elastic_hardening: Real,
    ) -> Result<Real, Refusal> {
        let (law, f, s) = (self.law(), entries(deformation_gradient), singular_values.as_ptr());
        number("CorotatedLinearElasticity::pos_energy", |out, n| unsafe {
            pasoletu_corotated_pos_energy(law.as_ptr(), 4, elastic_hardening, f, 9, s, 3, out, n)
        })
    }

    /// False.
    pub fn is_fluid(&self) -> bool {
        false
    }
}
