//! Only the names that the ten files lean on; nothing here is compared.
pub mod models;

pub mod solver {
    pub struct QuadraticKernel;
}

pub mod timestep {
    use crate::math::{Real, Vector};

    pub struct ElasticitySoundSpeedTimestepBound {
        pub alpha: Real,
        pub bulk_modulus: Real,
        pub shear_modulus: Real,
    }

    impl ElasticitySoundSpeedTimestepBound {
        pub fn timestep_bound(&self, _: Real, _: &Vector<Real>, _: Real) -> Real {
            unimplemented!()
        }
    }
}
