//! Pasoletu: how snow and debris yield, break and push, particle by particle, by proved laws.
//!
//! The names are those of dimforge/sparkl, in its modules too. Someone who comes from there changes the import, and then
//! meets these differences:
//! - a call answers a `Result`: what would have been a NaN that looks like packed snow is a [`Refusal`];
//! - matrices are `[[f64; 3]; 3]`, three rows of three;
//! - the factors U, sigma, V^T of F are given (in a [`Particle`], or to the corotated law), not worked out inside, unless they are asked
//!   for: [`Particle::factor`], and the passes that factor first;
//! - a [`Particle`] holds F's determinant: whoever writes F fills it in ([`fill_determinants`]).
//!
//! ```
//! use pasoletu::dynamics::models::SnowPlasticity;
//! use pasoletu::{Outcome, Particle};
//!
//! let mut particle = Particle::stretched([0.9, 1.0, 1.0]);
//! let outcome = SnowPlasticity::new().update_particle(&mut particle)?;
//! assert_eq!(particle.singular_values[0], 0.975);
//! assert_eq!(outcome, Outcome::Stored(particle.elastic_hardening));
//! # Ok::<(), pasoletu::Refusal>(())
//! ```
//!
//! # Features
//!
//! - `std` (by default): [`Refusal`] is a `std::error::Error`.
//! - `alloc` (by default, with `std`): the passes and sheets that answer in a `Vec`. Without it the crate needs `core` alone:
//!   [`pass_into`], [`pass_with_failure_into`], [`pass_factored_into`], [`pass_factored_with_failure_into`], [`factor_list_into`],
//!   [`read_sheet_into`] and [`write_sheet_into`] write in the caller's room.
//! - `parallel`: `parallel::pass`, `parallel::pass_with_failure` and those that factor first over all cores, by rayon. It needs rayon,
//!   which the manifest in the folder `parallel` names and this one does not.
#![no_std]
#![deny(missing_docs)]

#[cfg(feature = "alloc")]
extern crate alloc;
#[cfg(feature = "std")]
extern crate std;

#[cfg(feature = "alloc")]
mod arrival;
mod calls;
mod elasticity;
pub mod elementary;
mod failure;
mod fluid;
mod lists;
pub mod math;
mod mode;
#[cfg(feature = "parallel")]
pub mod parallel;
mod particle;
mod plasticity;
mod refusal;
mod reasons;
mod reports;
#[cfg(feature = "alloc")]
mod sheets;
mod slices;
#[allow(dead_code, missing_docs)]
#[rustfmt::skip]
mod table;
pub mod utils;
#[cfg(feature = "alloc")]
mod vectors;
mod zones;

#[cfg(feature = "alloc")]
pub use arrival::Arrival;
pub use elasticity::{CorotatedLinearElasticity, EnergySplit, NeoHookeanElasticity, StressVerdict};
pub use failure::MaximumStressFailure;
pub use fluid::MonaghanSphEos;
pub use lists::{
    factor_list_into, fill_determinants, pass_factored_into, pass_factored_with_failure_into, pass_into, pass_with_failure_into,
    read_sheet_into, write_sheet_into, write_sheet_with_determinants_into, Answer, Counts, Header,
};
pub use mode::float_mode;
pub use particle::Particle;
pub use plasticity::*;
pub use refusal::Refusal;
pub use reasons::{Bound, Place, Reason};
pub use reports::{report, Column, Report};
#[cfg(feature = "alloc")]
pub use sheets::{read_sheet, run_sheet, write_sheet, write_sheet_with_determinants, Ran, Sheet};
pub use slices::{flat_pass_into, FlatParticle};
pub use table::{REPORT_MOST, SHEET_BYTES, SHEET_MOST};
#[cfg(feature = "alloc")]
pub use vectors::{factor_list, pass, pass_factored, pass_factored_with_failure, pass_with_failure, Passed};
pub use zones::{Tally, Zones};

/// The version of the crate, which is that of the library.
pub const VERSION: &str = env!("CARGO_PKG_VERSION");

/// The laws where the Rust has them.
pub mod dynamics {
    /// The plastic and elastic laws, the equation of state and the failure rule.
    pub mod models {
        pub use crate::table::plastic::*;
        pub use crate::{CorotatedLinearElasticity, MaximumStressFailure, MonaghanSphEos, NeoHookeanElasticity};
    }
}
