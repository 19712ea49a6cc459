use crate::lists::fill_determinants;
use crate::math::{Matrix, Vector};
use crate::table::{self, pasoletu_factor};
use crate::Refusal;

/// A particle: the 37 floats of a record (docs/RULES.md, section 7), with the names that the Rust gives them.
///
/// The laws take the factors F = U diag(sigma) V^T as they stand here: the host decomposes F and does not lend factors of
/// another F, or it asks [`Particle::factor`] or a pass that factors first. An update that stores writes `deformation_gradient`, `singular_values`, the scalars that its law names and
/// `determinant`; `u` and `v_t` stay. Whoever writes `deformation_gradient` writes `determinant` with it, by
/// [`Particle::with_determinant`] or [`fill_determinants`](crate::fill_determinants): one that does not belong to F is refused by 11.
#[derive(Copy, Clone, Debug, PartialEq)]
#[repr(C)]
pub struct Particle {
    /// F, row by row. (nalgebra keeps columns together: take `m.transpose().into()`.)
    pub deformation_gradient: Matrix<f64>,
    /// U, row by row.
    pub u: Matrix<f64>,
    /// sigma, in the order of U's columns.
    pub singular_values: Vector<f64>,
    /// V^T, row by row.
    pub v_t: Matrix<f64>,
    /// 1.0 whole, 0.0 failed.
    pub phase: f64,
    /// The determinant of the plastic deformation gradient.
    pub plastic_deformation_gradient_det: f64,
    /// The plastic hardening: Rankine's and Drucker-Prager's.
    pub plastic_hardening: f64,
    /// The elastic hardening: Snow's, and what the elastic laws multiply their moduli by.
    pub elastic_hardening: f64,
    /// Drucker-Prager's gain of log volume.
    pub log_vol_gain: f64,
    /// NACC's alpha.
    pub nacc_alpha: f64,
    /// The determinant of `deformation_gradient`, in every bit.
    pub determinant: f64,
}

const IDENTITY: Matrix<f64> = [[1.0, 0.0, 0.0], [0.0, 1.0, 0.0], [0.0, 0.0, 1.0]];

impl Particle {
    /// How many floats a particle has.
    pub const FLOATS: usize = table::FLOATS;

    /// How many floats stand before the determinant: as many a particle has in a sheet without determinants.
    pub const BARE: usize = table::SHEET_FLOATS;

    /// A whole particle at rest: F, U and V^T the identity, sigma, determinants and hardenings 1, gain and alpha 0.
    pub const REST: Particle = Particle {
        deformation_gradient: IDENTITY,
        u: IDENTITY,
        singular_values: [1.0; 3],
        v_t: IDENTITY,
        phase: 1.0,
        plastic_deformation_gradient_det: 1.0,
        plastic_hardening: 1.0,
        elastic_hardening: 1.0,
        log_vol_gain: 0.0,
        nacc_alpha: 0.0,
        determinant: 1.0,
    };

    /// A whole particle stretched along the axes: F is diag(sigma), U and V^T the identity.
    pub fn stretched(sigma: Vector<f64>) -> Particle {
        let [a, b, c] = sigma;
        let f = [[a, 0.0, 0.0], [0.0, b, 0.0], [0.0, 0.0, c]];
        Particle { deformation_gradient: f, singular_values: sigma, ..Particle::REST }.with_determinant()
    }

    /// The same particle with the determinant of the F that stands there.
    ///
    /// ```
    /// use pasoletu::Particle;
    ///
    /// let f = [[2.0, 0.0, 0.0], [0.0, 3.0, 0.0], [0.0, 0.0, 5.0]];
    /// let particle = Particle { deformation_gradient: f, ..Particle::REST }.with_determinant();
    /// assert_eq!(particle.determinant, 30.0);
    /// ```
    pub fn with_determinant(mut self) -> Particle {
        fill_determinants(core::slice::from_mut(&mut self));
        self
    }

    /// Works `u`, `singular_values` and `v_t` out of `deformation_gradient`, whatever stood there, and checks them exactly: with m the
    /// largest size of an entry of F, U diag(sigma) V^T lies within m / 2^40 of F in every entry, U and V times their transposes within
    /// 2^-40 of the identity, and no singular value is below 0; they are in no order. Nothing else is written.
    ///
    /// Refused, with nothing written, by 1 for one of the 37 floats that is not finite, also of those about to be written, then by 11 for
    /// a wrong `determinant`, then by 14 where the factors miss the check.
    ///
    /// ```
    /// use pasoletu::Particle;
    ///
    /// let f = [[0.0, -2.0, 0.0], [0.5, 0.0, 0.0], [0.0, 0.0, 3.0]];
    /// let mut particle = Particle { deformation_gradient: f, ..Particle::REST }.with_determinant();
    /// particle.factor()?;
    /// for wanted in [0.5, 2.0, 3.0] {
    ///     assert!(particle.singular_values.iter().any(|sigma| (sigma - wanted).abs() < 1e-11));
    /// }
    /// # Ok::<(), pasoletu::Refusal>(())
    /// ```
    pub fn factor(&mut self) -> Result<(), Refusal> {
        let status = unsafe { pasoletu_factor(self.floats_mut().as_mut_ptr(), Particle::FLOATS) };
        match status {
            0 => Ok(()),
            number => Err(self.refusal(number, "Particle::factor", None)),
        }
    }

    /// The refusal of this particle's factors, with the place where a float is not finite.
    pub(crate) fn refusal(&self, number: u8, call: &'static str, particle: Option<usize>) -> Refusal {
        let place = if number == Refusal::NOT_FINITE { self.first_not_finite() } else { None };
        Refusal { number, call, particle, place }
    }

    /// The floats in the record's order: F, U, sigma, V^T, the six scalars and the determinant.
    pub fn floats(&self) -> &[f64; Particle::FLOATS] {
        // The fields are the 37 floats in order, with no room between them.
        unsafe { &*(self as *const Particle).cast() }
    }

    /// The same floats, to be written.
    pub fn floats_mut(&mut self) -> &mut [f64; Particle::FLOATS] {
        unsafe { &mut *(self as *mut Particle).cast() }
    }

    /// The name of the first float that is NaN or infinite.
    pub fn first_not_finite(&self) -> Option<&'static str> {
        let k = self.floats().iter().position(|x| !x.is_finite())?;
        Some(table::PLACES[k])
    }
}

impl Default for Particle {
    fn default() -> Particle {
        Particle::REST
    }
}

impl From<[f64; Particle::FLOATS]> for Particle {
    fn from(floats: [f64; Particle::FLOATS]) -> Particle {
        let mut particle = Particle::REST;
        *particle.floats_mut() = floats;
        particle
    }
}

/// The floats before the determinant, which is filled in.
impl From<[f64; Particle::BARE]> for Particle {
    fn from(floats: [f64; Particle::BARE]) -> Particle {
        let mut particle = Particle::REST;
        particle.floats_mut()[..Particle::BARE].copy_from_slice(&floats);
        particle.with_determinant()
    }
}

const _: () = assert!(core::mem::size_of::<Particle>() == Particle::FLOATS * core::mem::size_of::<f64>());
const _: () = assert!(core::mem::align_of::<Particle>() == core::mem::align_of::<f64>());
