//! The four plastic laws and the choice among them.
use crate::calls::{all_finite, flag, floats, number};
use crate::math::{Real, Vector};
use crate::table::{
    self, pasoletu_drucker_prager_alpha, pasoletu_nacc_friction, pasoletu_rankine_project, pasoletu_snow_clamp, pasoletu_update,
    Law,
};
use crate::{utils, Answer, Particle, Refusal};

/// What a plastic law did to a particle.
#[derive(Copy, Clone, Debug, PartialEq)]
pub enum Outcome {
    /// Inside the yield surface: nothing changed.
    Untouched,
    /// Updated. The amount is the law's own (docs/RULES.md, section 5): Snow's elastic hardening, Rankine's plastic hardening, and so on.
    Stored(f64),
}

/// Snow: each singular value is clamped (plasticity_snow.rs).
#[derive(Copy, Clone, Debug, PartialEq)]
pub struct SnowPlasticity {
    /// How far below 1 a singular value may lie.
    pub min_epsilon: Real,
    /// How far above 1 a singular value may lie.
    pub max_epsilon: Real,
    /// How fast snow hardens as it is packed; typically between 3 and 10.
    pub hardening_coeff: Real,
}

impl SnowPlasticity {
    /// The defaults: 0.025, 0.0045 and 10.
    #[allow(clippy::new_without_default)]
    pub fn new() -> Self {
        SnowPlasticity {
            min_epsilon: table::SNOW_MIN_EPSILON,
            max_epsilon: table::SNOW_MAX_EPSILON,
            hardening_coeff: table::SNOW_HARDENING_COEFF,
        }
    }

    /// The bare clamp, with no refusal: of a NaN it is the lower bound, as in the Rust.
    pub fn project_deformation_gradient(&self, singular_values: Vector<Real>) -> Vector<Real> {
        floats("SnowPlasticity::project_deformation_gradient", |out, n| unsafe {
            let sigma = singular_values.as_ptr();
            pasoletu_snow_clamp(self.min_epsilon, self.max_epsilon, self.hardening_coeff, sigma, 3, out, n)
        })
        .expect("the bare clamp refuses nothing")
    }

    /// Stores F with its determinant, sigma, the plastic determinant and the elastic hardening, which is the amount.
    pub fn update_particle(&self, particle: &mut Particle) -> Result<Outcome, Refusal> {
        Model::Snow(*self).update_particle(particle)
    }
}

/// Rankine: log strains are returned to the tensile surface (plasticity_rankine.rs). Holds the arguments of `new`.
#[derive(Copy, Clone, Debug, PartialEq)]
pub struct RankinePlasticity {
    arguments: [Real; 4],
}

impl RankinePlasticity {
    /// Refused by 1 for an argument and by 3 for a modulus that is not finite.
    pub fn new(young_modulus: Real, poisson_ratio: Real, tensile_strength: Real, softening_rate: Real) -> Result<Self, Refusal> {
        const NAME: &str = "RankinePlasticity::new";
        let arguments = [young_modulus, poisson_ratio, tensile_strength, softening_rate];
        given(&arguments, NAME)?;
        utils::lame_lambda_mu(young_modulus, poisson_ratio).map_err(|r| r.of(NAME))?;
        Ok(Self { arguments })
    }

    /// The projection of log strains by itself, at the softened strength s; the strains keep their order. Refused by 1 for
    /// an input and by 3 for a NaN on the way or a strain that is not finite.
    pub fn project(&self, strains: Vector<Real>, s: Real) -> Result<Vector<Real>, Refusal> {
        floats("RankinePlasticity::project", |out, n| unsafe {
            pasoletu_rankine_project(self.arguments.as_ptr(), 4, s, strains.as_ptr(), 3, out, n)
        })
    }

    /// Stores F with its determinant, sigma and the plastic hardening, which is the amount.
    pub fn update_particle(&self, particle: &mut Particle) -> Result<Outcome, Refusal> {
        Model::Rankine(*self).update_particle(particle)
    }
}

/// Drucker-Prager: log strains are returned to a cone (plasticity_drucker_prager.rs).
#[derive(Copy, Clone, Debug, PartialEq)]
pub struct DruckerPragerPlasticity {
    /// The friction angle, in radians, is h0 + (h1 q - h3) exp(-h2 q) at the plastic hardening q.
    pub h0: Real,
    /// See `h0`.
    pub h1: Real,
    /// See `h0`.
    pub h2: Real,
    /// See `h0`.
    pub h3: Real,
    /// The first Lamé parameter.
    pub lambda: Real,
    /// The second Lamé parameter.
    pub mu: Real,
    /// Whether the law leaves a particle alone whose phase is not 0.0.
    pub only_active_when_failed: bool,
    /// How much of a loss of volume the determinant and the gain are told: 1.0 all of it, 0.0 nothing.
    pub volume_correction: Real,
}

impl DruckerPragerPlasticity {
    /// The defaults with these moduli. Refused by 1 for an argument and by 3 for a modulus that is not finite.
    pub fn new(young_modulus: Real, poisson_ratio: Real) -> Result<Self, Refusal> {
        let (lambda, mu) =
            utils::lame_lambda_mu(young_modulus, poisson_ratio).map_err(|r| r.of("DruckerPragerPlasticity::new"))?;
        Ok(DruckerPragerPlasticity {
            h0: table::DRUCKER_PRAGER_H0,
            h1: table::DRUCKER_PRAGER_H1,
            h2: table::DRUCKER_PRAGER_H2,
            h3: table::DRUCKER_PRAGER_H3,
            lambda,
            mu,
            only_active_when_failed: false,
            volume_correction: table::DRUCKER_PRAGER_VOLUME_CORRECTION,
        })
    }

    fn fields(&self) -> [Real; 8] {
        let active = flag(self.only_active_when_failed);
        [self.h0, self.h1, self.h2, self.h3, self.lambda, self.mu, active, self.volume_correction]
    }

    /// The slope of the cone at the plastic hardening q. Refused by 1, 2, 3 and 10.
    pub fn alpha(&self, q: Real) -> Result<Real, Refusal> {
        number("DruckerPragerPlasticity::alpha", |out, n| unsafe {
            pasoletu_drucker_prager_alpha(self.fields().as_ptr(), 8, q, out, n)
        })
    }

    /// Stores F with its determinant, sigma, the plastic determinant, the plastic hardening and the log gain. The amount is dq.
    pub fn update_particle(&self, particle: &mut Particle) -> Result<Outcome, Refusal> {
        Model::DruckerPrager(*self).update_particle(particle)
    }
}

/// Non-associated Cam-Clay (plasticity_nacc.rs). Holds the arguments of `with_m`, and whether m is that of an angle in three axes.
#[derive(Copy, Clone, Debug, PartialEq)]
pub struct NaccPlasticity {
    arguments: [Real; 6],
    angled: bool,
}

impl NaccPlasticity {
    /// Refused by 1 for an argument and by 3 for a modulus that is not finite.
    pub fn with_m(
        young_modulus: Real,
        poisson_ratio: Real,
        cohesion: Real,
        hardening_enabled: bool,
        hardening_factor: Real,
        m: Real,
    ) -> Result<Self, Refusal> {
        const NAME: &str = "NaccPlasticity::with_m";
        let arguments = [young_modulus, poisson_ratio, cohesion, flag(hardening_enabled), hardening_factor, m];
        given(&arguments, NAME)?;
        utils::shear_modulus(young_modulus, poisson_ratio).map_err(|r| r.of(NAME))?;
        utils::bulk_modulus(young_modulus, poisson_ratio).map_err(|r| r.of(NAME))?;
        Ok(Self { arguments, angled: false })
    }

    /// The friction from an angle in radians, for particles of three axes: a flat call refuses this law by 6, since in two axes the
    /// same angle has another m ([`FlatNaccPlasticity`]). Also refused by 2 below the sine's range, -8 to 8, and by 10 above it.
    pub fn new(
        young_modulus: Real,
        poisson_ratio: Real,
        cohesion: Real,
        hardening_enabled: bool,
        hardening_factor: Real,
        friction_angle: Real,
    ) -> Result<Self, Refusal> {
        let law = Self::with_m(young_modulus, poisson_ratio, cohesion, hardening_enabled, hardening_factor, friction_angle);
        let arguments = law.and_then(|law| angled(3, law.arguments)).map_err(|r| r.of("NaccPlasticity::new"))?;
        Ok(Self { arguments, angled: true })
    }

    /// Stores F with its determinant, sigma and alpha, which is the amount.
    pub fn update_particle(&self, particle: &mut Particle) -> Result<Outcome, Refusal> {
        Model::Nacc(*self).update_particle(particle)
    }
}

/// The arguments with the m of the angle that stands in its place.
fn angled(axes: u64, arguments: [Real; 6]) -> Result<[Real; 6], Refusal> {
    let [young, poisson, cohesion, enabled, factor, angle] = arguments;
    let m = number("nacc_friction", |out, n| unsafe { pasoletu_nacc_friction(axes, angle, out, n) })?;
    Ok([young, poisson, cohesion, enabled, factor, m])
}

/// Non-associated Cam-Clay made by a friction angle in two axes: [`FlatParticle::update`](crate::FlatParticle::update) and
/// [`flat_pass_into`](crate::flat_pass_into) take it, and no call on particles of three axes does. By m the law is one,
/// [`NaccPlasticity::with_m`], for either.
#[derive(Copy, Clone, Debug, PartialEq)]
pub struct FlatNaccPlasticity {
    arguments: [Real; 6],
}

impl FlatNaccPlasticity {
    /// The friction from an angle in radians; refused as [`NaccPlasticity::new`].
    pub fn new(
        young_modulus: Real,
        poisson_ratio: Real,
        cohesion: Real,
        hardening_enabled: bool,
        hardening_factor: Real,
        friction_angle: Real,
    ) -> Result<Self, Refusal> {
        let law =
            NaccPlasticity::with_m(young_modulus, poisson_ratio, cohesion, hardening_enabled, hardening_factor, friction_angle);
        let arguments = law.and_then(|law| angled(2, law.arguments)).map_err(|r| r.of("FlatNaccPlasticity::new"))?;
        Ok(Self { arguments })
    }

    /// The angle's m.
    pub fn m(&self) -> Real {
        self.arguments[5]
    }
}

/// What a flat call takes: one of the four plastic laws, or NACC made by an angle in two axes.
#[derive(Copy, Clone, Debug, PartialEq)]
pub enum FlatModel {
    /// A law that has the same parameters in two axes and three.
    Law(Model),
    /// Non-associated Cam-Clay by an angle in two axes.
    Nacc(FlatNaccPlasticity),
}

impl FlatModel {
    /// Refused by 6 where m is that of an angle in three axes.
    pub(crate) fn parameters(&self, call: &'static str) -> Result<Parameters, Refusal> {
        match self {
            FlatModel::Law(Model::Nacc(law)) if law.angled => {
                let place = Some("the law's m, which is that of an angle in three axes");
                Err(Refusal { number: Refusal::UNKNOWN, call, particle: None, place })
            }
            FlatModel::Law(law) => Ok(law.parameters()),
            FlatModel::Nacc(law) => Ok(Parameters::new(table::NACC, &law.arguments)),
        }
    }
}

impl From<FlatNaccPlasticity> for FlatModel {
    fn from(law: FlatNaccPlasticity) -> FlatModel {
        FlatModel::Nacc(law)
    }
}

impl<L: Into<Model>> From<L> for FlatModel {
    fn from(law: L) -> FlatModel {
        FlatModel::Law(law.into())
    }
}

fn given(arguments: &[f64], call: &'static str) -> Result<(), Refusal> {
    if all_finite(arguments) {
        Ok(())
    } else {
        Err(Refusal::new(Refusal::NOT_FINITE, call))
    }
}

/// One of the four plastic laws: what a pass and a sheet take.
#[derive(Copy, Clone, Debug, PartialEq)]
pub enum Model {
    /// Snow.
    Snow(SnowPlasticity),
    /// Rankine.
    Rankine(RankinePlasticity),
    /// Drucker-Prager.
    DruckerPrager(DruckerPragerPlasticity),
    /// Non-associated Cam-Clay.
    Nacc(NaccPlasticity),
}

/// A law's number and parameters, as the C calls take them; unused places are 0.
pub(crate) struct Parameters {
    pub model: u64,
    pub values: [f64; table::MOST_PARAMETERS],
    pub count: usize,
    names: &'static [&'static str],
}

impl Parameters {
    fn new(law: Law, given: &[f64]) -> Parameters {
        let mut values = [0.0; table::MOST_PARAMETERS];
        values[..given.len()].copy_from_slice(given);
        Parameters { model: law.number, values, count: given.len(), names: law.names }
    }

    /// The refusal of a particle by this law, with the place where an input is not finite.
    pub fn refusal(&self, number: u8, call: &'static str, particle: Option<usize>, of: &Particle) -> Refusal {
        let parameter = || self.values[..self.count].iter().position(|x| !x.is_finite()).map(|k| self.names[k]);
        let place = if number == Refusal::NOT_FINITE { parameter().or_else(|| of.first_not_finite()) } else { None };
        Refusal { number, call, particle, place }
    }
}

/// The law's own number of a sheet's model, and whether the sheet's records end with the determinant. A number of no law is refused by 6 before.
pub(crate) fn law_of(model: u64) -> (u64, bool) {
    let row = table::NUMBERS.iter().find(|row| row.0 == model || row.1 == model);
    row.map_or((model, false), |row| (row.0, row.1 == model))
}

/// The number of a law's sheets, with determinants or without.
pub(crate) fn number_of(law: u64, determinants: bool) -> u64 {
    table::NUMBERS.iter().find(|row| determinants && row.0 == law).map_or(law, |row| row.1)
}

impl Model {
    pub(crate) fn parameters(&self) -> Parameters {
        match self {
            Model::Snow(law) => Parameters::new(table::SNOW, &[law.min_epsilon, law.max_epsilon, law.hardening_coeff]),
            Model::Rankine(law) => Parameters::new(table::RANKINE, &law.arguments),
            Model::DruckerPrager(law) => Parameters::new(table::DRUCKER_PRAGER, &law.fields()),
            Model::Nacc(law) => Parameters::new(table::NACC, &law.arguments),
        }
    }

    /// The law that a sheet names: its number, of a sheet with determinants or without, and the parameters' bits.
    pub(crate) fn of_sheet(model: u64, bits: &[u64]) -> Model {
        let p = |k: usize| f64::from_bits(bits[k]);
        match law_of(model).0 {
            0 => Model::Snow(SnowPlasticity { min_epsilon: p(0), max_epsilon: p(1), hardening_coeff: p(2) }),
            1 => Model::Rankine(RankinePlasticity { arguments: [p(0), p(1), p(2), p(3)] }),
            2 => Model::DruckerPrager(DruckerPragerPlasticity {
                h0: p(0),
                h1: p(1),
                h2: p(2),
                h3: p(3),
                lambda: p(4),
                mu: p(5),
                only_active_when_failed: bits[6] != 0,
                volume_correction: p(7),
            }),
            3 => Model::Nacc(NaccPlasticity { arguments: [p(0), p(1), p(2), p(3), p(4), p(5)], angled: false }),
            _ => unreachable!("a sheet with another number is refused by 6"),
        }
    }

    /// The law on one particle. A refused particle keeps every bit.
    pub fn update_particle(&self, particle: &mut Particle) -> Result<Outcome, Refusal> {
        let p = self.parameters();
        let mut answer = Answer::default();
        let status = unsafe {
            let (record, answer) = (particle.floats_mut().as_mut_ptr(), answer.as_mut_ptr());
            pasoletu_update(p.model, p.values.as_ptr(), p.count, record, Particle::FLOATS, answer, table::ANSWERS)
        };
        let answer = if status == 0 { answer.outcome() } else { Err(status) };
        answer.map_err(|number| p.refusal(number, "update_particle", None, particle))
    }
}

impl From<SnowPlasticity> for Model {
    fn from(law: SnowPlasticity) -> Model {
        Model::Snow(law)
    }
}

impl From<RankinePlasticity> for Model {
    fn from(law: RankinePlasticity) -> Model {
        Model::Rankine(law)
    }
}

impl From<DruckerPragerPlasticity> for Model {
    fn from(law: DruckerPragerPlasticity) -> Model {
        Model::DruckerPrager(law)
    }
}

impl From<NaccPlasticity> for Model {
    fn from(law: NaccPlasticity) -> Model {
        Model::Nacc(law)
    }
}
