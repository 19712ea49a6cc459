//! The passes, and the reading and writing of a sheet, in the caller's room (docs/RULES.md, section 7): nothing is allocated.
use crate::mode::held;
use crate::plasticity::{law_of, number_of, Parameters};
use crate::table::{
    pasoletu_factor_list, pasoletu_fill_determinants, pasoletu_pass, pasoletu_pass_factored, pasoletu_pass_factored_with_failure,
    pasoletu_pass_with_failure, pasoletu_read_sheet, pasoletu_write_sheet, ANSWERS, HEADER, HEADER_COUNT, HEADER_MODEL,
    HEADER_PARAMETERS, MOST_PARAMETERS, STORED, UNTOUCHED,
};
use crate::{CorotatedLinearElasticity, MaximumStressFailure, Model, Outcome, Particle, Refusal};

/// What a pass answers of one particle, as the library writes it.
#[derive(Copy, Clone, Debug, Default, PartialEq, Eq)]
#[repr(transparent)]
pub struct Answer([u64; ANSWERS]);

impl Answer {
    pub(crate) fn as_mut_ptr(&mut self) -> *mut u64 {
        self.0.as_mut_ptr()
    }

    /// What the law did to the particle, or the number of its refusal.
    pub fn outcome(&self) -> Result<Outcome, u8> {
        let [outcome, beside] = self.0;
        match outcome as usize {
            UNTOUCHED => Ok(Outcome::Untouched),
            STORED => Ok(Outcome::Stored(f64::from_bits(beside))),
            _ => Err(beside as u8),
        }
    }
}

/// How many particles of a pass became what.
#[derive(Copy, Clone, Debug, Default, PartialEq, Eq)]
pub struct Counts {
    /// Inside the yield surface.
    pub untouched: u64,
    /// Updated.
    pub stored: u64,
    /// Refused; they keep every bit.
    pub refused: u64,
    /// Of those not refused, failed in this pass; 0 in a pass without failure.
    pub failed: u64,
}

impl Counts {
    /// Both counts together.
    #[cfg(feature = "parallel")]
    pub(crate) fn and(self, other: Counts) -> Counts {
        Counts {
            untouched: self.untouched + other.untouched,
            stored: self.stored + other.stored,
            refused: self.refused + other.refused,
            failed: self.failed + other.failed,
        }
    }
}

/// What a pass with failure judges by, as the library takes it.
pub(crate) struct Judge {
    pub limits: [f64; 2],
    pub corotated: [f64; 4],
}

impl Judge {
    pub fn new(limits: &MaximumStressFailure, elasticity: &CorotatedLinearElasticity) -> Judge {
        Judge { limits: [limits.max_principal_stress, limits.max_shear_stress], corotated: elasticity.law() }
    }
}

/// A pass: the law, the judge where it is one with failure, and whether it factors each particle first.
pub(crate) struct Pass {
    pub call: &'static str,
    pub law: Parameters,
    pub judge: Option<Judge>,
    pub factored: bool,
}

impl Pass {
    pub fn plain(call: &'static str, model: impl Into<Model>) -> Pass {
        Pass { call, law: model.into().parameters(), judge: None, factored: false }
    }

    pub fn with_failure(call: &'static str, model: impl Into<Model>, judge: Judge) -> Pass {
        Pass { judge: Some(judge), ..Pass::plain(call, model) }
    }

    /// The same pass on the particles with the library's own factors.
    pub fn factored(self) -> Pass {
        Pass { factored: true, ..self }
    }

    /// Works the particles in one thread. Refused by 8 where there is not an answer for each.
    pub fn run(&self, particles: &mut [Particle], answers: &mut [Answer]) -> Result<Counts, Refusal> {
        held(self.call);
        let mut counts = [0u64; 4];
        let status = self.status(particles, answers, &mut counts);
        counted(status, counts, self.call)
    }

    fn status(&self, particles: &mut [Particle], answers: &mut [Answer], counts: &mut [u64; 4]) -> u8 {
        let (model, p, n) = (self.law.model, self.law.values.as_ptr(), self.law.count);
        let (records, floats) = floats_of(particles);
        let (a, words) = (answers.as_mut_ptr().cast(), answers.len() * ANSWERS);
        let counts = counts.as_mut_ptr();
        match &self.judge {
            None => {
                let pass = if self.factored { pasoletu_pass_factored } else { pasoletu_pass };
                unsafe { pass(model, p, n, records, floats, a, words, counts, 3) }
            }
            Some(judge) => {
                let pass = if self.factored { pasoletu_pass_factored_with_failure } else { pasoletu_pass_with_failure };
                let (limits, law) = (judge.limits.as_ptr(), judge.corotated.as_ptr());
                unsafe { pass(model, p, n, limits, 2, law, 4, records, floats, a, words, counts, 4) }
            }
        }
    }
}

/// The counts that a call wrote, or its refusal.
pub(crate) fn counted(status: u8, counts: [u64; 4], call: &'static str) -> Result<Counts, Refusal> {
    let [untouched, stored, refused, failed] = counts;
    match status {
        0 => Ok(Counts { untouched, stored, refused, failed }),
        number => Err(Refusal::new(number, call)),
    }
}

/// The particles as the library takes them.
pub(crate) fn floats_of(particles: &mut [Particle]) -> (*mut f64, usize) {
    (particles.as_mut_ptr().cast(), particles.len() * Particle::FLOATS)
}

/// The plastic law on every particle, with an answer for each in `answers`. The pass goes on after a refused particle, which keeps
/// every bit. Refused by 8, with nothing written, unless there are as many answers as particles.
///
/// ```
/// use pasoletu::{pass_into, Answer, Counts, Outcome, Particle, SnowPlasticity};
///
/// let mut particles = [Particle::REST, Particle::stretched([f64::NAN, 1.0, 1.0])];
/// let mut answers = [Answer::default(); 2];
/// let counts = pass_into(SnowPlasticity::new(), &mut particles, &mut answers)?;
/// assert_eq!((answers[0].outcome(), answers[1].outcome()), (Ok(Outcome::Stored(1.0)), Err(1)));
/// assert_eq!(counts, Counts { stored: 1, refused: 1, ..Counts::default() });
/// # Ok::<(), pasoletu::Refusal>(())
/// ```
pub fn pass_into(model: impl Into<Model>, particles: &mut [Particle], answers: &mut [Answer]) -> Result<Counts, Refusal> {
    Pass::plain("pass_into", model).run(particles, answers)
}

/// [`pass_into`] with failure: applies the law to each particle, judges the stress of what it leaves by the phase as it came, and sets
/// the phase to 0.0 on a yes. A refused law is not judged; a refused stress leaves the particle as it came.
pub fn pass_with_failure_into(
    model: impl Into<Model>,
    limits: &MaximumStressFailure,
    elasticity: &CorotatedLinearElasticity,
    particles: &mut [Particle],
    answers: &mut [Answer],
) -> Result<Counts, Refusal> {
    Pass::with_failure("pass_with_failure_into", model, Judge::new(limits, elasticity)).run(particles, answers)
}

/// [`pass_into`] on the particles with the library's own factors ([`Particle::factor`]): a host gives `deformation_gradient` and
/// `determinant`, and any finite `u`, `singular_values` and `v_t`. An untouched particle has the new factors; a refused one keeps every
/// bit, the factors that it had too.
pub fn pass_factored_into(
    model: impl Into<Model>,
    particles: &mut [Particle],
    answers: &mut [Answer],
) -> Result<Counts, Refusal> {
    Pass::plain("pass_factored_into", model).factored().run(particles, answers)
}

/// [`pass_with_failure_into`] on the particles with the library's own factors, as [`pass_factored_into`].
pub fn pass_factored_with_failure_into(
    model: impl Into<Model>,
    limits: &MaximumStressFailure,
    elasticity: &CorotatedLinearElasticity,
    particles: &mut [Particle],
    answers: &mut [Answer],
) -> Result<Counts, Refusal> {
    let judge = Judge::new(limits, elasticity);
    Pass::with_failure("pass_factored_with_failure_into", model, judge).factored().run(particles, answers)
}

/// [`Particle::factor`] on every particle, with an answer for each in `answers`: stored, with the amount 0.0, or refused. Refused by 8,
/// with nothing written, unless there are as many answers as particles.
pub fn factor_list_into(particles: &mut [Particle], answers: &mut [Answer]) -> Result<Counts, Refusal> {
    factor_by("factor_list_into", particles, answers)
}

pub(crate) fn factor_by(call: &'static str, particles: &mut [Particle], answers: &mut [Answer]) -> Result<Counts, Refusal> {
    held(call);
    let mut counts = [0u64; 4];
    let (records, floats) = floats_of(particles);
    let (a, words) = (answers.as_mut_ptr().cast(), answers.len() * ANSWERS);
    let status = unsafe { pasoletu_factor_list(records, floats, a, words, counts.as_mut_ptr(), 3) };
    counted(status, counts, call)
}

/// Makes each particle's `determinant` that of the `deformation_gradient` which stands there: for a host that has written F. It refuses
/// nothing: a determinant that is not finite goes in as worked, and the law refuses that particle by 1.
///
/// ```
/// use pasoletu::{fill_determinants, pass, Particle, SnowPlasticity};
///
/// let mut particles = [Particle::REST; 2];
/// particles[1].deformation_gradient[0][0] = 0.9;
/// assert_eq!(pass(SnowPlasticity::new(), &mut particles).outcomes[1].unwrap_err().number, 11);
/// fill_determinants(&mut particles);
/// assert_eq!(pass(SnowPlasticity::new(), &mut particles).stored, 2);
/// ```
pub fn fill_determinants(particles: &mut [Particle]) {
    held("fill_determinants");
    let (records, floats) = floats_of(particles);
    let status = unsafe { pasoletu_fill_determinants(records, floats) };
    assert!(status == 0, "fill_determinants answered {status}: crate and library are of different versions, build both anew");
}

/// What a sheet says of its particles.
#[derive(Copy, Clone, Debug, PartialEq)]
pub struct Header {
    /// The law that the sheet names.
    pub model: Model,
    /// Whether the sheet keeps each particle's determinant (by the model's number). Where it doesn't, the determinant was filled in.
    pub determinants: bool,
    /// How many particles it has.
    pub count: usize,
}

/// Reads a sheet into the first of the particles. [`SHEET_MOST`](crate::SHEET_MOST) are always enough room; the rest keeps its bits.
/// Floats pass as bits: a NaN is read here and refused by the law. Refused by 4, 5, 6 and 7, and by 8 for too little room.
pub fn read_sheet_into(bytes: &[u8], particles: &mut [Particle]) -> Result<Header, Refusal> {
    held("read_sheet_into");
    let mut header = [0u64; HEADER];
    let (records, floats) = floats_of(particles);
    let status = unsafe { pasoletu_read_sheet(bytes.as_ptr(), bytes.len(), header.as_mut_ptr(), HEADER, records, floats) };
    if status != 0 {
        return Err(Refusal::new(status, "read_sheet_into"));
    }
    let (model, parameters) = (header[HEADER_MODEL], &header[HEADER_PARAMETERS..HEADER_PARAMETERS + MOST_PARAMETERS]);
    Ok(Header {
        model: Model::of_sheet(model, parameters),
        determinants: law_of(model).1,
        count: header[HEADER_COUNT] as usize,
    })
}

/// Writes a sheet into the first of the bytes: how many it has. [`SHEET_BYTES`](crate::SHEET_BYTES) are always enough room; the rest
/// keeps what it held. Floats pass as bits: a NaN is written here and refused by the law. The determinants are left out, and a reader
/// fills them in. Refused, with nothing written, by 7 for over [`SHEET_MOST`](crate::SHEET_MOST) particles, and by 9 for too little
/// room.
pub fn write_sheet_into(model: impl Into<Model>, particles: &[Particle], bytes: &mut [u8]) -> Result<usize, Refusal> {
    written("write_sheet_into", model.into(), false, particles, bytes)
}

/// [`write_sheet_into`] with the determinants as they stand: a sheet of the model's number + 4.
pub fn write_sheet_with_determinants_into(
    model: impl Into<Model>,
    particles: &[Particle],
    bytes: &mut [u8],
) -> Result<usize, Refusal> {
    written("write_sheet_with_determinants_into", model.into(), true, particles, bytes)
}

pub(crate) fn written(
    call: &'static str,
    model: Model,
    determinants: bool,
    particles: &[Particle],
    bytes: &mut [u8],
) -> Result<usize, Refusal> {
    let law = model.parameters();
    let number = number_of(law.model, determinants);
    let (records, floats) = (particles.as_ptr().cast(), particles.len() * Particle::FLOATS);
    let mut written = 0u64;
    let status = unsafe {
        let (p, b) = (law.values.as_ptr(), bytes.as_mut_ptr());
        pasoletu_write_sheet(number, p, law.count, records, floats, b, bytes.len(), &mut written, 1)
    };
    if status != 0 {
        return Err(Refusal::new(status, call));
    }
    Ok(written as usize)
}
