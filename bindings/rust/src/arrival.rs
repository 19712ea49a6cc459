//! Sheets that come in parts, over a slow line (docs/RULES.md, section 7).
use crate::lists::{floats_of, Answer, Counts, Pass};
use crate::mode::held;
use crate::plasticity::law_of;
use crate::table::{
    pasoletu_begin_parts, pasoletu_end_parts, pasoletu_part, ANSWERS, MOST_PARAMETERS, PARTS_COMPLETE, PARTS_COUNT,
    PARTS_PROGRESS, PARTS_STATE, PARTS_STATE_MODEL, PARTS_STATE_PARAMETERS, PARTS_STATE_WANTS, SHEET_MOST,
};
use crate::vectors::belongs;
use crate::{Model, Particle, Ran, Refusal};
use alloc::vec;
use alloc::vec::Vec;

/// A sheet whose bytes come in parts, cut anywhere: each particle is passed by the sheet's law when its last byte comes.
///
/// ```
/// use pasoletu::{run_sheet, write_sheet, Arrival, Particle, SnowPlasticity};
///
/// let bytes = write_sheet(SnowPlasticity::new(), &[Particle::REST; 3])?;
/// let mut arrival = Arrival::new();
/// for part in bytes.chunks(100) {
///     arrival.feed(part)?;
/// }
/// assert_eq!(arrival.finish()?, run_sheet(&bytes)?);
/// # Ok::<(), pasoletu::Refusal>(())
/// ```
#[derive(Clone, Debug)]
pub struct Arrival {
    state: [u64; PARTS_STATE],
    progress: [u64; PARTS_PROGRESS],
    particles: Vec<Particle>,
    answers: Vec<Answer>,
}

impl Arrival {
    /// Before the first byte.
    pub fn new() -> Arrival {
        let mut state = [0; PARTS_STATE];
        let status = unsafe { pasoletu_begin_parts(state.as_mut_ptr(), PARTS_STATE) };
        belongs(told(status, "Arrival::new"));
        Arrival {
            state,
            progress: [0; PARTS_PROGRESS],
            particles: vec![Particle::REST; SHEET_MOST],
            answers: vec![Answer::default(); SHEET_MOST],
        }
    }

    /// The next bytes, as many as came, or none: how many particles are complete. Refused by 5, 6 and 7 as soon as the fault is there,
    /// by the same number after it, and by 15 after the end; the particles complete before a fault stand.
    pub fn feed(&mut self, bytes: &[u8]) -> Result<usize, Refusal> {
        held("Arrival::feed");
        let (records, floats) = floats_of(&mut self.particles);
        let status = unsafe {
            let (state, progress) = (self.state.as_mut_ptr(), self.progress.as_mut_ptr());
            let (answers, words) = (self.answers.as_mut_ptr().cast(), SHEET_MOST * ANSWERS);
            let (s, p) = (PARTS_STATE, PARTS_PROGRESS);
            pasoletu_part(bytes.as_ptr(), bytes.len(), state, s, records, floats, answers, words, progress, p)
        };
        told(status, "Arrival::feed").map(|()| self.complete())
    }

    /// The sheet has ended: what [`crate::run_sheet`] gives of the whole. Refused by 4 where something is missing, told only here and
    /// again by every later call, by a fault's own number, and by 15 after an end that gave a sheet.
    pub fn finish(&mut self) -> Result<Ran, Refusal> {
        let (records, floats) = floats_of(&mut self.particles);
        let status = unsafe {
            let (state, progress) = (self.state.as_mut_ptr(), self.progress.as_mut_ptr());
            let (answers, words) = (self.answers.as_ptr().cast(), SHEET_MOST * ANSWERS);
            pasoletu_end_parts(records, floats, answers, words, state, PARTS_STATE, progress, PARTS_PROGRESS)
        };
        told(status, "Arrival::finish")?;
        Ok(self.ran().expect("a sheet that was ended names its law"))
    }

    /// How many particles are complete.
    pub fn complete(&self) -> usize {
        self.progress[PARTS_COMPLETE] as usize
    }

    /// How many the sheet says it has, where that is known.
    pub fn count(&self) -> Option<usize> {
        self.known().then(|| self.progress[PARTS_COUNT] as usize)
    }

    /// The law, where it is known.
    pub fn model(&self) -> Option<Model> {
        let bits = &self.state[PARTS_STATE_PARAMETERS..PARTS_STATE_PARAMETERS + MOST_PARAMETERS];
        self.known().then(|| Model::of_sheet(self.state[PARTS_STATE_MODEL], bits))
    }

    /// The complete particles as the law left them.
    pub fn particles(&self) -> &[Particle] {
        &self.particles[..self.complete()]
    }

    /// The complete particles' answers.
    pub fn answers(&self) -> &[Answer] {
        &self.answers[..self.complete()]
    }

    /// The complete particles with the law and the outcomes, where the law is known.
    pub fn ran(&self) -> Option<Ran> {
        let model = self.model()?;
        let mut counts = Counts::default();
        for answer in self.answers() {
            match answer.outcome() {
                Ok(crate::Outcome::Untouched) => counts.untouched += 1,
                Ok(crate::Outcome::Stored(_)) => counts.stored += 1,
                Err(_) => counts.refused += 1,
            }
        }
        let passed = Pass::plain("Arrival::ran", model).told(self.particles(), self.answers(), counts);
        let determinants = law_of(self.state[PARTS_STATE_MODEL]).1;
        Some(Ran { model, determinants, particles: self.particles().to_vec(), passed })
    }

    fn known(&self) -> bool {
        self.state[PARTS_STATE_WANTS] == 0
    }
}

impl Default for Arrival {
    fn default() -> Arrival {
        Arrival::new()
    }
}

/// A write feeds; nothing is held back.
#[cfg(feature = "std")]
impl std::io::Write for Arrival {
    fn write(&mut self, bytes: &[u8]) -> std::io::Result<usize> {
        self.feed(bytes).map_err(|r| std::io::Error::new(std::io::ErrorKind::Other, r))?;
        Ok(bytes.len())
    }

    fn flush(&mut self) -> std::io::Result<()> {
        Ok(())
    }
}

fn told(status: u8, call: &'static str) -> Result<(), Refusal> {
    if status == 0 {
        Ok(())
    } else {
        Err(Refusal::new(status, call))
    }
}
