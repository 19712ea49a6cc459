//! Sheets from and into a `Vec` (docs/RULES.md, section 7).
use crate::lists::{floats_of, read_sheet_into, written, Answer, Counts, Header, Pass};
use crate::table::{pasoletu_run_sheet, ANSWERS, SHEET_BYTES, SHEET_MOST};
use crate::vectors::belongs;
use crate::{Model, Particle, Passed, Refusal};
use alloc::vec;
use alloc::vec::Vec;

/// A sheet: read, or made of a law and particles.
#[derive(Clone, Debug, PartialEq)]
pub struct Sheet {
    /// The law that the sheet names.
    pub model: Model,
    /// Whether its bytes keep each particle's determinant (by the model's number). Where they don't, a reader fills it in.
    pub determinants: bool,
    /// Its particles, in order.
    pub particles: Vec<Particle>,
}

/// A sheet that was read and passed: the particles are as the pass left them.
#[derive(Clone, Debug, PartialEq)]
pub struct Ran {
    /// The law that the sheet names.
    pub model: Model,
    /// Whether the sheet keeps each particle's determinant.
    pub determinants: bool,
    /// Its particles after the pass, in order.
    pub particles: Vec<Particle>,
    /// What the pass did.
    pub passed: Passed,
}

fn read(call: &'static str, bytes: &[u8]) -> Result<Sheet, Refusal> {
    let mut particles = vec![Particle::REST; SHEET_MOST];
    let Header { model, determinants, count } = read_sheet_into(bytes, &mut particles).map_err(|r| r.of(call))?;
    particles.truncate(count);
    Ok(Sheet { model, determinants, particles })
}

/// Reads a sheet. Floats pass as bits: a NaN is read here and refused by the law. Refused by 4, 5, 6 and 7.
pub fn read_sheet(bytes: &[u8]) -> Result<Sheet, Refusal> {
    read("read_sheet", bytes)
}

/// Reads a sheet and passes its particles. Refused by 4, 5, 6 and 7; a refused particle is told in its outcome.
pub fn run_sheet(bytes: &[u8]) -> Result<Ran, Refusal> {
    const NAME: &str = "run_sheet";
    let Sheet { model, determinants, mut particles } = read(NAME, bytes)?;
    let mut answers = vec![Answer::default(); particles.len()];
    let mut counts = [0u64; 4];
    let (records, floats) = floats_of(&mut particles);
    let status = unsafe {
        let (a, words, c) = (answers.as_mut_ptr().cast(), answers.len() * ANSWERS, counts.as_mut_ptr());
        pasoletu_run_sheet(bytes.as_ptr(), bytes.len(), records, floats, a, words, c, 4)
    };
    belongs(if status == 0 { Ok(()) } else { Err(Refusal::new(status, NAME)) });
    let [_, untouched, stored, refused] = counts;
    let passed = Pass::plain(NAME, model).told(&particles, &answers, Counts { untouched, stored, refused, failed: 0 });
    Ok(Ran { model, determinants, particles, passed })
}

/// The bytes of a sheet. Floats pass as bits: a NaN is written here and refused by the law. The determinants are left out, and a reader
/// fills them in; [`read_sheet`] gives back every other bit, and a sheet that was read is written to the same bytes. Refused by 7 for
/// over [`SHEET_MOST`] particles.
///
/// ```
/// use pasoletu::{read_sheet, write_sheet, Particle, SnowPlasticity};
///
/// let bytes = write_sheet(SnowPlasticity::new(), &[Particle::REST])?;
/// assert_eq!(bytes.len(), 1 + 3 * 8 + 1 + 36 * 8);
/// assert_eq!(read_sheet(&bytes)?.bytes()?, bytes);
/// # Ok::<(), pasoletu::Refusal>(())
/// ```
pub fn write_sheet(model: impl Into<Model>, particles: &[Particle]) -> Result<Vec<u8>, Refusal> {
    write("write_sheet", model.into(), false, particles)
}

/// [`write_sheet`] with the determinants as they stand, 37 floats a particle: a sheet of the model's number + 4.
pub fn write_sheet_with_determinants(model: impl Into<Model>, particles: &[Particle]) -> Result<Vec<u8>, Refusal> {
    write("write_sheet_with_determinants", model.into(), true, particles)
}

fn write(call: &'static str, model: Model, determinants: bool, particles: &[Particle]) -> Result<Vec<u8>, Refusal> {
    let mut bytes = vec![0; SHEET_BYTES];
    let length = written(call, model, determinants, particles, &mut bytes)?;
    bytes.truncate(length);
    Ok(bytes)
}

impl Sheet {
    /// Its bytes, as [`write_sheet`] or [`write_sheet_with_determinants`] makes them.
    pub fn bytes(&self) -> Result<Vec<u8>, Refusal> {
        write("Sheet::bytes", self.model, self.determinants, &self.particles)
    }

    /// Writes its bytes to a file or another writer, or nothing where it is refused.
    #[cfg(feature = "std")]
    pub fn write(&self, to: &mut impl std::io::Write) -> std::io::Result<()> {
        let bytes = write("Sheet::write", self.model, self.determinants, &self.particles)
            .map_err(|r| std::io::Error::new(std::io::ErrorKind::Other, r))?;
        to.write_all(&bytes)
    }
}

impl Ran {
    /// The updated records as a sheet; a refused particle stands in it with every bit it had.
    pub fn sheet(&self) -> Sheet {
        Sheet { model: self.model, determinants: self.determinants, particles: self.particles.clone() }
    }
}
