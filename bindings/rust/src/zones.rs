//! Tallies by zone (docs/RULES.md, section 7), in the caller's room: nothing is allocated.
use crate::lists::{floats_of, Answer, Judge};
use crate::mode::held;
use crate::plasticity::Parameters;
use crate::table::{
    pasoletu_clear_tallies, pasoletu_move_particle, pasoletu_pass_by_zone, pasoletu_pass_with_failure_by_zone, ANSWERS,
};
use crate::{CorotatedLinearElasticity, MaximumStressFailure, Model, Particle, Refusal};

const FIELDS: usize = 5;

/// One zone: particles now, and how many of each outcome happened in it since the tallies were cleared.
#[derive(Copy, Clone, Debug, Default, PartialEq, Eq)]
#[repr(C)]
pub struct Tally {
    /// Particles now.
    pub particles: u64,
    /// Inside the yield surface, so far.
    pub untouched: u64,
    /// Updated, so far.
    pub stored: u64,
    /// Refused, so far.
    pub refused: u64,
    /// Of those not refused, failed, so far.
    pub failed: u64,
}

/// The zone of each particle of a list, and a tally a zone, at most 256. A refused call changes nothing.
///
/// ```
/// use pasoletu::{Answer, Particle, SnowPlasticity, Tally, Zones};
///
/// let (mut of_each, mut tallies) = ([1, 1, 0], [Tally::default(); 2]);
/// let mut zones = Zones::new(&mut of_each, &mut tallies)?;
/// let mut particles = [Particle::REST; 3];
/// zones.pass_into(SnowPlasticity::new(), &mut particles, &mut [Answer::default(); 3])?;
/// zones.move_particle(1, 0)?;
/// assert_eq!((zones.tallies()[1].particles, zones.tallies()[1].stored), (1, 2));
/// # Ok::<(), pasoletu::Refusal>(())
/// ```
#[derive(Debug)]
pub struct Zones<'a> {
    zones: &'a mut [u64],
    tallies: &'a mut [Tally],
}

impl<'a> Zones<'a> {
    /// A zone number for each particle, and cleared tallies. Refused by 12 for over 256 tallies or a zone without one.
    pub fn new(zones: &'a mut [u64], tallies: &'a mut [Tally]) -> Result<Zones<'a>, Refusal> {
        let mut made = Zones { zones, tallies };
        made.clear()?;
        Ok(made)
    }

    /// Zones and tallies as earlier calls left them: nothing is cleared, and each call looks at their range by itself.
    pub fn resumed(zones: &'a mut [u64], tallies: &'a mut [Tally]) -> Zones<'a> {
        Zones { zones, tallies }
    }

    /// The zone of each particle.
    pub fn zones(&self) -> &[u64] {
        self.zones
    }

    /// The tally of each zone.
    pub fn tallies(&self) -> &[Tally] {
        self.tallies
    }

    /// Clears the four numbers so far, and counts the particles now.
    pub fn clear(&mut self) -> Result<(), Refusal> {
        let (zones, n) = (self.zones.as_ptr(), self.zones.len());
        let (words, count) = self.words();
        done("Zones::clear", unsafe { pasoletu_clear_tallies(n as u64, zones, n, words, count) })
    }

    /// Moves one particle, counted from 0, to another zone. What happened to it before stays where it happened.
    pub fn move_particle(&mut self, particle: u64, zone: u64) -> Result<(), Refusal> {
        let (zones, n) = (self.zones.as_mut_ptr(), self.zones.len());
        let (words, count) = self.words();
        let status = unsafe { pasoletu_move_particle(n as u64, particle, zone, zones, n, words, count) };
        done("Zones::move_particle", status)
    }

    /// [`pass_into`](crate::pass_into), with each outcome added to its zone's tally. Refused by 13, before any particle, where a tally
    /// would pass its end.
    pub fn pass_into(
        &mut self,
        model: impl Into<Model>,
        particles: &mut [Particle],
        answers: &mut [Answer],
    ) -> Result<(), Refusal> {
        self.pass("Zones::pass_into", model.into().parameters(), None, particles, answers)
    }

    /// [`pass_with_failure_into`](crate::pass_with_failure_into), with each outcome added to its zone's tally.
    pub fn pass_with_failure_into(
        &mut self,
        model: impl Into<Model>,
        limits: &MaximumStressFailure,
        elasticity: &CorotatedLinearElasticity,
        particles: &mut [Particle],
        answers: &mut [Answer],
    ) -> Result<(), Refusal> {
        let judge = Judge::new(limits, elasticity);
        self.pass("Zones::pass_with_failure_into", model.into().parameters(), Some(judge), particles, answers)
    }

    fn pass(
        &mut self,
        call: &'static str,
        law: Parameters,
        judge: Option<Judge>,
        particles: &mut [Particle],
        answers: &mut [Answer],
    ) -> Result<(), Refusal> {
        held(call);
        let (model, p, n) = (law.model, law.values.as_ptr(), law.count);
        let (records, floats) = floats_of(particles);
        let (a, places) = (answers.as_mut_ptr().cast(), answers.len() * ANSWERS);
        let (zones, k) = (self.zones.as_ptr(), self.zones.len());
        let (words, count) = self.words();
        let status = match judge {
            None => unsafe { pasoletu_pass_by_zone(model, p, n, zones, k, records, floats, a, places, words, count) },
            Some(judge) => unsafe {
                let (l, e) = (judge.limits.as_ptr(), judge.corotated.as_ptr());
                pasoletu_pass_with_failure_by_zone(
                    model, p, n, l, 2, e, 4, zones, k, records, floats, a, places, words, count,
                )
            },
        };
        done(call, status)
    }

    fn words(&mut self) -> (*mut u64, usize) {
        (self.tallies.as_mut_ptr().cast(), self.tallies.len() * FIELDS)
    }
}

fn done(call: &'static str, status: u8) -> Result<(), Refusal> {
    match status {
        0 => Ok(()),
        number => Err(Refusal::new(number, call)),
    }
}
