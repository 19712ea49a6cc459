use crate::table;
use core::fmt;

/// Why a call or a particle was refused (docs/RULES.md, section 6). Whatever was refused holds every bit it held.
///
/// Its text says what was refused, where, and what to do.
#[derive(Copy, Clone, Debug, PartialEq, Eq)]
pub struct Refusal {
    /// The number: one of the constants below.
    pub number: u8,
    /// The call that refused.
    pub call: &'static str,
    /// Which particle of a list, where one was refused.
    pub particle: Option<usize>,
    /// Of [`Refusal::NOT_FINITE`]: the first float that is not finite, parameters of the law first.
    pub place: Option<&'static str>,
}

impl Refusal {
    pub(crate) fn new(number: u8, call: &'static str) -> Refusal {
        Refusal { number, call, particle: None, place: None }
    }

    /// The same refusal, told of another call.
    pub(crate) fn of(self, call: &'static str) -> Refusal {
        Refusal { call, ..self }
    }

    /// What the number means.
    pub fn what(&self) -> &'static str {
        table::words(self.number).map_or("not a refusal of this library", |(what, _)| what)
    }

    /// What to do about it.
    pub fn remedy(&self) -> &'static str {
        table::words(self.number).map_or("build crate and library from the same version", |(_, remedy)| remedy)
    }
}

impl fmt::Display for Refusal {
    fn fmt(&self, out: &mut fmt::Formatter<'_>) -> fmt::Result {
        write!(out, "{} refused", self.call)?;
        if let Some(particle) = self.particle {
            write!(out, " particle {particle}")?;
        }
        write!(out, " by {}: {}", self.number, self.what())?;
        if let Some(place) = self.place {
            write!(out, ", first {place}")?;
        }
        write!(out, "; {}", self.remedy())
    }
}

#[cfg(feature = "std")]
impl std::error::Error for Refusal {}
