//! Why a law moves a particle, leaves it or refuses it (docs/RULES.md, section 7; the numbers of tests, steps and branches are those of docs/STEPS.md).
use crate::table::{self, pasoletu_why};
use crate::{Model, Particle, Refusal};

/// Which bound's step last changed a singular value, in bits.
#[derive(Copy, Clone, Debug, PartialEq, Eq)]
pub enum Bound {
    /// None did.
    Neither,
    /// 1 - `min_epsilon`.
    Lower,
    /// 1 + `max_epsilon`.
    Upper,
}

/// Where the first float stands that is not finite, counted from 0.
#[derive(Copy, Clone, Debug, PartialEq, Eq)]
pub enum Place {
    /// Among the law's parameters, flags too.
    Parameter(usize),
    /// Among the particle's 37 floats.
    Record(usize),
}

/// What [`Model::reason`] tells. Numbers that were compared are bits: they may be infinite.
#[derive(Copy, Clone, Debug, PartialEq, Eq)]
pub enum Reason {
    /// The last test that chose among the law's branches: it compared two numbers.
    Tested {
        /// Its number.
        test: u8,
        /// Whether it held.
        held: bool,
        /// The branch that it chose; 0 is untouched.
        branch: u8,
        /// The two numbers, in the order of the test.
        compared: [u64; 2],
    },
    /// The same of Drucker-Prager's zero test, with the three deviatoric entries.
    Zeros {
        /// Its number.
        test: u8,
        /// The branch.
        branch: u8,
        /// The three entries.
        compared: [u64; 3],
    },
    /// Left untouched by Drucker-Prager's flag.
    Flagged {
        /// Its number.
        test: u8,
    },
    /// Snow: the bound of each singular value.
    Clamped([Bound; 3]),
    /// The refusal that `update_particle` gives, the step that gave it and, for 1, the place.
    Refused {
        /// The refusal's number.
        number: u8,
        /// The step.
        step: u8,
        /// For 1 alone.
        place: Option<Place>,
    },
}

impl Model {
    /// Why the law moves this particle, leaves it or refuses it. It is refused itself only for what is no law.
    ///
    /// ```
    /// use pasoletu::{Bound, Model, Particle, Reason, SnowPlasticity};
    ///
    /// let mut particle = Particle::REST;
    /// particle.singular_values = [1.0, 0.5, 2.0];
    /// let reason = Model::Snow(SnowPlasticity::new()).reason(&particle)?;
    /// assert_eq!(reason, Reason::Clamped([Bound::Neither, Bound::Lower, Bound::Upper]));
    /// # Ok::<(), pasoletu::Refusal>(())
    /// ```
    pub fn reason(&self, particle: &Particle) -> Result<Reason, Refusal> {
        let p = self.parameters();
        let record = particle.floats();
        let mut words = [0; table::REASON];
        let status = unsafe {
            pasoletu_why(p.model, p.values.as_ptr(), p.count, record.as_ptr(), record.len(), words.as_mut_ptr(), words.len())
        };
        match status {
            0 => Ok(told(&words)),
            number => Err(Refusal::new(number, "Model::reason")),
        }
    }
}

fn told(words: &[u64; table::REASON]) -> Reason {
    let [kind, number, step, of, place, test, held, branch, a, b, c] = *words;
    let (test, branch, held) = (test as u8, branch as u8, held != 0);
    match kind {
        0 => Reason::Tested { test, held, branch, compared: [a, b] },
        1 => Reason::Zeros { test, branch, compared: [a, b, c] },
        2 => Reason::Flagged { test },
        3 => Reason::Clamped([a, b, c].map(|w| [Bound::Neither, Bound::Lower, Bound::Upper][w as usize])),
        _ => {
            let place = match of {
                1 => Some(Place::Parameter(place as usize)),
                2 => Some(Place::Record(place as usize)),
                _ => None,
            };
            Reason::Refused { number: number as u8, step: step as u8, place }
        }
    }
}
