//! The report over particles, and two reports put together (docs/RULES.md, section 7).
use crate::mode::held;
use crate::table::{pasoletu_join_reports, pasoletu_report, REPORT};
use crate::{Particle, Refusal};

/// A column of a [`Report`]. Each counted value is taken down, towards minus infinity, to the next whole multiple of 2^-30; `least`,
/// `greatest` and `total` are of those whole numbers, so that no digit of them depends on the machine. Of no value they are 0.
#[derive(Copy, Clone, Debug, Default, PartialEq, Eq)]
#[repr(C)]
pub struct Column {
    /// How many values are counted.
    pub count: u64,
    /// The least whole number of 2^-30.
    pub least: i64,
    /// The greatest.
    pub greatest: i64,
    /// Their sum.
    pub total: i64,
    /// How many values lie not within 2^20 of zero; they are counted only here.
    pub outside: u64,
    /// How many are NaN or infinite; they are counted only here.
    pub not_finite: u64,
}

/// What [`report`] tells of particles. [`Report::default`] is that of none.
#[derive(Copy, Clone, Debug, Default, PartialEq, Eq)]
#[repr(C)]
pub struct Report {
    /// Of the plastic hardening.
    pub plastic_hardening: Column,
    /// Of the elastic hardening.
    pub elastic_hardening: Column,
    /// Of the determinant of the plastic deformation gradient.
    pub plastic_determinant: Column,
}

/// The report over particles. No value is refused. Refused by 16 for over [`REPORT_MOST`](crate::REPORT_MOST) particles.
///
/// ```
/// use pasoletu::{report, Column, Particle};
///
/// let mut particles = [Particle::REST; 3];
/// particles[1].plastic_hardening = -0.1;
/// particles[2].plastic_hardening = f64::NAN;
/// let column = report(&particles)?.plastic_hardening;
/// assert_eq!(
///     column,
///     Column { count: 2, least: -107374183, greatest: 1 << 30, total: 966367641, outside: 0, not_finite: 1 }
/// );
/// # Ok::<(), pasoletu::Refusal>(())
/// ```
pub fn report(particles: &[Particle]) -> Result<Report, Refusal> {
    held("report");
    let (records, floats) = (particles.as_ptr().cast(), particles.len() * Particle::FLOATS);
    written("report", |room| unsafe { pasoletu_report(records, floats, room, REPORT) })
}

impl Report {
    /// Both reports together: what [`report`] tells of the particles of both. Refused by 16 where these are over
    /// [`REPORT_MOST`](crate::REPORT_MOST).
    pub fn joined(&self, other: &Report) -> Result<Report, Refusal> {
        let (a, b) = (self.words(), other.words());
        written("Report::joined", |room| unsafe { pasoletu_join_reports(a, REPORT, b, REPORT, room, REPORT) })
    }

    fn words(&self) -> *const u64 {
        (self as *const Report).cast()
    }
}

fn written(name: &'static str, call: impl FnOnce(*mut u64) -> u8) -> Result<Report, Refusal> {
    let mut made = Report::default();
    match call((&mut made as *mut Report).cast()) {
        0 => Ok(made),
        number => Err(Refusal::new(number, name)),
    }
}

// The fields are the entries in order, with no room between them; a whole number is its bits in two's complement.
const _: () = assert!(core::mem::size_of::<Report>() == REPORT * core::mem::size_of::<u64>());
