//! Made by tools/table from calls.toml and VERSION: edit those, not this file.
use crate::Refusal;

/// A model's number and the names of its parameters.
pub struct Law {
    pub number: u64,
    pub names: &'static [&'static str],
}

impl Refusal {
    /// An input is NaN or infinite.
    pub const NOT_FINITE: u8 = 1;
    /// A function would get an argument below its range (crushed; of Snow: torn).
    pub const BELOW_RANGE: u8 = 2;
    /// A NaN arose, or a modulus or a result is not finite.
    pub const NO_NUMBER: u8 = 3;
    /// The sheet ends early.
    pub const ENDS_EARLY: u8 = 4;
    /// A number of the sheet is not spelled shortest or has over two groups.
    pub const NOT_SHORTEST: u8 = 5;
    /// Unknown model, a flag that is neither 0.0 nor 1.0, or a number of axes that the call does not take.
    pub const UNKNOWN: u8 = 6;
    /// The sheet has over 200 particles, or bytes after the last.
    pub const TOO_MANY: u8 = 7;
    /// A list has the wrong length.
    pub const LENGTH: u8 = 8;
    /// The lent room is shorter than the sheet.
    pub const NO_ROOM: u8 = 9;
    /// A function would get an argument above its range (torn; of Snow: crushed).
    pub const ABOVE_RANGE: u8 = 10;
    /// The record's stored determinant is not that of its F.
    pub const WRONG_DETERMINANT: u8 = 11;
    /// A zone or a particle is out of range, there are over 256 tallies, or list lengths are unlike.
    pub const BAD_ZONE: u8 = 12;
    /// A tally would pass its end, 4294967295.
    pub const TALLY_FULL: u8 = 13;
    /// The factors or the principal values worked out miss their check.
    pub const NOT_ACCEPTED: u8 = 14;
    /// A part or an end of a sheet in parts comes after its end.
    pub const AFTER_END: u8 = 15;
    /// A report has over 4096 particles.
    pub const TOO_LONG: u8 = 16;
}

/// What a refusal's number means, and what to do about it.
pub fn words(number: u8) -> Option<(&'static str, &'static str)> {
    Some(match number {
        1 => ("an input is NaN or infinite", "find who wrote that value"),
        2 => ("a function would get an argument below its range (crushed; of Snow: torn)", "look at the singular values and the hardenings"),
        3 => ("a NaN arose, or a modulus or a result is not finite", "look at the sizes of the parameters and inputs"),
        4 => ("the sheet ends early", "send the sheet again, whole"),
        5 => ("a number of the sheet is not spelled shortest or has over two groups", "correct the sheet's writer"),
        6 => ("unknown model, a flag that is neither 0.0 nor 1.0, or a number of axes that the call does not take", "check the model's number, its flags and its axes"),
        7 => ("the sheet has over 200 particles, or bytes after the last", "split the sheet, or send it alone"),
        8 => ("a list has the wrong length", "give 37 floats (the determinant last) and 2 answers a particle, 9 floats a matrix, 3 a vector"),
        9 => ("the lent room is shorter than the sheet", "lend 59267 bytes, which hold every sheet"),
        10 => ("a function would get an argument above its range (torn; of Snow: crushed)", "look at the singular values and the hardenings"),
        11 => ("the record's stored determinant is not that of its F", "fill it in where you write F (fill_determinants)"),
        12 => ("a zone or a particle is out of range, there are over 256 tallies, or list lengths are unlike", "hold the zone list to the particles and the tallies"),
        13 => ("a tally would pass its end, 4294967295", "read the tallies, then clear them"),
        14 => ("the factors or the principal values worked out miss their check", "look at the sizes of F's or the stress's entries, or give factors of your own"),
        15 => ("a part or an end of a sheet in parts comes after its end", "begin the next sheet"),
        16 => ("a report has over 4096 particles", "report them in lists of at most 4096"),
        _ => return None,
    })
}

pub const SNOW: Law = Law { number: 0, names: &["the law's min_epsilon", "the law's max_epsilon", "the law's hardening_coeff"] };
pub const SNOW_MIN_EPSILON: f64 = 0.025;
pub const SNOW_MAX_EPSILON: f64 = 0.0045;
pub const SNOW_HARDENING_COEFF: f64 = 10.0;
pub const RANKINE: Law = Law { number: 1, names: &["the law's young_modulus", "the law's poisson_ratio", "the law's tensile_strength", "the law's softening_rate"] };
pub const DRUCKER_PRAGER: Law = Law { number: 2, names: &["the law's h0", "the law's h1", "the law's h2", "the law's h3", "the law's lambda", "the law's mu", "the law's only_active_when_failed", "the law's volume_correction"] };
pub const DRUCKER_PRAGER_H0: f64 = 0.6108652381980153; // 35 degrees
pub const DRUCKER_PRAGER_H1: f64 = 0.15707963267948966; // 9 degrees
pub const DRUCKER_PRAGER_H2: f64 = 0.2;
pub const DRUCKER_PRAGER_H3: f64 = 0.17453292519943295; // 10 degrees
pub const DRUCKER_PRAGER_VOLUME_CORRECTION: f64 = 1.0;
pub const NACC: Law = Law { number: 3, names: &["the law's young_modulus", "the law's poisson_ratio", "the law's cohesion", "the law's hardening_enabled", "the law's hardening_factor", "the law's m"] };
/// The laws that the Rust has too, by its names.
pub mod plastic {
    pub use crate::{DruckerPragerPlasticity, NaccPlasticity, RankinePlasticity, SnowPlasticity};
}
/// Of each law its number, and that of sheets whose records end with the determinant.
pub const NUMBERS: [(u64, u64); 4] = [(0, 4), (1, 5), (2, 6), (3, 7)];
/// The parameters of the model that has most.
pub const MOST_PARAMETERS: usize = 8;

pub const FLOATS: usize = 37;
/// The name of each float of a record.
pub const PLACES: [&str; FLOATS] = [
    "deformation_gradient[0][0]", "deformation_gradient[0][1]", "deformation_gradient[0][2]",
    "deformation_gradient[1][0]", "deformation_gradient[1][1]", "deformation_gradient[1][2]",
    "deformation_gradient[2][0]", "deformation_gradient[2][1]", "deformation_gradient[2][2]",
    "u[0][0]", "u[0][1]", "u[0][2]", "u[1][0]", "u[1][1]", "u[1][2]", "u[2][0]", "u[2][1]", "u[2][2]",
    "singular_values[0]", "singular_values[1]", "singular_values[2]",
    "v_t[0][0]", "v_t[0][1]", "v_t[0][2]", "v_t[1][0]", "v_t[1][1]", "v_t[1][2]", "v_t[2][0]", "v_t[2][1]", "v_t[2][2]",
    "phase",
    "plastic_deformation_gradient_det",
    "plastic_hardening",
    "elastic_hardening",
    "log_vol_gain",
    "nacc_alpha",
    "determinant",
];

// The Rust's defaults of the laws that are no models.
pub const NEO_HOOKEAN_CFL_COEFF: f64 = 0.5;
pub const COROTATED_CFL_COEFF: f64 = 0.9;
pub const MONAGHAN_MAX_NEG_PRESSURE: f64 = 1.0;
// Answers: two numbers a particle. The first is the outcome, the second what stands beside it.
pub const ANSWERS: usize = 2;
pub const UNTOUCHED: usize = 0;
pub const STORED: usize = 1;
pub const REFUSED: usize = 2;
// Sheets (section 7).
pub const SHEET_MOST: usize = 200;
pub const SHEET_BYTES: usize = 59267;
pub const WITH_DETERMINANT: usize = 4;
pub const SHEET_FLOATS: usize = 36;
pub const HEADER: usize = 11;
pub const HEADER_MODEL: usize = 0;
pub const HEADER_PARAMETERS: usize = 1;
pub const HEADER_COUNT: usize = 9;
pub const HEADER_PLACE: usize = 10;
// Sheets in parts (section 7): the state's words are the calls' own; these places of it may be read.
pub const PARTS_STATE: usize = 52;
pub const PARTS_STATE_WANTS: usize = 1;
pub const PARTS_STATE_MODEL: usize = 2;
pub const PARTS_STATE_PARAMETERS: usize = 7;
pub const PARTS_PROGRESS: usize = 2;
pub const PARTS_COMPLETE: usize = 0;
pub const PARTS_COUNT: usize = 1;
// The calling thread's floating-point mode (float_mode): what of it is not IEEE 754's default, by which all is proved.
pub const MODE_ROUNDING: usize = 1;
pub const MODE_FLUSHED: usize = 2;
pub const MODE_DENORMALS: usize = 4;
// Flat records (section 7): 20 doubles a particle, without a determinant.
pub const FLAT_FLOATS: usize = 20;
pub const FLAT_F: usize = 0;
pub const FLAT_U: usize = 4;
pub const FLAT_SIGMA: usize = 8;
pub const FLAT_VT: usize = 10;
pub const FLAT_PHASE: usize = 14;
// Reports (section 7): three columns of six entries. Least, greatest and total are whole numbers of 2^-30, as int64_t.
pub const REPORT_MOST: usize = 4096;
pub const REPORT: usize = 18;
pub const REPORT_COLUMN: usize = 6;
pub const REPORT_PLASTIC_HARDENING: usize = 0;
pub const REPORT_ELASTIC_HARDENING: usize = 6;
pub const REPORT_PLASTIC_DETERMINANT: usize = 12;
pub const REPORT_COUNT: usize = 0;
pub const REPORT_LEAST: usize = 1;
pub const REPORT_GREATEST: usize = 2;
pub const REPORT_TOTAL: usize = 3;
pub const REPORT_OUTSIDE: usize = 4;
pub const REPORT_NOT_FINITE: usize = 5;
// Why (section 7): the entries of a reason. Tests, steps and branches are numbered in docs/STEPS.md.
pub const REASON: usize = 11;
pub const REASON_KIND: usize = 0;
pub const REASON_REFUSAL: usize = 1;
pub const REASON_STEP: usize = 2;
pub const REASON_OF: usize = 3;
pub const REASON_PLACE: usize = 4;
pub const REASON_TEST: usize = 5;
pub const REASON_HELD: usize = 6;
pub const REASON_BRANCH: usize = 7;
pub const REASON_NUMBERS: usize = 8;

extern "C" {
    pub fn pasoletu_exp(x: f64, out: *mut f64, out_length: usize) -> u8;
    pub fn pasoletu_ln(x: f64, out: *mut f64, out_length: usize) -> u8;
    pub fn pasoletu_sinh(x: f64, out: *mut f64, out_length: usize) -> u8;
    pub fn pasoletu_sin(x: f64, out: *mut f64, out_length: usize) -> u8;
    pub fn pasoletu_sqrt(x: f64, out: *mut f64, out_length: usize) -> u8;
    pub fn pasoletu_cbrt(x: f64, out: *mut f64, out_length: usize) -> u8;
    pub fn pasoletu_inv_cbrt(x: f64, out: *mut f64, out_length: usize) -> u8;
    pub fn pasoletu_cbrt_squared(x: f64, out: *mut f64, out_length: usize) -> u8;
    pub fn pasoletu_inv_cbrt_squared(x: f64, out: *mut f64, out_length: usize) -> u8;
    pub fn pasoletu_inv_exact(e: f64, out: *mut f64, out_length: usize) -> u8;
    pub fn pasoletu_shear_modulus(young_modulus: f64, poisson_ratio: f64, out: *mut f64, out_length: usize) -> u8;
    pub fn pasoletu_bulk_modulus(young_modulus: f64, poisson_ratio: f64, out: *mut f64, out_length: usize) -> u8;
    pub fn pasoletu_shear_modulus_from_lame(lambda: f64, mu: f64, out: *mut f64, out_length: usize) -> u8;
    pub fn pasoletu_bulk_modulus_from_lame(lambda: f64, mu: f64, out: *mut f64, out_length: usize) -> u8;
    pub fn pasoletu_lame_lambda_mu(young_modulus: f64, poisson_ratio: f64, out: *mut f64, out_length: usize) -> u8;
    pub fn pasoletu_solve_quadratic(a: f64, b: f64, c: f64, out: *mut f64, out_length: usize) -> u8;
    pub fn pasoletu_spin_tensor(m: *const f64, m_length: usize, out: *mut f64, out_length: usize) -> u8;
    pub fn pasoletu_strain_rate(m: *const f64, m_length: usize, out: *mut f64, out_length: usize) -> u8;
    pub fn pasoletu_deviatoric_part(m: *const f64, m_length: usize, out: *mut f64, out_length: usize) -> u8;
    pub fn pasoletu_spherical_part(m: *const f64, m_length: usize, out: *mut f64, out_length: usize) -> u8;
    pub fn pasoletu_decomposed_times(spherical: f64, deviatoric: *const f64, deviatoric_length: usize, v: *const f64, v_length: usize, out: *mut f64, out_length: usize) -> u8;
    pub fn pasoletu_neo_hookean_fpk_stress(law: *const f64, law_length: usize, hardening: f64, f: *const f64, f_length: usize, out: *mut f64, out_length: usize) -> u8;
    pub fn pasoletu_neo_hookean_elastic_energy_density(law: *const f64, law_length: usize, phase: f64, hardening: f64, f: *const f64, f_length: usize, out: *mut f64, out_length: usize) -> u8;
    pub fn pasoletu_neo_hookean_elastic_energy_density_in(law: *const f64, law_length: usize, one_split: f64, phase: f64, hardening: f64, f: *const f64, f_length: usize, out: *mut f64, out_length: usize) -> u8;
    pub fn pasoletu_neo_hookean_pos_energy(law: *const f64, law_length: usize, phase: f64, hardening: f64, f: *const f64, f_length: usize, out: *mut f64, out_length: usize) -> u8;
    pub fn pasoletu_phase_coeff(phase: f64, out: *mut f64, out_length: usize) -> u8;
    pub fn pasoletu_corotated_elastic_energy_density(law: *const f64, law_length: usize, hardening: f64, sigma: *const f64, sigma_length: usize, out: *mut f64, out_length: usize) -> u8;
    pub fn pasoletu_corotated_pos_energy(law: *const f64, law_length: usize, hardening: f64, f: *const f64, f_length: usize, sigma: *const f64, sigma_length: usize, out: *mut f64, out_length: usize) -> u8;
    pub fn pasoletu_neo_hookean_stress_and_verdict(law: *const f64, law_length: usize, limits: *const f64, limits_length: usize, record: *const f64, record_length: usize, stress: *mut f64, stress_length: usize, verdict: *mut u64, verdict_length: usize) -> u8;
    pub fn pasoletu_corotated_stress_and_verdict(law: *const f64, law_length: usize, limits: *const f64, limits_length: usize, record: *const f64, record_length: usize, stress: *mut f64, stress_length: usize, verdict: *mut u64, verdict_length: usize) -> u8;
    pub fn pasoletu_record_neo_hookean_fpk_stress(law: *const f64, law_length: usize, record: *const f64, record_length: usize, out: *mut f64, out_length: usize) -> u8;
    pub fn pasoletu_record_neo_hookean_elastic_energy_density(law: *const f64, law_length: usize, record: *const f64, record_length: usize, out: *mut f64, out_length: usize) -> u8;
    pub fn pasoletu_record_neo_hookean_elastic_energy_density_in(law: *const f64, law_length: usize, one_split: f64, record: *const f64, record_length: usize, out: *mut f64, out_length: usize) -> u8;
    pub fn pasoletu_record_neo_hookean_pos_energy(law: *const f64, law_length: usize, record: *const f64, record_length: usize, out: *mut f64, out_length: usize) -> u8;
    pub fn pasoletu_record_corotated_elastic_energy_density(law: *const f64, law_length: usize, record: *const f64, record_length: usize, out: *mut f64, out_length: usize) -> u8;
    pub fn pasoletu_record_corotated_pos_energy(law: *const f64, law_length: usize, record: *const f64, record_length: usize, out: *mut f64, out_length: usize) -> u8;
    pub fn pasoletu_monaghan_pressure(pressure0: f64, gamma: u32, viscosity: f64, max_neg_pressure: f64, mass: f64, volume0: f64, density: f64, out: *mut f64, out_length: usize) -> u8;
    pub fn pasoletu_monaghan_kirchhoff_stress(pressure0: f64, gamma: u32, viscosity: f64, max_neg_pressure: f64, mass: f64, volume0: f64, density: f64, determinant: f64, velocity_gradient: *const f64, velocity_gradient_length: usize, out: *mut f64, out_length: usize) -> u8;
    pub fn pasoletu_monaghan_timestep_bound(pressure0: f64, gamma: u32, viscosity: f64, max_neg_pressure: f64, determinant: f64, mass: f64, volume0: f64, density: f64, velocity: *const f64, velocity_length: usize, cell_width: f64, out: *mut f64, out_length: usize) -> u8;
    pub fn pasoletu_snow_clamp(min_epsilon: f64, max_epsilon: f64, hardening_coeff: f64, sigma: *const f64, sigma_length: usize, out: *mut f64, out_length: usize) -> u8;
    pub fn pasoletu_rankine_project(arguments: *const f64, arguments_length: usize, s: f64, strains: *const f64, strains_length: usize, out: *mut f64, out_length: usize) -> u8;
    pub fn pasoletu_drucker_prager_alpha(fields: *const f64, fields_length: usize, q: f64, out: *mut f64, out_length: usize) -> u8;
    pub fn pasoletu_nacc_friction(axes: u64, friction_angle: f64, out: *mut f64, out_length: usize) -> u8;
    pub fn pasoletu_update(model: u64, parameters: *const f64, parameters_length: usize, record: *mut f64, record_length: usize, answer: *mut u64, answer_length: usize) -> u8;
    pub fn pasoletu_factor(record: *mut f64, record_length: usize) -> u8;
    pub fn pasoletu_pass(model: u64, parameters: *const f64, parameters_length: usize, records: *mut f64, records_length: usize, answers: *mut u64, answers_length: usize, counts: *mut u64, counts_length: usize) -> u8;
    pub fn pasoletu_pass_with_failure(model: u64, parameters: *const f64, parameters_length: usize, limits: *const f64, limits_length: usize, corotated: *const f64, corotated_length: usize, records: *mut f64, records_length: usize, answers: *mut u64, answers_length: usize, counts: *mut u64, counts_length: usize) -> u8;
    pub fn pasoletu_factor_list(records: *mut f64, records_length: usize, answers: *mut u64, answers_length: usize, counts: *mut u64, counts_length: usize) -> u8;
    pub fn pasoletu_pass_factored(model: u64, parameters: *const f64, parameters_length: usize, records: *mut f64, records_length: usize, answers: *mut u64, answers_length: usize, counts: *mut u64, counts_length: usize) -> u8;
    pub fn pasoletu_pass_factored_with_failure(model: u64, parameters: *const f64, parameters_length: usize, limits: *const f64, limits_length: usize, corotated: *const f64, corotated_length: usize, records: *mut f64, records_length: usize, answers: *mut u64, answers_length: usize, counts: *mut u64, counts_length: usize) -> u8;
    pub fn pasoletu_fill_determinants(records: *mut f64, records_length: usize) -> u8;
    pub fn pasoletu_flat_update(model: u64, parameters: *const f64, parameters_length: usize, record: *mut f64, record_length: usize, answer: *mut u64, answer_length: usize) -> u8;
    pub fn pasoletu_flat_pass(model: u64, parameters: *const f64, parameters_length: usize, records: *mut f64, records_length: usize, answers: *mut u64, answers_length: usize, counts: *mut u64, counts_length: usize) -> u8;
    pub fn pasoletu_clear_tallies(particles: u64, zones: *const u64, zones_length: usize, tallies: *mut u64, tallies_length: usize) -> u8;
    pub fn pasoletu_move_particle(particles: u64, particle: u64, zone: u64, zones: *mut u64, zones_length: usize, tallies: *mut u64, tallies_length: usize) -> u8;
    pub fn pasoletu_pass_by_zone(model: u64, parameters: *const f64, parameters_length: usize, zones: *const u64, zones_length: usize, records: *mut f64, records_length: usize, answers: *mut u64, answers_length: usize, tallies: *mut u64, tallies_length: usize) -> u8;
    pub fn pasoletu_pass_with_failure_by_zone(model: u64, parameters: *const f64, parameters_length: usize, limits: *const f64, limits_length: usize, corotated: *const f64, corotated_length: usize, zones: *const u64, zones_length: usize, records: *mut f64, records_length: usize, answers: *mut u64, answers_length: usize, tallies: *mut u64, tallies_length: usize) -> u8;
    pub fn pasoletu_read_sheet(bytes: *const u8, bytes_length: usize, header: *mut u64, header_length: usize, records: *mut f64, records_length: usize) -> u8;
    pub fn pasoletu_run_sheet(bytes: *const u8, bytes_length: usize, records: *mut f64, records_length: usize, answers: *mut u64, answers_length: usize, counts: *mut u64, counts_length: usize) -> u8;
    pub fn pasoletu_write_sheet(model: u64, parameters: *const f64, parameters_length: usize, records: *const f64, records_length: usize, bytes: *mut u8, bytes_length: usize, written: *mut u64, written_length: usize) -> u8;
    pub fn pasoletu_begin_parts(state: *mut u64, state_length: usize) -> u8;
    pub fn pasoletu_part(bytes: *const u8, bytes_length: usize, state: *mut u64, state_length: usize, records: *mut f64, records_length: usize, answers: *mut u64, answers_length: usize, progress: *mut u64, progress_length: usize) -> u8;
    pub fn pasoletu_end_parts(records: *const f64, records_length: usize, answers: *const u64, answers_length: usize, state: *mut u64, state_length: usize, progress: *mut u64, progress_length: usize) -> u8;
    pub fn pasoletu_report(records: *const f64, records_length: usize, report: *mut u64, report_length: usize) -> u8;
    pub fn pasoletu_join_reports(first: *const u64, first_length: usize, second: *const u64, second_length: usize, joined: *mut u64, joined_length: usize) -> u8;
    pub fn pasoletu_why(model: u64, parameters: *const f64, parameters_length: usize, record: *const f64, record_length: usize, reason: *mut u64, reason_length: usize) -> u8;
}
