// Made by tools/table from calls.toml: edit that, not this file.
use super::{c, Call, GAMMA, NUMBER};

// The numbers of the calls, as tests/replay has them too; of an update, one for each model.
pub const EXP: usize = 0;
pub const LN: usize = 1;
pub const SINH: usize = 2;
pub const SIN: usize = 3;
pub const SQRT: usize = 4;
pub const CBRT: usize = 5;
pub const INV_CBRT: usize = 6;
pub const CBRT_SQUARED: usize = 7;
pub const INV_CBRT_SQUARED: usize = 8;
pub const INV_EXACT: usize = 9;
pub const SHEAR_MODULUS: usize = 10;
pub const BULK_MODULUS: usize = 11;
pub const SHEAR_MODULUS_FROM_LAME: usize = 12;
pub const BULK_MODULUS_FROM_LAME: usize = 13;
pub const LAME_LAMBDA_MU: usize = 14;
pub const SOLVE_QUADRATIC: usize = 15;
pub const SPIN_TENSOR: usize = 16;
pub const STRAIN_RATE: usize = 17;
pub const DEVIATORIC_PART: usize = 18;
pub const SPHERICAL_PART: usize = 19;
pub const UPDATE_SNOW: usize = 20;
pub const UPDATE_RANKINE: usize = 21;
pub const UPDATE_DRUCKER_PRAGER: usize = 22;
pub const UPDATE_NACC: usize = 23;
pub const NEO_HOOKEAN_FPK_STRESS: usize = 24;
pub const NEO_HOOKEAN_ELASTIC_ENERGY_DENSITY: usize = 26;
pub const NEO_HOOKEAN_POS_ENERGY: usize = 27;
pub const PHASE_COEFF: usize = 28;
pub const COROTATED_ELASTIC_ENERGY_DENSITY: usize = 30;
pub const COROTATED_POS_ENERGY: usize = 31;
pub const MONAGHAN_PRESSURE: usize = 32;
pub const MONAGHAN_KIRCHHOFF_STRESS: usize = 33;
pub const MONAGHAN_TIMESTEP_BOUND: usize = 34;
pub const SNOW_CLAMP: usize = 36;
pub const RANKINE_PROJECT: usize = 37;
pub const DRUCKER_PRAGER_ALPHA: usize = 38;
pub const DECOMPOSED_TIMES: usize = 39;
pub const NEO_HOOKEAN_STRESS_AND_VERDICT: usize = 40;
pub const COROTATED_STRESS_AND_VERDICT: usize = 41;

// Numbers that tests/replay alone has; of a call with a model, the first of one for each.
pub const REPLAYED_FLAT_UPDATE: usize = 42;
pub const REPLAYED_PASS_WITH_FAILURE: usize = 46;
pub const REPLAYED_WHY: usize = 50;
pub const REPLAYED_NEO_HOOKEAN_ELASTIC_ENERGY_DENSITY_IN: usize = 54;
pub const REPLAYED_RECORD_NEO_HOOKEAN_FPK_STRESS: usize = 55;
pub const REPLAYED_RECORD_NEO_HOOKEAN_ELASTIC_ENERGY_DENSITY: usize = 56;
pub const REPLAYED_RECORD_NEO_HOOKEAN_ELASTIC_ENERGY_DENSITY_IN: usize = 57;
pub const REPLAYED_RECORD_NEO_HOOKEAN_POS_ENERGY: usize = 58;
pub const REPLAYED_RECORD_COROTATED_ELASTIC_ENERGY_DENSITY: usize = 59;
pub const REPLAYED_RECORD_COROTATED_POS_ENERGY: usize = 60;
pub const REPLAYED_FACTOR: usize = 61;

// Floats of a record, and those before the determinant. Models from LAWS up name the same laws, for sheets whose records have all.
pub const FLOATS: usize = 37;
pub const BARE: usize = 36;
pub const LAWS: usize = 4;

// The first number that names no law, of the Rust's or not.
pub const NO_MODEL: u64 = 8;

// How many parameters each model has.
pub const PARAMETERS: [usize; 4] = [3, 4, 8, 6];

// By number: name, arguments, the lengths of the lists that come out, the place of a flag. A number whose call is retired has no name.
pub const CALLS: [Call; 42] = [
    c("exp", &[NUMBER], &[1], None),
    c("ln", &[NUMBER], &[1], None),
    c("sinh", &[NUMBER], &[1], None),
    c("sin", &[NUMBER], &[1], None),
    c("sqrt", &[NUMBER], &[1], None),
    c("cbrt", &[NUMBER], &[1], None),
    c("inv_cbrt", &[NUMBER], &[1], None),
    c("cbrt_squared", &[NUMBER], &[1], None),
    c("inv_cbrt_squared", &[NUMBER], &[1], None),
    c("inv_exact", &[NUMBER], &[1], None),
    c("shear_modulus", &[NUMBER, NUMBER], &[1], None),
    c("bulk_modulus", &[NUMBER, NUMBER], &[1], None),
    c("shear_modulus_from_lame", &[NUMBER, NUMBER], &[1], None),
    c("bulk_modulus_from_lame", &[NUMBER, NUMBER], &[1], None),
    c("lame_lambda_mu", &[NUMBER, NUMBER], &[2], None),
    c("solve_quadratic", &[NUMBER, NUMBER, NUMBER], &[2], None),
    c("spin_tensor", &[9], &[9], None),
    c("strain_rate", &[9], &[9], None),
    c("deviatoric_part", &[9], &[9], None),
    c("spherical_part", &[9], &[1], None),
    c("update snow", &[3, 37], &[37, 2], None),
    c("update rankine", &[4, 37], &[37, 2], None),
    c("update drucker_prager", &[8, 37], &[37, 2], Some(6)),
    c("update nacc", &[6, 37], &[37, 2], Some(3)),
    c("neo_hookean_fpk_stress", &[3, NUMBER, 9], &[9], None),
    c("", &[], &[], None),
    c("neo_hookean_elastic_energy_density", &[3, NUMBER, NUMBER, 9], &[1], None),
    c("neo_hookean_pos_energy", &[3, NUMBER, NUMBER, 9], &[1], None),
    c("phase_coeff", &[NUMBER], &[1], None),
    c("", &[], &[], None),
    c("corotated_elastic_energy_density", &[4, NUMBER, 3], &[1], Some(0)),
    c("corotated_pos_energy", &[4, NUMBER, 9, 3], &[1], Some(0)),
    c("monaghan_pressure", &[NUMBER, GAMMA, NUMBER, NUMBER, NUMBER, NUMBER, NUMBER], &[1], None),
    c("monaghan_kirchhoff_stress", &[NUMBER, GAMMA, NUMBER, NUMBER, NUMBER, NUMBER, NUMBER, NUMBER, 9], &[9], None),
    c("monaghan_timestep_bound", &[NUMBER, GAMMA, NUMBER, NUMBER, NUMBER, NUMBER, NUMBER, NUMBER, 3, NUMBER], &[1], None),
    c("", &[], &[], None),
    c("snow_clamp", &[NUMBER, NUMBER, NUMBER, 3], &[3], None),
    c("rankine_project", &[4, NUMBER, 3], &[3], None),
    c("drucker_prager_alpha", &[8, NUMBER], &[1], Some(6)),
    c("decomposed_times", &[NUMBER, 9, 3], &[3], None),
    c("neo_hookean_stress_and_verdict", &[3, 2, 37], &[9, 1], None),
    c("corotated_stress_and_verdict", &[4, 2, 37], &[9, 1], Some(0)),
];

// The calls on lists of particles and on sheets, which have no number.
pub const LISTS: [&str; 5] = ["pass", "pass_with_failure", "fill_determinants", "read_sheet", "run_sheet"];
