// Made by tools/table from calls.toml: edit that, not this file.
// The calls of the replayed lists by number. A number whose call is retired has none, and no words.

#define KINDS 62
#define MOST_IN 52
#define MOST_OUT 43
#define MOST_LISTS 3
// How many words go into each call, how many come out, and how many of the last that go in are a record that is lent: what comes out begins with it.
static const uint8_t INPUTS[KINDS] = {1, 1, 1, 1, 1, 1, 1, 1, 1, 1, 2, 2, 2, 2, 2, 3, 9, 9, 9, 9, 40, 41, 45, 43, 13, 0,
                                      14, 14, 1, 0, 8, 17, 7, 17, 12, 0, 6, 8, 9, 13, 42, 43, 24, 25, 29, 27, 47, 48,
                                      52, 50, 41, 42, 46, 44, 15, 40, 40, 41, 40, 41, 41, 37};
static const uint8_t OUTPUTS[KINDS] = {1, 1, 1, 1, 1, 1, 1, 1, 1, 1, 1, 1, 1, 1, 2, 2, 9, 9, 9, 1, 39, 39, 39, 39, 9, 0,
                                       1, 1, 1, 0, 1, 1, 1, 9, 1, 0, 3, 3, 1, 3, 10, 10, 22, 22, 22, 22, 43, 43, 43, 43,
                                       11, 11, 11, 11, 1, 9, 1, 1, 1, 1, 1, 37};
static const uint8_t LENT[KINDS] = {0, 0, 0, 0, 0, 0, 0, 0, 0, 0, 0, 0, 0, 0, 0, 0, 0, 0, 0, 0, 37, 37, 37, 37, 0, 0, 0,
                                    0, 0, 0, 0, 0, 0, 0, 0, 0, 0, 0, 0, 0, 0, 0, 20, 20, 20, 20, 37, 37, 37, 37, 0, 0,
                                    0, 0, 0, 0, 0, 0, 0, 0, 0, 37};

// A number's call: its refusal or 0. NUMBER and WORD are the word at a place of the inputs, GIVEN a list there and OUT one of what comes out, each of
// so many words from a place on.
static uint8_t called(unsigned number) {
    switch (number) {
    case 0: // exp
        return pasoletu_exp(NUMBER(0), OUT(0, 1));
    case 1: // ln
        return pasoletu_ln(NUMBER(0), OUT(0, 1));
    case 2: // sinh
        return pasoletu_sinh(NUMBER(0), OUT(0, 1));
    case 3: // sin
        return pasoletu_sin(NUMBER(0), OUT(0, 1));
    case 4: // sqrt
        return pasoletu_sqrt(NUMBER(0), OUT(0, 1));
    case 5: // cbrt
        return pasoletu_cbrt(NUMBER(0), OUT(0, 1));
    case 6: // inv_cbrt
        return pasoletu_inv_cbrt(NUMBER(0), OUT(0, 1));
    case 7: // cbrt_squared
        return pasoletu_cbrt_squared(NUMBER(0), OUT(0, 1));
    case 8: // inv_cbrt_squared
        return pasoletu_inv_cbrt_squared(NUMBER(0), OUT(0, 1));
    case 9: // inv_exact
        return pasoletu_inv_exact(NUMBER(0), OUT(0, 1));
    case 10: // shear_modulus
        return pasoletu_shear_modulus(NUMBER(0), NUMBER(1), OUT(0, 1));
    case 11: // bulk_modulus
        return pasoletu_bulk_modulus(NUMBER(0), NUMBER(1), OUT(0, 1));
    case 12: // shear_modulus_from_lame
        return pasoletu_shear_modulus_from_lame(NUMBER(0), NUMBER(1), OUT(0, 1));
    case 13: // bulk_modulus_from_lame
        return pasoletu_bulk_modulus_from_lame(NUMBER(0), NUMBER(1), OUT(0, 1));
    case 14: // lame_lambda_mu
        return pasoletu_lame_lambda_mu(NUMBER(0), NUMBER(1), OUT(0, 2));
    case 15: // solve_quadratic
        return pasoletu_solve_quadratic(NUMBER(0), NUMBER(1), NUMBER(2), OUT(0, 2));
    case 16: // spin_tensor
        return pasoletu_spin_tensor(GIVEN(0, 9), OUT(0, 9));
    case 17: // strain_rate
        return pasoletu_strain_rate(GIVEN(0, 9), OUT(0, 9));
    case 18: // deviatoric_part
        return pasoletu_deviatoric_part(GIVEN(0, 9), OUT(0, 9));
    case 19: // spherical_part
        return pasoletu_spherical_part(GIVEN(0, 9), OUT(0, 1));
    case 20: // update snow
        return pasoletu_update(0, GIVEN(0, 3), OUT(0, 37), OUT(37, 2));
    case 21: // update rankine
        return pasoletu_update(1, GIVEN(0, 4), OUT(0, 37), OUT(37, 2));
    case 22: // update drucker_prager
        return pasoletu_update(2, GIVEN(0, 8), OUT(0, 37), OUT(37, 2));
    case 23: // update nacc
        return pasoletu_update(3, GIVEN(0, 6), OUT(0, 37), OUT(37, 2));
    case 24: // neo_hookean_fpk_stress
        return pasoletu_neo_hookean_fpk_stress(GIVEN(0, 3), NUMBER(3), GIVEN(4, 9), OUT(0, 9));
    case 26: // neo_hookean_elastic_energy_density
        return pasoletu_neo_hookean_elastic_energy_density(GIVEN(0, 3), NUMBER(3), NUMBER(4), GIVEN(5, 9), OUT(0, 1));
    case 27: // neo_hookean_pos_energy
        return pasoletu_neo_hookean_pos_energy(GIVEN(0, 3), NUMBER(3), NUMBER(4), GIVEN(5, 9), OUT(0, 1));
    case 28: // phase_coeff
        return pasoletu_phase_coeff(NUMBER(0), OUT(0, 1));
    case 30: // corotated_elastic_energy_density
        return pasoletu_corotated_elastic_energy_density(GIVEN(0, 4), NUMBER(4), GIVEN(5, 3), OUT(0, 1));
    case 31: // corotated_pos_energy
        return pasoletu_corotated_pos_energy(GIVEN(0, 4), NUMBER(4), GIVEN(5, 9), GIVEN(14, 3), OUT(0, 1));
    case 32: // monaghan_pressure
        return pasoletu_monaghan_pressure(NUMBER(0), (uint32_t)WORD(1), NUMBER(2), NUMBER(3), NUMBER(4), NUMBER(5),
                                          NUMBER(6), OUT(0, 1));
    case 33: // monaghan_kirchhoff_stress
        return pasoletu_monaghan_kirchhoff_stress(NUMBER(0), (uint32_t)WORD(1), NUMBER(2), NUMBER(3), NUMBER(4),
                                                  NUMBER(5), NUMBER(6), NUMBER(7), GIVEN(8, 9), OUT(0, 9));
    case 34: // monaghan_timestep_bound
        return pasoletu_monaghan_timestep_bound(NUMBER(0), (uint32_t)WORD(1), NUMBER(2), NUMBER(3), NUMBER(4),
                                                NUMBER(5), NUMBER(6), NUMBER(7), GIVEN(8, 3), NUMBER(11), OUT(0, 1));
    case 36: // snow_clamp
        return pasoletu_snow_clamp(NUMBER(0), NUMBER(1), NUMBER(2), GIVEN(3, 3), OUT(0, 3));
    case 37: // rankine_project
        return pasoletu_rankine_project(GIVEN(0, 4), NUMBER(4), GIVEN(5, 3), OUT(0, 3));
    case 38: // drucker_prager_alpha
        return pasoletu_drucker_prager_alpha(GIVEN(0, 8), NUMBER(8), OUT(0, 1));
    case 39: // decomposed_times
        return pasoletu_decomposed_times(NUMBER(0), GIVEN(1, 9), GIVEN(10, 3), OUT(0, 3));
    case 40: // neo_hookean_stress_and_verdict
        return pasoletu_neo_hookean_stress_and_verdict(GIVEN(0, 3), GIVEN(3, 2), GIVEN(5, 37), OUT(0, 9), OUT(9, 1));
    case 41: // corotated_stress_and_verdict
        return pasoletu_corotated_stress_and_verdict(GIVEN(0, 4), GIVEN(4, 2), GIVEN(6, 37), OUT(0, 9), OUT(9, 1));
    case 42: // flat_update snow
        return pasoletu_flat_update(WORD(0), GIVEN(1, 3), OUT(0, 20), OUT(20, 2));
    case 43: // flat_update rankine
        return pasoletu_flat_update(WORD(0), GIVEN(1, 4), OUT(0, 20), OUT(20, 2));
    case 44: // flat_update drucker_prager
        return pasoletu_flat_update(WORD(0), GIVEN(1, 8), OUT(0, 20), OUT(20, 2));
    case 45: // flat_update nacc
        return pasoletu_flat_update(WORD(0), GIVEN(1, 6), OUT(0, 20), OUT(20, 2));
    case 46: // pass_with_failure snow
        return pasoletu_pass_with_failure(WORD(0), GIVEN(1, 3), GIVEN(4, 2), GIVEN(6, 4), OUT(0, 37), OUT(37, 2),
                                          OUT(39, 4));
    case 47: // pass_with_failure rankine
        return pasoletu_pass_with_failure(WORD(0), GIVEN(1, 4), GIVEN(5, 2), GIVEN(7, 4), OUT(0, 37), OUT(37, 2),
                                          OUT(39, 4));
    case 48: // pass_with_failure drucker_prager
        return pasoletu_pass_with_failure(WORD(0), GIVEN(1, 8), GIVEN(9, 2), GIVEN(11, 4), OUT(0, 37), OUT(37, 2),
                                          OUT(39, 4));
    case 49: // pass_with_failure nacc
        return pasoletu_pass_with_failure(WORD(0), GIVEN(1, 6), GIVEN(7, 2), GIVEN(9, 4), OUT(0, 37), OUT(37, 2),
                                          OUT(39, 4));
    case 50: // why snow
        return pasoletu_why(WORD(0), GIVEN(1, 3), GIVEN(4, 37), OUT(0, 11));
    case 51: // why rankine
        return pasoletu_why(WORD(0), GIVEN(1, 4), GIVEN(5, 37), OUT(0, 11));
    case 52: // why drucker_prager
        return pasoletu_why(WORD(0), GIVEN(1, 8), GIVEN(9, 37), OUT(0, 11));
    case 53: // why nacc
        return pasoletu_why(WORD(0), GIVEN(1, 6), GIVEN(7, 37), OUT(0, 11));
    case 54: // neo_hookean_elastic_energy_density_in
        return pasoletu_neo_hookean_elastic_energy_density_in(GIVEN(0, 3), NUMBER(3), NUMBER(4), NUMBER(5), GIVEN(6, 9),
                                                              OUT(0, 1));
    case 55: // record_neo_hookean_fpk_stress
        return pasoletu_record_neo_hookean_fpk_stress(GIVEN(0, 3), GIVEN(3, 37), OUT(0, 9));
    case 56: // record_neo_hookean_elastic_energy_density
        return pasoletu_record_neo_hookean_elastic_energy_density(GIVEN(0, 3), GIVEN(3, 37), OUT(0, 1));
    case 57: // record_neo_hookean_elastic_energy_density_in
        return pasoletu_record_neo_hookean_elastic_energy_density_in(GIVEN(0, 3), NUMBER(3), GIVEN(4, 37), OUT(0, 1));
    case 58: // record_neo_hookean_pos_energy
        return pasoletu_record_neo_hookean_pos_energy(GIVEN(0, 3), GIVEN(3, 37), OUT(0, 1));
    case 59: // record_corotated_elastic_energy_density
        return pasoletu_record_corotated_elastic_energy_density(GIVEN(0, 4), GIVEN(4, 37), OUT(0, 1));
    case 60: // record_corotated_pos_energy
        return pasoletu_record_corotated_pos_energy(GIVEN(0, 4), GIVEN(4, 37), OUT(0, 1));
    case 61: // factor
        return pasoletu_factor(OUT(0, 37));
    default:
        return 255;
    }
}
