/* Checks header and library together: every call of pasoletu.h, its lengths, and that a refusal writes nothing.
 * The values are those of docs/RULES.md (section 7's example; section 8: P1 to P12) and such as are worked by hand.
 * The last line is 'N passed, M failed'. */
#include <pasoletu.h>
#include <stdio.h>
#include <string.h>

static int passed, failed;

static void check(int holds, int line, const char *what)
{
    if (holds) {
        passed++;
    } else {
        failed++;
        printf("test.c:%d: FAILED: %s\n", line, what);
    }
}

#define CHECK(holds) check((holds), __LINE__, #holds)

/* Room for answers, with a mark that no call gives. */
static double out[PASOLETU_FLOATS];
static const double MARK = -12345.678;
/* A model's number that names no law, now or after some more. */
enum { NO_MODEL = 99 };

static void mark(void)
{
    for (int k = 0; k < PASOLETU_FLOATS; k++)
        out[k] = MARK;
}

static int marked_from(int from)
{
    for (int k = from; k < PASOLETU_FLOATS; k++)
        if (out[k] != MARK)
            return 0;
    return 1;
}

static int same(const void *a, const void *b, size_t doubles)
{
    return memcmp(a, b, doubles * sizeof(double)) == 0;
}

/* Within 2^-40 of the larger of 1 and its own size: for values that are not exact. */
static int near(double x, double wanted)
{
    double size = wanted < 0 ? -wanted : wanted;
    double far = (x > wanted ? x - wanted : wanted - x) / (size > 1 ? size : 1);
    return far <= 1.0 / 1099511627776.0;
}

/* A call whose last two arguments are out and its length n: it is done with n and writes n places, and one more or one
 * less than n is refused by 8 with nothing written. After it `out` holds the answer. */
#define DONE(n, call, ...)                                          \
    do {                                                            \
        mark();                                                     \
        CHECK(call(__VA_ARGS__, out, (n) + 1) == PASOLETU_LENGTH);  \
        CHECK(call(__VA_ARGS__, out, (n) - 1) == PASOLETU_LENGTH);  \
        CHECK(marked_from(0));                                      \
        CHECK(call(__VA_ARGS__, out, (n)) == PASOLETU_DONE);        \
        CHECK(marked_from(n));                                      \
    } while (0)

/* A call that is refused by r and writes nothing. */
#define REFUSED(r, n, call, ...)                                    \
    do {                                                            \
        mark();                                                     \
        CHECK(call(__VA_ARGS__, out, (n)) == (r));                  \
        CHECK(marked_from(0));                                      \
    } while (0)

static const double I[9] = {1, 0, 0, 0, 1, 0, 0, 0, 1};
static const double TWICE[9] = {2, 0, 0, 0, 2, 0, 0, 0, 2};
static const double SNOW[3] = {PASOLETU_SNOW_MIN_EPSILON, PASOLETU_SNOW_MAX_EPSILON, PASOLETU_SNOW_HARDENING_COEFF};

static double infinity(void) { return pasoletu_amount(UINT64_C(0x7ff0000000000000)); }
static double nan_with_payload(void) { return pasoletu_amount(UINT64_C(0xfff8000000c0ffee)); }

static void elementary(void)
{
    DONE(1, pasoletu_exp, 0.0);
    CHECK(out[0] == 1.0);
    DONE(1, pasoletu_exp, 1.0);
    CHECK(near(out[0], 2.718281828459045));
    REFUSED(PASOLETU_ABOVE_RANGE, 1, pasoletu_exp, 700.5);
    REFUSED(PASOLETU_BELOW_RANGE, 1, pasoletu_exp, -700.5);
    REFUSED(1, 1, pasoletu_exp, infinity());
    DONE(1, pasoletu_ln, 1.0);
    CHECK(out[0] == 0.0);
    DONE(1, pasoletu_ln, 10.0);
    CHECK(near(out[0], 2.302585092994046));
    REFUSED(2, 1, pasoletu_ln, 0.0);
    REFUSED(10, 1, pasoletu_ln, 1e19);
    DONE(1, pasoletu_sinh, 1.0);
    CHECK(near(out[0], 1.1752011936438014));
    REFUSED(2, 1, pasoletu_sinh, -701.0);
    REFUSED(10, 1, pasoletu_sinh, 701.0);
    DONE(1, pasoletu_sin, 1.0);
    CHECK(near(out[0], 0.8414709848078965));
    REFUSED(10, 1, pasoletu_sin, 8.5);
    REFUSED(2, 1, pasoletu_sin, -8.5);
    DONE(1, pasoletu_sqrt, 2.0);
    CHECK(out[0] == 1.4142135623730951);
    REFUSED(2, 1, pasoletu_sqrt, -1.0);
    REFUSED(1, 1, pasoletu_sqrt, nan_with_payload());
    DONE(1, pasoletu_cbrt, 8.0);
    CHECK(near(out[0], 2.0));
    DONE(1, pasoletu_inv_cbrt, 8.0);
    CHECK(near(out[0], 0.5));
    DONE(1, pasoletu_cbrt_squared, 8.0);
    CHECK(near(out[0], 4.0));
    DONE(1, pasoletu_inv_cbrt_squared, 8.0);
    CHECK(near(out[0], 0.25));
    REFUSED(2, 1, pasoletu_cbrt, -8.0);
    REFUSED(2, 1, pasoletu_inv_cbrt_squared, 0.0);
    REFUSED(10, 1, pasoletu_cbrt_squared, 1e19);
}

static void physics(void)
{
    const double shear[9] = {0, 2, 0, 0, 0, 0, 0, 0, 0}, diagonal[9] = {1, 0, 0, 0, 2, 0, 0, 0, 3};
    const double spin[9] = {0, 1, 0, -1, 0, 0, 0, 0, 0}, rate[9] = {0, 1, 0, 1, 0, 0, 0, 0, 0};
    const double deviatoric[9] = {-1, 0, 0, 0, 0, 0, 0, 0, 1}, v[3] = {1, 2, 3};
    DONE(1, pasoletu_inv_exact, 0.0); /* P4 */
    CHECK(out[0] == 0.0);
    DONE(1, pasoletu_inv_exact, 4.0);
    CHECK(out[0] == 0.25);
    REFUSED(3, 1, pasoletu_inv_exact, 1e-310);
    DONE(1, pasoletu_shear_modulus, 10.0, 0.25);
    CHECK(out[0] == 4.0);
    DONE(1, pasoletu_bulk_modulus, 3.0, 0.25);
    CHECK(out[0] == 2.0);
    REFUSED(3, 1, pasoletu_bulk_modulus, 3.0, 0.5);
    DONE(1, pasoletu_shear_modulus_from_lame, 7.0, 3.0);
    CHECK(out[0] == 3.0);
    DONE(1, pasoletu_bulk_modulus_from_lame, 1.0, 3.0);
    CHECK(out[0] == 3.0);
    DONE(2, pasoletu_lame_lambda_mu, 10.0, 0.25);
    CHECK(out[0] == 4.0 && out[1] == 4.0);
    DONE(2, pasoletu_solve_quadratic, 1.0, -3.0, 2.0);
    CHECK(out[0] == 2.0 && out[1] == 1.0);
    REFUSED(2, 2, pasoletu_solve_quadratic, 1.0, 0.0, 1.0);
    REFUSED(10, 2, pasoletu_solve_quadratic, 1.0, 1e200, 1.0);
    REFUSED(3, 2, pasoletu_solve_quadratic, 0.0, 1.0, 1.0);
    DONE(9, pasoletu_spin_tensor, shear, 9);
    for (int k = 0; k < 9; k++)
        CHECK(out[k] == spin[k]);
    DONE(9, pasoletu_strain_rate, shear, 9);
    for (int k = 0; k < 9; k++)
        CHECK(out[k] == rate[k]);
    DONE(9, pasoletu_deviatoric_part, diagonal, 9);
    for (int k = 0; k < 9; k++)
        CHECK(out[k] == deviatoric[k]);
    DONE(1, pasoletu_spherical_part, diagonal, 9);
    CHECK(out[0] == 2.0);
    REFUSED(8, 9, pasoletu_strain_rate, shear, 8);
    DONE(3, pasoletu_decomposed_times, 2.0, deviatoric, 9, v, 3);
    CHECK(out[0] == 1.0 && out[1] == 4.0 && out[2] == 9.0);
    REFUSED(8, 3, pasoletu_decomposed_times, 2.0, deviatoric, 9, v, 2);
}

/* From determinant 1 up the modes are one; below it the tensile part is the volumetric one (0.0) or the deviatoric one (1.0). */
static void energy_modes(const double *law, double volumetric, const double *half, const double *gone)
{
    const double part = 3 * (0.6931471805599453 - 0.375), deviatoric = 3 * (2.25 * 1.5874010519681994 - 3);
    for (int mode = 0; mode < 2; mode++) {
        DONE(1, pasoletu_neo_hookean_elastic_energy_density_in, law, 3, mode, 0.5, 2.0, TWICE, 9);
        CHECK(near(out[0], volumetric * 0.25075));
        DONE(1, pasoletu_neo_hookean_elastic_energy_density_in, law, 3, mode, 0.5, 2.0, I, 9); /* determinant 1 itself */
        CHECK(near(out[0], 0.0));
        REFUSED(8, 1, pasoletu_neo_hookean_elastic_energy_density_in, law, 2, mode, 0.5, 2.0, I, 9);
        REFUSED(1, 1, pasoletu_neo_hookean_elastic_energy_density_in, law, 3, mode, infinity(), 2.0, I, 9);
        REFUSED(2, 1, pasoletu_neo_hookean_elastic_energy_density_in, law, 3, mode, 0.5, 2.0, gone, 9);
    }
    DONE(1, pasoletu_neo_hookean_elastic_energy_density_in, law, 3, 0.0, 0.5, 2.0, half, 9);
    CHECK(near(out[0], part * 0.25075 + deviatoric));
    DONE(1, pasoletu_neo_hookean_elastic_energy_density, law, 3, 0.5, 2.0, half, 9);
    CHECK(near(out[0], part * 0.25075 + deviatoric));
    DONE(1, pasoletu_neo_hookean_elastic_energy_density_in, law, 3, 1.0, 0.5, 2.0, half, 9);
    CHECK(near(out[0], deviatoric * 0.25075 + part));
    REFUSED(6, 1, pasoletu_neo_hookean_elastic_energy_density_in, law, 3, -0.0, 0.5, 2.0, I, 9);
    REFUSED(6, 1, pasoletu_neo_hookean_elastic_energy_density_in, law, 3, 0.5, 0.5, 2.0, I, 9);
    REFUSED(6, 1, pasoletu_neo_hookean_elastic_energy_density_in, law, 3, infinity(), infinity(), 2.0, I, 9); /* 6 before 1 */
    REFUSED(8, 1, pasoletu_neo_hookean_elastic_energy_density_in, law, 3, -0.0, 0.5, 2.0, I, 8);              /* 8 before 6 */
}

/* Phase 0.5 weakens tension by phase_coeff(0.5) = 0.25075; lambda 1, mu 3 and hardening 2 make the bulk modulus 6; F's
 * determinant is 8. */
static void neo_hookean(void)
{
    const double law[3] = {PASOLETU_NEO_HOOKEAN_CFL_COEFF, 1, 3}, gone[9] = {0}, half[9] = {0.5, 0, 0, 0, 1, 0, 0, 0, 1};
    const double volumetric = 3 * (31.5 - 2.0794415416798357);
    DONE(9, pasoletu_neo_hookean_fpk_stress, law, 3, 2.0, TWICE, 9);
    for (int k = 0; k < 9; k++)
        CHECK(near(out[k], k % 4 == 0 ? 94.5 : 0.0));
    DONE(1, pasoletu_neo_hookean_elastic_energy_density, law, 3, 0.5, 2.0, TWICE, 9);
    CHECK(near(out[0], volumetric * 0.25075));
    DONE(1, pasoletu_neo_hookean_pos_energy, law, 3, 0.5, 2.0, TWICE, 9);
    CHECK(near(out[0], volumetric * 0.5));
    DONE(1, pasoletu_neo_hookean_pos_energy, law, 3, 0.5, 2.0, half, 9); /* below determinant 1 the deviatoric part */
    CHECK(near(out[0], 3 * (2.25 * 1.5874010519681994 - 3) * 0.25075));
    energy_modes(law, volumetric, half, gone);
    REFUSED(2, 9, pasoletu_neo_hookean_fpk_stress, law, 3, 1.0, gone, 9);
    REFUSED(8, 9, pasoletu_neo_hookean_fpk_stress, law, 4, 1.0, I, 9);
    REFUSED(1, 1, pasoletu_neo_hookean_pos_energy, law, 3, infinity(), 1.0, I, 9);
    DONE(1, pasoletu_phase_coeff, 0.0); /* P5 */
    CHECK(out[0] == 0.001);
    DONE(1, pasoletu_phase_coeff, 1.0);
    CHECK(out[0] == 1.0);
}

/* F is diag(2, 1, 1) turned: U a quarter turn, V^T the identity. lambda 3, mu 1, hardening 2. */
static void corotated(void)
{
    const double law[4] = {1, PASOLETU_COROTATED_CFL_COEFF, 3, 1}, odd[4] = {-0.0, 0.9, 3, 1};
    const double f[9] = {0, -1, 0, 2, 0, 0, 0, 0, 1}, sigma[3] = {2, 1, 1};
    REFUSED(6, 1, pasoletu_corotated_pos_energy, odd, 4, 2.0, f, 9, sigma, 3);
    REFUSED(8, 1, pasoletu_corotated_pos_energy, law, 4, 2.0, f, 9, sigma, 4);
    DONE(1, pasoletu_corotated_elastic_energy_density, law, 4, 2.0, sigma, 3);
    CHECK(out[0] == 5.0);
    DONE(1, pasoletu_corotated_pos_energy, law, 4, 2.0, f, 9, sigma, 3);
    CHECK(out[0] == 5.0);
    DONE(1, pasoletu_corotated_pos_energy, law, 4, 2.0, I, 9, sigma, 3);
    CHECK(out[0] == 2.0);
}

/* A record at rest but for its stretch, phase and elastic hardening, the determinant right. */
static void stretched(double *record, const double sigma[3], double phase, double hardening)
{
    memset(record, 0, PASOLETU_FLOATS * sizeof(double));
    for (int k = 0; k < 3; k++) {
        record[PASOLETU_F + 4 * k] = record[PASOLETU_SIGMA + k] = sigma[k];
        record[PASOLETU_U + 4 * k] = record[PASOLETU_VT + 4 * k] = 1;
    }
    record[PASOLETU_PHASE] = phase;
    record[PASOLETU_ELASTIC_HARDENING] = hardening;
    CHECK(pasoletu_fill_determinants(record, PASOLETU_FLOATS) == 0);
}

/* Stress and verdict by both laws; what is refused writes neither. */
static void stress_and_verdict(void)
{
    const double neo[3] = {PASOLETU_NEO_HOOKEAN_CFL_COEFF, 1, 3}, soft[4] = {1, PASOLETU_COROTATED_CFL_COEFF, 0, 1.25};
    const double odd[4] = {-0.0, 0.9, 0, 1.25}, torn[4] = {1, 0.9, 0, 8.0 / 3}, wide[2] = {1e300, 1e300};
    const double limits[2] = {5, 9}, shear[2] = {5, 2}, broken[2] = {5, infinity()}, none[3] = {0, 0, 0};
    const double even[3] = {2, 2, 2}, one[3] = {2, 1, 1}, unlike[3] = {1.5, 1, 0.25};
    double r[PASOLETU_FLOATS];
    uint64_t verdict[2] = {7, 7};
    stretched(r, even, 0.5, 2);
    mark();
    CHECK(pasoletu_neo_hookean_stress_and_verdict(neo, 3, wide, 2, r, 37, out, 9, verdict, 1) == 0);
    for (int k = 0; k < 9; k++)
        CHECK(near(out[k], k % 4 == 0 ? 189 * 0.25075 : 0.0));
    CHECK(marked_from(9) && verdict[0] == 0 && verdict[1] == 7);
    CHECK(pasoletu_neo_hookean_stress_and_verdict(neo, 3, limits, 2, r, 37, out, 9, verdict, 1) == 0 && verdict[0] == 1);
    stretched(r, one, 1, 1);
    /* guide: judged */
    CHECK(pasoletu_corotated_stress_and_verdict(soft, 4, limits, 2, r, 37, out, 9, verdict, 1) == 0);
    CHECK(out[0] == 5.0 && out[4] == 0.0 && out[8] == 0.0 && verdict[0] == 0); /* P10 */
    /* guide: end */
    CHECK(pasoletu_corotated_stress_and_verdict(soft, 4, shear, 2, r, 37, out, 9, verdict, 1) == 0 && verdict[0] == 1);
    mark();
    verdict[0] = 7;
    CHECK(pasoletu_corotated_stress_and_verdict(soft, 4, limits, 2, r, 37, out, 9, verdict, 2) == 8);
    CHECK(pasoletu_corotated_stress_and_verdict(soft, 4, limits, 2, r, 37, out, 8, verdict, 1) == 8);
    CHECK(pasoletu_corotated_stress_and_verdict(odd, 4, limits, 2, r, 36, out, 9, verdict, 1) == 8); /* 8 before 6 */
    CHECK(pasoletu_corotated_stress_and_verdict(soft, 4, limits, 1, r, 37, out, 9, verdict, 1) == 8);
    CHECK(pasoletu_corotated_stress_and_verdict(odd, 4, broken, 2, r, 37, out, 9, verdict, 1) == 6); /* 6 before 1 */
    r[PASOLETU_DETERMINANT] = 3;
    CHECK(pasoletu_corotated_stress_and_verdict(soft, 4, broken, 2, r, 37, out, 9, verdict, 1) == 1); /* 1 before 11 */
    CHECK(pasoletu_neo_hookean_stress_and_verdict(neo, 3, limits, 2, r, 37, out, 9, verdict, 1) == 11);
    stretched(r, none, 1, 1);
    CHECK(pasoletu_neo_hookean_stress_and_verdict(neo, 3, limits, 2, r, 37, out, 9, verdict, 1) == 2);
    CHECK(marked_from(0) && verdict[0] == 7 && verdict[1] == 7);
    stretched(r, unlike, 1, 1);
    CHECK(pasoletu_corotated_stress_and_verdict(torn, 4, shear, 2, r, 37, out, 9, verdict, 1) == 0);
    CHECK(near(out[0], 4) && out[4] == 0.0 && near(out[8], -1) && verdict[0] == 1); /* P11 */
}

/* Mass 2 in volume 4: the density at rest is 0.5. */
static void monaghan(void)
{
    const double v[3] = {3, 4, 0}, shear[9] = {0, 2, 0, 0, 0, 0, 0, 0, 0};
    DONE(1, pasoletu_monaghan_pressure, 10.0, 2, 0.0, 1.0, 1.0, 1.0, 2.0); /* P6 */
    CHECK(out[0] == 30.0);
    DONE(1, pasoletu_monaghan_pressure, 10.0, 2, 0.0, 1.0, 1.0, 1.0, 0.0); /* P7 */
    CHECK(out[0] == -1.0);
    DONE(1, pasoletu_monaghan_pressure, 10.0, 0, 0.0, 1.0, 1.0, 1.0, 2.0); /* P8 */
    CHECK(out[0] == 0.0);
    DONE(1, pasoletu_monaghan_pressure, 10.0, UINT32_C(4294967295), 0.0, 1.0, 1.0, 1.0, 0.5); /* P9 */
    CHECK(out[0] == 10.0);
    DONE(1, pasoletu_monaghan_pressure, 10.0, 2, 0.5, 7.0, 2.0, 4.0, 1.0);
    CHECK(out[0] == 30.0);
    DONE(1, pasoletu_monaghan_pressure, 10.0, 2, 0.5, 7.0, 2.0, 4.0, 0.0);
    CHECK(out[0] == -7.0);
    REFUSED(3, 1, pasoletu_monaghan_pressure, 10.0, 0, 0.0, 1.0, 0.0, 0.0, 1.0);
    DONE(9, pasoletu_monaghan_kirchhoff_stress, 10.0, 2, 0.5, 7.0, 2.0, 4.0, 1.0, 3.0, shear, 9);
    for (int k = 0; k < 9; k++)
        CHECK(out[k] == (k % 4 == 0 ? -90.0 : k == 1 || k == 3 ? 3.0 : 0.0));
    DONE(1, pasoletu_monaghan_timestep_bound, 10.0, 2, 0.5, 7.0, 0.5, 2.0, 4.0, 1.0, v, 3, 3.0);
    CHECK(near(out[0], 0.12909944487358055));
    DONE(1, pasoletu_monaghan_timestep_bound, 10.0, 2, 0.5, 7.0, 2.0, 2.0, 4.0, 1.0, v, 3, 3.0);
    CHECK(near(out[0], 0.18973665961010278));
}

static void parts_of_laws(void)
{
    const double ones[3] = {1, 1, 1}, mixed[3] = {nan_with_payload(), 2, 1}, strains[3] = {3, 1, 0};
    const double rankine[4] = {1, 0, 2, 0};
    const double cone[8] = {PASOLETU_DRUCKER_PRAGER_H0, PASOLETU_DRUCKER_PRAGER_H1, PASOLETU_DRUCKER_PRAGER_H2,
                            PASOLETU_DRUCKER_PRAGER_H3, 4, 4, 0, PASOLETU_DRUCKER_PRAGER_VOLUME_CORRECTION};
    const double odd[8] = {0, 0, 0, 0, 4, 4, 2, 1};
    DONE(3, pasoletu_snow_clamp, SNOW[0], SNOW[1], SNOW[2], ones, 3); /* P1 */
    CHECK(out[0] == 1.0 && out[1] == 1.0 && out[2] == 1.0);
    DONE(3, pasoletu_snow_clamp, SNOW[0], SNOW[1], SNOW[2], mixed, 3); /* P2, P3 */
    CHECK(out[0] == 1.0 - 0.025 && out[1] == 1.0 + 0.0045 && out[2] == 1.0);
    DONE(3, pasoletu_rankine_project, rankine, 4, 2.0, strains, 3);
    CHECK(out[0] == 2.0 && out[1] == 1.0 && out[2] == 0.0);
    REFUSED(1, 3, pasoletu_rankine_project, rankine, 4, infinity(), strains, 3);
    DONE(1, pasoletu_drucker_prager_alpha, cone, 8, 0.0);
    CHECK(near(out[0], 0.26776504281585317));
    REFUSED(6, 1, pasoletu_drucker_prager_alpha, odd, 8, 0.0);
    REFUSED(2, 1, pasoletu_drucker_prager_alpha, cone, 8, 1e5);
    REFUSED(10, 1, pasoletu_drucker_prager_alpha, cone, 8, -1e5);
    DONE(1, pasoletu_nacc_friction, 2, 0.6108652381980153);
    CHECK(near(out[0], 1.091827543679469));
    DONE(1, pasoletu_nacc_friction, 3, 0.6108652381980153);
    CHECK(near(out[0], 1.4183255840669762));
    REFUSED(6, 1, pasoletu_nacc_friction, 4, 0.5);
    REFUSED(1, 1, pasoletu_nacc_friction, 2, infinity());
    REFUSED(2, 1, pasoletu_nacc_friction, 2, -8.5);
    REFUSED(10, 1, pasoletu_nacc_friction, 3, 8.5);
}

static void at_rest(double *r)
{
    memset(r, 0, PASOLETU_FLOATS * sizeof(double));
    memcpy(r + PASOLETU_F, I, sizeof I);
    memcpy(r + PASOLETU_U, I, sizeof I);
    memcpy(r + PASOLETU_VT, I, sizeof I);
    for (int k = 0; k < 3; k++)
        r[PASOLETU_SIGMA + k] = 1;
    r[PASOLETU_PHASE] = r[PASOLETU_PLASTIC_DETERMINANT] = 1;
    r[PASOLETU_PLASTIC_HARDENING] = r[PASOLETU_ELASTIC_HARDENING] = 1;
    r[PASOLETU_DETERMINANT] = 1;
}

static void update(void)
{
    const double cone[8] = {0.6, 0.2, 0.2, 0.2, 4, 4, 0, 1}, idle[8] = {0.6, 0.2, 0.2, 0.2, 4, 4, 1, 1};
    double r[PASOLETU_FLOATS + 1], was[PASOLETU_FLOATS];
    uint64_t answer[2] = {77, 77};
    at_rest(r);
    memcpy(was, r, sizeof was);
    CHECK(pasoletu_update(PASOLETU_SNOW, SNOW, 3, r, 38, answer, 2) == 8);
    CHECK(pasoletu_update(PASOLETU_SNOW, SNOW, 3, r, 37, answer, 1) == 8);
    CHECK(pasoletu_update(PASOLETU_SNOW, SNOW, 2, r, 37, answer, 2) == 8);
    CHECK(pasoletu_update(PASOLETU_SNOW, SNOW, 3, r, PASOLETU_SHEET_FLOATS, answer, 2) == 8); /* a host that still keeps 36 */
    CHECK(pasoletu_update(NO_MODEL, SNOW, 3, r, 37, answer, 2) == 6);
    CHECK(answer[0] == 77 && answer[1] == 77 && same(r, was, 37));
    CHECK(pasoletu_update(PASOLETU_SNOW, SNOW, 3, r, 37, answer, 2) == 0); /* section 7's example */
    CHECK(answer[0] == PASOLETU_STORED && answer[1] == UINT64_C(0x3ff0000000000000) && same(r, was, 37));
    CHECK(pasoletu_update(PASOLETU_DRUCKER_PRAGER, cone, 8, r, 37, answer, 2) == 0); /* P12 */
    CHECK(answer[0] == PASOLETU_STORED && pasoletu_amount(answer[1]) == 0.0);
    CHECK(pasoletu_update(PASOLETU_DRUCKER_PRAGER, idle, 8, r, 37, answer, 2) == 0);
    CHECK(answer[0] == PASOLETU_UNTOUCHED && answer[1] == 0);
    r[PASOLETU_SIGMA] = nan_with_payload();
    memcpy(was, r, sizeof was);
    CHECK(pasoletu_update(PASOLETU_SNOW, SNOW, 3, r, 37, answer, 2) == 1);
    CHECK(answer[0] == PASOLETU_UNTOUCHED && same(r, was, 37));
}

#define N 4

static void passes(void)
{
    const double bad[3] = {0.025, infinity(), 10}, limits[2] = {9.5, 100}, corotated[4] = {1, 0.9, 3, 1};
    const double odd[4] = {0.5, 0.9, 3, 1}, lower[2] = {1e-7, 100};
    double r[N * PASOLETU_FLOATS], was[N * PASOLETU_FLOATS];
    uint64_t a[N * PASOLETU_ANSWERS + 1], c[4];
    for (int k = 0; k < N; k++)
        at_rest(r + 37 * k);
    r[37 + PASOLETU_U] = nan_with_payload();
    r[2 * 37 + PASOLETU_SIGMA] = 2;
    r[3 * 37 + PASOLETU_PLASTIC_DETERMINANT] = -1000;
    memcpy(was, r, sizeof was);
    for (int k = 0; k < N * 2 + 1; k++)
        a[k] = 99;
    c[0] = c[1] = c[2] = c[3] = 99;
    CHECK(pasoletu_pass(PASOLETU_SNOW, SNOW, 3, r, N * 37 - 1, a, N * 2, c, 3) == 8);
    CHECK(pasoletu_pass(PASOLETU_SNOW, SNOW, 3, r, N * 37, a, N * 2 + 1, c, 3) == 8);
    CHECK(pasoletu_pass(PASOLETU_SNOW, SNOW, 3, r, N * 37, a, N * 2, c, 4) == 8);
    CHECK(pasoletu_pass(PASOLETU_SNOW, SNOW, 3, r, N * 36, a, N * 2, c, 3) == 8);
    CHECK(pasoletu_pass(NO_MODEL, SNOW, 3, r, N * 37, a, N * 2, c, 3) == 6);
    CHECK(same(r, was, N * 37) && a[0] == 99 && a[7] == 99 && c[0] == 99);
    CHECK(pasoletu_pass(PASOLETU_SNOW, SNOW, 3, r, N * 37, a, N * 2, c, 3) == 0);
    CHECK(a[0] == PASOLETU_STORED && pasoletu_amount(a[1]) == 1.0);
    CHECK(a[2] == PASOLETU_REFUSED && a[3] == 1 && same(r + 37, was + 37, 37));
    CHECK(a[4] == PASOLETU_STORED && r[2 * 37 + PASOLETU_SIGMA] == 1.0045 && r[2 * 37] == 1.0045);
    CHECK(a[6] == PASOLETU_REFUSED && a[7] == 10 && same(r + 3 * 37, was + 3 * 37, 37));
    CHECK(a[8] == 99 && c[0] == 0 && c[1] == 2 && c[2] == 2 && c[3] == 99);
    CHECK(pasoletu_pass(PASOLETU_SNOW, bad, 3, r, N * 37, a, N * 2, c, 3) == 0);
    CHECK(a[0] == PASOLETU_REFUSED && a[1] == 1 && a[6] == PASOLETU_REFUSED && a[7] == 1 && c[2] == 4);

    /* No particles: the pointers are not null, and the counts are 0. */
    c[0] = c[1] = c[2] = 99;
    CHECK(pasoletu_pass(PASOLETU_SNOW, SNOW, 3, r, 0, a, 0, c, 3) == 0);
    CHECK(c[0] == 0 && c[1] == 0 && c[2] == 0);

    /* With failure: particle 2 has the principal stresses 10, 6, 6 as it came and about 1e-6 as Snow leaves it; particle 0 none. */
    memcpy(r, was, sizeof r);
    CHECK(pasoletu_pass_with_failure(PASOLETU_SNOW, SNOW, 3, limits, 2, odd, 4, r, N * 37, a, N * 2, c, 4) == 6);
    CHECK(pasoletu_pass_with_failure(PASOLETU_SNOW, SNOW, 3, limits, 1, corotated, 4, r, N * 37, a, N * 2, c, 4) == 8);
    CHECK(pasoletu_pass_with_failure(PASOLETU_SNOW, SNOW, 3, limits, 2, corotated, 4, r, N * 37, a, N * 2, c, 3) == 8);
    CHECK(same(r, was, N * 37));
    CHECK(pasoletu_pass_with_failure(PASOLETU_SNOW, SNOW, 3, limits, 2, corotated, 4, r, N * 37, a, N * 2, c, 4) == 0);
    CHECK(r[PASOLETU_PHASE] == 1.0 && r[2 * 37 + PASOLETU_PHASE] == 1.0 && a[4] == PASOLETU_STORED);
    CHECK(a[2] == PASOLETU_REFUSED && same(r + 37, was + 37, 37) && same(r + 3 * 37, was + 3 * 37, 37));
    CHECK(c[0] == 0 && c[1] == 2 && c[2] == 2 && c[3] == 0);
    memcpy(r, was, sizeof r);
    CHECK(pasoletu_pass_with_failure(PASOLETU_SNOW, SNOW, 3, lower, 2, corotated, 4, r, N * 37, a, N * 2, c, 4) == 0);
    CHECK(r[PASOLETU_PHASE] == 1.0 && r[2 * 37 + PASOLETU_PHASE] == 0.0 && a[4] == PASOLETU_STORED && c[3] == 1);
}

/* A pass with failure over one record: its outcome. */
static uint64_t judge(uint64_t model, const double *p, size_t np, const double *limits, const double *law, double *r, uint64_t *a, uint64_t *c)
{
    a[0] = a[1] = c[0] = c[1] = c[2] = c[3] = 99;
    CHECK(pasoletu_pass_with_failure(model, p, np, limits, 2, law, 4, r, 37, a, 2, c, 4) == 0);
    return a[0];
}

/* The law comes first, then the verdict on what it leaves, by the phase as it came. */
static void judged_after_the_law(void)
{
    const double law[4] = {1, 0.9, 3, 1}, stiff[4] = {1, 0.9, 0, 1e307}, limits[2] = {9.5, 100}, shear[2] = {100, 1};
    const double always[2] = {-1, 100}, none[2] = {nan_with_payload(), 100};
    const double weak[4] = {10, 0.25, 1, 1}, strong[4] = {10, 0.25, 100, 1}, sand[8] = {0.6, 0.15, 0.2, 0.17, 3, 1, 1, 1};
    double r[PASOLETU_FLOATS], was[PASOLETU_FLOATS];
    uint64_t a[2], c[4];

    /* The stresses 10, 6, 6 of sigma (2, 1, 1): Snow and a weak Rankine relax them, a strong Rankine leaves them. */
    at_rest(r);
    r[PASOLETU_SIGMA] = 2;
    memcpy(was, r, sizeof was);
    CHECK(judge(PASOLETU_SNOW, SNOW, 3, limits, law, r, a, c) == PASOLETU_STORED && c[3] == 0);
    CHECK(r[PASOLETU_PHASE] == 1.0 && r[PASOLETU_SIGMA] == 1.0045);
    memcpy(r, was, sizeof r);
    CHECK(judge(PASOLETU_RANKINE, weak, 4, limits, law, r, a, c) == PASOLETU_STORED && c[3] == 0);
    CHECK(r[PASOLETU_PHASE] == 1.0 && r[PASOLETU_SIGMA] < 1.1);
    memcpy(r, was, sizeof r);
    CHECK(judge(PASOLETU_RANKINE, strong, 4, limits, law, r, a, c) == PASOLETU_UNTOUCHED && c[3] == 1);
    CHECK(r[PASOLETU_PHASE] == 0.0);

    /* Drucker-Prager only for failed ones sees the phase as it came, and works the record in the next pass. */
    memcpy(r, was, sizeof r);
    CHECK(judge(PASOLETU_DRUCKER_PRAGER, sand, 8, limits, law, r, a, c) == PASOLETU_UNTOUCHED && c[0] == 1 && c[3] == 1);
    CHECK(r[PASOLETU_PHASE] == 0.0 && same(r, was, PASOLETU_PHASE) && same(r + 31, was + 31, 6));
    CHECK(judge(PASOLETU_DRUCKER_PRAGER, sand, 8, limits, law, r, a, c) == PASOLETU_STORED && c[3] == 0);
    CHECK(r[PASOLETU_PHASE] == 0.0 && r[PASOLETU_SIGMA] == 1.0);

    /* Crushed snow fails by the hardening that the law leaves: 218 for 1. With mu 1e307 that stress is refused, and all is undone. */
    at_rest(r);
    r[PASOLETU_SIGMA] = 0.9;
    r[PASOLETU_PLASTIC_DETERMINANT] = 0.5;
    memcpy(was, r, sizeof was);
    CHECK(judge(PASOLETU_SNOW, SNOW, 3, shear, law, r, a, c) == PASOLETU_STORED && c[3] == 1);
    CHECK(r[PASOLETU_PHASE] == 0.0 && r[PASOLETU_SIGMA] == 0.975);
    memcpy(r, was, sizeof r);
    CHECK(judge(PASOLETU_SNOW, SNOW, 3, shear, stiff, r, a, c) == PASOLETU_REFUSED && a[1] == 3);
    CHECK(same(r, was, 37) && c[0] == 0 && c[1] == 0 && c[2] == 1 && c[3] == 0);

    /* The law's 10 and no verdict, though the stress as it came would be refused by 3; the limits' 1 before both. */
    r[PASOLETU_PLASTIC_DETERMINANT] = -1000;
    r[PASOLETU_ELASTIC_HARDENING] = 1.7e308;
    memcpy(was, r, sizeof was);
    CHECK(judge(PASOLETU_SNOW, SNOW, 3, always, law, r, a, c) == PASOLETU_REFUSED && a[1] == 10);
    CHECK(same(r, was, 37) && c[2] == 1 && c[3] == 0);
    CHECK(judge(PASOLETU_SNOW, SNOW, 3, none, law, r, a, c) == PASOLETU_REFUSED && a[1] == 1);
    CHECK(same(r, was, 37) && c[2] == 1 && c[3] == 0);
}

static void sheets(void)
{
    static double r[3 * PASOLETU_FLOATS], rest[PASOLETU_FLOATS];
    static uint8_t s[1 + 3 * 8 + 1 + PASOLETU_SHEET_FLOATS * 8 + 1];
    const size_t whole = sizeof s - 1;
    uint64_t h[PASOLETU_HEADER], a[6], c[4];
    at_rest(rest);
    s[0] = PASOLETU_SNOW; /* x86-64 keeps the low byte first, as sheets do */
    memcpy(s + 1, SNOW, sizeof SNOW);
    s[25] = 1;
    memcpy(s + 26, rest, PASOLETU_SHEET_FLOATS * 8);
    for (int k = 0; k < 3 * 37; k++)
        r[k] = MARK;
    h[0] = a[0] = c[0] = 99;
    CHECK(pasoletu_read_sheet(s, whole, h, 10, r, 37) == 8);
    CHECK(pasoletu_read_sheet(s, whole, h, 11, r, 35) == 8);
    CHECK(pasoletu_read_sheet(s, whole, h, 11, r, 0) == 8);
    CHECK(pasoletu_read_sheet(s, whole - 1, h, 11, r, 37) == 4);
    CHECK(pasoletu_read_sheet(s, whole + 1, h, 11, r, 37) == 7);
    CHECK(pasoletu_run_sheet(s, whole - 1, r, 3 * 37, a, 6, c, 4) == 4);
    CHECK(pasoletu_run_sheet(s, whole, r, 3 * 37, a, 4, c, 4) == 8);
    CHECK(h[0] == 99 && a[0] == 99 && c[0] == 99 && r[0] == MARK);
    CHECK(pasoletu_read_sheet(s, whole, h, 11, r, 3 * 37) == 0);
    CHECK(h[PASOLETU_HEADER_MODEL] == PASOLETU_SNOW && same(h + PASOLETU_HEADER_PARAMETERS, SNOW, 3));
    CHECK(h[4] == 0 && h[8] == 0 && h[PASOLETU_HEADER_COUNT] == 1 && h[PASOLETU_HEADER_PLACE] == 26);
    CHECK(same(r, rest, 37) && r[37] == MARK);
    a[2] = 99;
    CHECK(pasoletu_run_sheet(s, whole, r, 3 * 37, a, 6, c, 4) == 0);
    CHECK(a[0] == PASOLETU_STORED && a[1] == UINT64_C(0x3ff0000000000000) && a[2] == 99 && r[37] == MARK);
    CHECK(c[0] == 1 && c[1] == 0 && c[2] == 1 && c[3] == 0);
    s[0] = NO_MODEL;
    CHECK(pasoletu_run_sheet(s, whole, r, 37, a, 2, c, 4) == 6);
    s[0] = PASOLETU_SNOW + PASOLETU_WITH_DETERMINANT; /* its records are longer */
    CHECK(pasoletu_run_sheet(s, whole, r, 37, a, 2, c, 4) == 4);
    s[0] = 0x80;
    s[1] = 0;
    CHECK(pasoletu_run_sheet(s, whole, r, 37, a, 2, c, 4) == 5);
}

static void sheets_out(void)
{
    static double r[(PASOLETU_SHEET_MOST + 1) * PASOLETU_FLOATS], back[2 * PASOLETU_FLOATS];
    static uint8_t s[PASOLETU_SHEET_BYTES + 1], was[PASOLETU_SHEET_BYTES + 1];
    const uint64_t odd = UINT64_C(0x7ff00000dead0001); /* a signalling NaN */
    const size_t whole = 1 + 6 * 8 + 1 + 2 * PASOLETU_FLOATS * 8, floats = 2 * PASOLETU_FLOATS;
    const uint64_t nacc = PASOLETU_NACC + PASOLETU_WITH_DETERMINANT;
    double p[8] = {1e4, 0.3, 0.05, 1.0, 3.0, 2.36, 0.0, 1.0};
    uint64_t h[PASOLETU_HEADER], n[2] = {99, 99};
    for (int k = 0; k < (PASOLETU_SHEET_MOST + 1) * PASOLETU_FLOATS; k++)
        r[k] = 0.5 + k;
    memcpy(p + 1, &odd, 8);
    memcpy(r + 40, &odd, 8);
    memset(s, 0x55, sizeof s);
    memset(was, 0x55, sizeof was);

    /* 8, 6, 7 and 9 in this order; nothing is written. */
    CHECK(pasoletu_write_sheet(PASOLETU_NACC, p, 6, r, floats, s, whole, n, 0) == 8);
    CHECK(pasoletu_write_sheet(PASOLETU_NACC, p, 6, r, floats, s, whole, n, 2) == 8);
    CHECK(pasoletu_write_sheet(PASOLETU_NACC, p, 6, r, floats - 1, s, whole, n, 1) == 8);
    CHECK(pasoletu_write_sheet(PASOLETU_NACC, p, 5, r, floats, s, whole, n, 1) == 8);
    CHECK(pasoletu_write_sheet(PASOLETU_NACC, p, 7, r, floats, s, whole, n, 1) == 8);
    CHECK(pasoletu_write_sheet(nacc, p, 6, r, 2 * PASOLETU_SHEET_FLOATS, s, whole, n, 1) == 8);
    CHECK(pasoletu_write_sheet(NO_MODEL, p, 6, r, floats + 1, s, whole, n, 1) == 8);
    CHECK(pasoletu_write_sheet(NO_MODEL, p, 6, r, floats, s, 0, n, 1) == 6);
    CHECK(pasoletu_write_sheet(UINT64_MAX, p, 0, r, floats, s, 0, n, 1) == 6);
    p[3] = -0.0;
    CHECK(pasoletu_write_sheet(PASOLETU_NACC, p, 6, r, floats, s, whole, n, 1) == 6);
    p[3] = 0.5;
    CHECK(pasoletu_write_sheet(PASOLETU_NACC, p, 6, r, 201 * PASOLETU_FLOATS, s, 0, n, 1) == 6);
    p[3] = 1.0;
    CHECK(pasoletu_write_sheet(PASOLETU_NACC, p, 6, r, 201 * PASOLETU_FLOATS, s, 0, n, 1) == 7);
    CHECK(pasoletu_write_sheet(nacc, p, 6, r, floats, s, whole - 1, n, 1) == 9);
    CHECK(pasoletu_write_sheet(PASOLETU_NACC, p, 6, r, floats, s, whole - 16 - 1, n, 1) == 9);
    CHECK(pasoletu_write_sheet(PASOLETU_NACC, p, 6, r, floats, s, 0, n, 1) == 9);
    CHECK(memcmp(s, was, sizeof s) == 0 && n[0] == 99 && n[1] == 99);

    /* Written, and read back in every bit. */
    CHECK(pasoletu_write_sheet(nacc, p, 6, r, floats, s, sizeof s, n, 1) == 0);
    CHECK(n[0] == whole && n[1] == 99 && memcmp(s + whole, was, sizeof s - whole) == 0);
    CHECK(s[0] == nacc && memcmp(s + 1, p, 48) == 0 && s[49] == 2 && memcmp(s + 50, r, floats * 8) == 0);
    CHECK(pasoletu_read_sheet(s, whole, h, PASOLETU_HEADER, back, floats) == 0);
    CHECK(h[0] == nacc && same(h + 1, p, 6) && h[9] == 2 && same(back, r, floats));
    memset(was, 0x55, sizeof was);
    CHECK(pasoletu_write_sheet(h[0], p, 6, back, floats, was, whole, n, 1) == 0);
    CHECK(memcmp(s, was, sizeof s) == 0);

    /* Without the determinants: read back, they are filled in, and all else is the same. */
    CHECK(pasoletu_write_sheet(PASOLETU_NACC, p, 6, r, floats, s, sizeof s, n, 1) == 0 && n[0] == whole - 16 && s[0] == PASOLETU_NACC);
    CHECK(memcmp(s + 50, r, 288) == 0 && memcmp(s + 50 + 288, r + PASOLETU_FLOATS, 288) == 0);
    CHECK(pasoletu_read_sheet(s, whole - 16, h, PASOLETU_HEADER, back, floats) == 0);
    memcpy(was, r, floats * 8); /* a room of records for a moment */
    CHECK(pasoletu_fill_determinants(r, floats) == 0 && h[0] == PASOLETU_NACC && same(back, r, floats));
    memcpy(r, was, floats * 8);
    memset(s, 0x55, sizeof s);

    /* The longest: 200 records, with determinants, of the model with the most parameters. */
    CHECK(pasoletu_write_sheet(6, p, 8, r, 200 * PASOLETU_FLOATS, s, PASOLETU_SHEET_BYTES - 1, n, 1) == 9);
    CHECK(pasoletu_write_sheet(6, p, 8, r, 200 * PASOLETU_FLOATS, s, PASOLETU_SHEET_BYTES, n, 1) == 0);
    CHECK(n[0] == PASOLETU_SHEET_BYTES && s[65] == 0xc8 && s[66] == 1 && s[PASOLETU_SHEET_BYTES] == 0x55);
    CHECK(pasoletu_write_sheet(PASOLETU_SNOW, p, 3, r, 0, s, 26, n, 1) == 0 && n[0] == 26 && s[25] == 0);
}

/* The bits of a double. */
static uint64_t bits(double x)
{
    uint64_t w;
    memcpy(&w, &x, sizeof w);
    return w;
}

/* Snow on one record: the refusal, or 0. A refused record keeps its bits. */
static uint8_t snow(double *r)
{
    double was[PASOLETU_FLOATS];
    uint64_t answer[2];
    memcpy(was, r, sizeof was);
    uint8_t refusal = pasoletu_update(PASOLETU_SNOW, SNOW, 3, r, PASOLETU_FLOATS, answer, 2);
    CHECK(refusal == 0 || same(r, was, PASOLETU_FLOATS));
    return refusal;
}

/* guide: widen */
/* Records of 36 doubles as records of 37, in a room for as many particles. */
static uint8_t widen(const double *old, size_t particles, double *records)
{
    for (size_t k = 0; k < particles; k++)
        memcpy(records + k * PASOLETU_FLOATS, old + k * PASOLETU_SHEET_FLOATS, PASOLETU_SHEET_FLOATS * sizeof(double));
    return pasoletu_fill_determinants(records, particles * PASOLETU_FLOATS);
}
/* guide: end */

static void determinants(void)
{
    double r[2 * PASOLETU_FLOATS], was[2 * PASOLETU_FLOATS];

    /* A record's last float is its F's determinant in every bit, else 11; 1 before it, the law's own numbers after it. */
    at_rest(r);
    r[PASOLETU_F] = 0.9;
    CHECK(snow(r) == 11);
    CHECK(pasoletu_fill_determinants(r, PASOLETU_FLOATS) == 0 && r[PASOLETU_DETERMINANT] == 0.9);
    r[PASOLETU_PHASE] = nan_with_payload();
    CHECK(snow(r) == 1);
    r[PASOLETU_DETERMINANT] = 2;
    CHECK(snow(r) == 1);
    r[PASOLETU_PHASE] = 1;
    r[PASOLETU_PLASTIC_DETERMINANT] = -1000;
    CHECK(snow(r) == 11);
    r[PASOLETU_DETERMINANT] = 0.9;
    CHECK(snow(r) == 10);
    r[PASOLETU_DETERMINANT] = infinity();
    CHECK(snow(r) == 1);

    /* The sign of a zero counts. */
    at_rest(r);
    memset(r, 0, 9 * sizeof(double));
    r[PASOLETU_DETERMINANT] = -0.0;
    CHECK(snow(r) == 11);
    r[PASOLETU_DETERMINANT] = 0.0;
    CHECK(snow(r) == 0 && r[PASOLETU_F] == 1.0 && r[PASOLETU_DETERMINANT] == 1.0);

    /* What is stored has the determinant of the new F; one that is not finite is 3. */
    r[PASOLETU_SIGMA] = 2;
    CHECK(snow(r) == 0 && r[PASOLETU_F] == 1.0045 && r[PASOLETU_DETERMINANT] == 1.0045 && snow(r) == 0);
    at_rest(r);
    for (int k = 0; k < 3; k++)
        r[PASOLETU_U + 4 * k] = 1e150;
    CHECK(snow(r) == 3);

    /* A host that kept 36. */
    at_rest(was);
    at_rest(was + PASOLETU_SHEET_FLOATS);
    was[PASOLETU_SHEET_FLOATS + PASOLETU_F] = was[PASOLETU_SHEET_FLOATS + PASOLETU_SIGMA] = 0.9;
    CHECK(widen(was, 2, r) == 0 && same(r, was, 36) && same(r + 37, was + 36, 36) && r[36] == 1 && r[73] == 0.9);
    CHECK(snow(r) == 0 && snow(r + 37) == 0);

    /* Filled in: the last floats alone, whatever stood there; nothing is refused but a length. */
    for (int k = 0; k < 2 * PASOLETU_FLOATS; k++)
        r[k] = k % PASOLETU_FLOATS < 9 ? 1e200 : nan_with_payload();
    r[PASOLETU_FLOATS + 1] = r[PASOLETU_FLOATS + 2] = r[PASOLETU_FLOATS + 3] = r[PASOLETU_FLOATS + 6] = 0;
    r[PASOLETU_FLOATS] = -1e200;
    r[PASOLETU_FLOATS + 5] = r[PASOLETU_FLOATS + 7] = 0;
    memcpy(was, r, sizeof was);
    CHECK(pasoletu_fill_determinants(r, 2 * PASOLETU_SHEET_FLOATS) == 8 && pasoletu_fill_determinants(r, 75) == 8);
    CHECK(same(r, was, 2 * PASOLETU_FLOATS));
    CHECK(pasoletu_fill_determinants(r, 0) == 0 && same(r, was, 2 * PASOLETU_FLOATS));
    CHECK(pasoletu_fill_determinants(r, 2 * PASOLETU_FLOATS) == 0);
    CHECK(same(r, was, 36) && same(r + 37, was + 37, 36));
    CHECK(bits(r[36]) == UINT64_C(0x7ff8000000000000) && r[73] == -infinity());
}

/* Stress and energy of a record: what the calls above answer of its F, phase, hardening and factors; 1, then 11. */
static void of_a_record(void)
{
    const double neo[3] = {0.5, 1, 3}, law[4] = {1, 0.9, 3, 1}, odd[4] = {0.5, 0.9, 3, 1}, bad[3] = {0.5, nan_with_payload(), 3};
    double r[PASOLETU_FLOATS], want[9];
    const double *f = r + PASOLETU_F, *sigma = r + PASOLETU_SIGMA;
    at_rest(r);
    r[PASOLETU_F] = r[PASOLETU_SIGMA] = 0.5;
    r[PASOLETU_PHASE] = 0.25;
    r[PASOLETU_ELASTIC_HARDENING] = 2;
    pasoletu_fill_determinants(r, PASOLETU_FLOATS);
#define SAME(n, name, ...)                                                           \
    do {                                                                             \
        CHECK(pasoletu_##name(__VA_ARGS__, want, (n)) == 0 && same(out, want, (n))); \
    } while (0)
    DONE(9, pasoletu_record_neo_hookean_fpk_stress, neo, 3, r, 37);
    SAME(9, neo_hookean_fpk_stress, neo, 3, 2.0, f, 9);
    DONE(1, pasoletu_record_neo_hookean_elastic_energy_density, neo, 3, r, 37);
    SAME(1, neo_hookean_elastic_energy_density, neo, 3, 0.25, 2.0, f, 9);
    DONE(1, pasoletu_record_neo_hookean_elastic_energy_density_in, neo, 3, 1.0, r, 37);
    SAME(1, neo_hookean_elastic_energy_density_in, neo, 3, 1.0, 0.25, 2.0, f, 9);
    DONE(1, pasoletu_record_neo_hookean_pos_energy, neo, 3, r, 37);
    SAME(1, neo_hookean_pos_energy, neo, 3, 0.25, 2.0, f, 9);
    DONE(1, pasoletu_record_corotated_elastic_energy_density, law, 4, r, 37);
    SAME(1, corotated_elastic_energy_density, law, 4, 2.0, sigma, 3);
    DONE(1, pasoletu_record_corotated_pos_energy, law, 4, r, 37);
    SAME(1, corotated_pos_energy, law, 4, 2.0, f, 9, sigma, 3);
#undef SAME
    REFUSED(8, 9, pasoletu_record_neo_hookean_fpk_stress, neo, 3, r, 36);
    REFUSED(8, 1, pasoletu_record_neo_hookean_pos_energy, neo, 2, r, 37);
    REFUSED(6, 1, pasoletu_record_neo_hookean_elastic_energy_density_in, neo, 3, 0.5, r, 37);
    REFUSED(6, 1, pasoletu_record_corotated_pos_energy, odd, 4, r, 37);
    REFUSED(1, 9, pasoletu_record_neo_hookean_fpk_stress, bad, 3, r, 37);
    r[PASOLETU_DETERMINANT] = 0.25;
    REFUSED(1, 9, pasoletu_record_neo_hookean_fpk_stress, bad, 3, r, 37);
    REFUSED(11, 9, pasoletu_record_neo_hookean_fpk_stress, neo, 3, r, 37);
    REFUSED(11, 1, pasoletu_record_neo_hookean_elastic_energy_density, neo, 3, r, 37);
    REFUSED(11, 1, pasoletu_record_corotated_elastic_energy_density, law, 4, r, 37);
    REFUSED(11, 1, pasoletu_record_corotated_pos_energy, law, 4, r, 37);
    r[PASOLETU_ALPHA] = infinity();
    REFUSED(1, 1, pasoletu_record_corotated_pos_energy, law, 4, r, 37);
}

/* The calls with the library's own factors. */
static uint8_t factored_pass(double *r, size_t floats, uint64_t *a, size_t answers, uint64_t *c, size_t counts)
{
    return pasoletu_pass_factored(PASOLETU_SNOW, SNOW, 3, r, floats, a, answers, c, counts);
}

static uint8_t factored_judge(double *r, size_t floats, uint64_t *a, size_t answers, uint64_t *c, size_t counts)
{
    const double limits[2] = {1e9, 1e9}, law[4] = {0, 0.9, 3, 1};
    return pasoletu_pass_factored_with_failure(PASOLETU_SNOW, SNOW, 3, limits, 2, law, 4, r, floats, a, answers, c, counts);
}

static void factors(void)
{
    enum { LISTED = 5 };
    static const double TURNED[9] = {0, -0.5, 0, 2, 0, 0, 0, 0, 1};
    double r[LISTED * PASOLETU_FLOATS], was[LISTED * PASOLETU_FLOATS], worked[PASOLETU_FLOATS], sum;
    uint64_t a[2 * LISTED], c[4];

    /* One record: its factors alone are written, whatever stood there. */
    at_rest(r);
    memcpy(r + PASOLETU_F, TURNED, sizeof TURNED);
    for (int k = PASOLETU_U; k < PASOLETU_PHASE; k++)
        r[k] = 7;
    pasoletu_fill_determinants(r, PASOLETU_FLOATS);
    memcpy(was, r, sizeof was);
    CHECK(pasoletu_factor(r, PASOLETU_FLOATS - 1) == 8 && pasoletu_factor(r, PASOLETU_FLOATS + 1) == 8);
    CHECK(same(r, was, PASOLETU_FLOATS));
    CHECK(pasoletu_factor(r, PASOLETU_FLOATS) == 0);
    CHECK(same(r, was, PASOLETU_U) && same(r + PASOLETU_PHASE, was + PASOLETU_PHASE, PASOLETU_FLOATS - PASOLETU_PHASE));
    for (int row = 0; row < 3; row++)
        for (int column = 0; column < 3; column++) {
            sum = 0;
            for (int k = 0; k < 3; k++)
                sum += r[PASOLETU_U + 3 * row + k] * r[PASOLETU_SIGMA + k] * r[PASOLETU_VT + 3 * k + column];
            CHECK(near(sum, TURNED[3 * row + column]));
        }
    CHECK(r[PASOLETU_SIGMA] >= 0 && r[PASOLETU_SIGMA + 1] >= 0 && r[PASOLETU_SIGMA + 2] >= 0);
    memcpy(worked, r, sizeof worked);

    /* A diagonal keeps its entries, with the sign of a zero. */
    at_rest(r);
    r[PASOLETU_F] = 0.25;
    r[PASOLETU_F + 4] = -0.0;
    pasoletu_fill_determinants(r, PASOLETU_FLOATS);
    CHECK(pasoletu_factor(r, PASOLETU_FLOATS) == 0 && r[PASOLETU_SIGMA] == 0.25 && r[PASOLETU_SIGMA + 2] == 1);
    CHECK(bits(r[PASOLETU_SIGMA + 1]) == bits(-0.0));

    /* 1 of any of the 37, also of one that is about to be written; then 11; then 14. */
    at_rest(r);
    r[PASOLETU_F] = r[PASOLETU_F + 1] = 1.7e308;
    r[PASOLETU_F + 4] = r[PASOLETU_F + 8] = 0;
    r[PASOLETU_DETERMINANT] = 0;
    CHECK(pasoletu_factor(r, PASOLETU_FLOATS) == PASOLETU_NOT_ACCEPTED);
    r[PASOLETU_DETERMINANT] = 1;
    CHECK(pasoletu_factor(r, PASOLETU_FLOATS) == 11);
    r[PASOLETU_VT + 5] = nan_with_payload();
    memcpy(was, r, sizeof was);
    CHECK(pasoletu_factor(r, PASOLETU_FLOATS) == 1 && same(r, was, PASOLETU_FLOATS));

    /* A list: turned, too large, a NaN, a wrong determinant, at rest but for its factors. */
    for (int k = 0; k < LISTED; k++)
        at_rest(r + k * PASOLETU_FLOATS);
    memcpy(r, TURNED, sizeof TURNED);
    r[PASOLETU_FLOATS] = r[PASOLETU_FLOATS + 1] = 1.7e308;
    r[PASOLETU_FLOATS + 4] = r[PASOLETU_FLOATS + 8] = 0;
    pasoletu_fill_determinants(r, LISTED * PASOLETU_FLOATS);
    r[2 * PASOLETU_FLOATS + PASOLETU_ALPHA] = nan_with_payload();
    r[3 * PASOLETU_FLOATS + PASOLETU_DETERMINANT] = 2;
    r[4 * PASOLETU_FLOATS + PASOLETU_U + 1] = 5;
    memcpy(was, r, sizeof was);
    memset(a, 0x55, sizeof a);
    memset(c, 0x55, sizeof c);
    CHECK(pasoletu_factor_list(r, LISTED * PASOLETU_FLOATS - 1, a, 2 * LISTED, c, 3) == 8);
    CHECK(pasoletu_factor_list(r, LISTED * PASOLETU_FLOATS, a, 2 * LISTED - 1, c, 3) == 8);
    CHECK(pasoletu_factor_list(r, LISTED * PASOLETU_FLOATS, a, 2 * LISTED, c, 4) == 8);
    CHECK(same(r, was, LISTED * PASOLETU_FLOATS) && a[0] == a[1] && c[0] == a[0]);
    CHECK(pasoletu_factor_list(r, 0, a, 0, c, 3) == 0 && c[0] + c[1] + c[2] == 0);
    CHECK(pasoletu_factor_list(r, LISTED * PASOLETU_FLOATS, a, 2 * LISTED, c, 3) == 0);
    CHECK(c[0] == 0 && c[1] == 2 && c[2] == 3);
    CHECK(a[0] == PASOLETU_STORED && a[1] == 0 && a[2] == PASOLETU_REFUSED && a[3] == 14);
    CHECK(a[4] == PASOLETU_REFUSED && a[5] == 1 && a[6] == PASOLETU_REFUSED && a[7] == 11 && a[8] == PASOLETU_STORED);
    CHECK(same(r + PASOLETU_U, worked + PASOLETU_U, 21) && r[4 * PASOLETU_FLOATS + PASOLETU_U + 1] == 0);
    CHECK(same(r + PASOLETU_FLOATS, was + PASOLETU_FLOATS, 3 * PASOLETU_FLOATS));

    /* Both passes that factor first: the same factors, then the law; what is refused keeps the factors that it had. */
    for (int judged = 0; judged < 2; judged++) {
        uint8_t (*pass)(double *, size_t, uint64_t *, size_t, uint64_t *, size_t) = judged ? factored_judge : factored_pass;
        size_t counts = judged ? 4 : 3;
        uint64_t b[2 * LISTED];
        memcpy(r, was, sizeof r);
        CHECK(pass(r, LISTED * PASOLETU_FLOATS - 1, a, 2 * LISTED, c, counts) == 8);
        CHECK(pass(r, LISTED * PASOLETU_FLOATS, a, 2, c, counts) == 8);
        CHECK(pass(r, LISTED * PASOLETU_FLOATS, a, 2 * LISTED, c, counts - 1) == 8 && same(r, was, LISTED * PASOLETU_FLOATS));
        CHECK(pass(r, LISTED * PASOLETU_FLOATS, a, 2 * LISTED, c, counts) == 0 && c[0] == 0 && c[1] == 2 && c[2] == 3);
        CHECK(pasoletu_update(PASOLETU_SNOW, SNOW, 3, worked, PASOLETU_FLOATS, b, 2) == 0);
        CHECK(same(r, worked, PASOLETU_FLOATS) && a[0] == b[0] && a[1] == b[1]);
        CHECK(a[3] == 14 && a[5] == 1 && a[7] == 11 && a[8] == PASOLETU_STORED);
        CHECK(same(r + PASOLETU_FLOATS, was + PASOLETU_FLOATS, 3 * PASOLETU_FLOATS));
        memcpy(worked, was, sizeof worked);
        CHECK(pasoletu_factor(worked, PASOLETU_FLOATS) == 0);
    }

    /* A law that refuses leaves the factors that the record had; one that leaves the record untouched has the new ones. */
    const double rankine[4] = {1e5, 0.3, 1e9, 1};
    memcpy(r, was, sizeof r);
    r[PASOLETU_PLASTIC_DETERMINANT] = -1000;
    memcpy(was, r, sizeof was);
    CHECK(factored_pass(r, PASOLETU_FLOATS, a, 2, c, 3) == 0 && a[0] == PASOLETU_REFUSED && a[1] == 10);
    CHECK(same(r, was, PASOLETU_FLOATS));
    CHECK(factored_judge(r, PASOLETU_FLOATS, a, 2, c, 4) == 0 && a[1] == 10 && same(r, was, PASOLETU_FLOATS));
    CHECK(pasoletu_pass_factored(PASOLETU_RANKINE, rankine, 4, r, PASOLETU_FLOATS, a, 2, c, 3) == 0);
    CHECK(a[0] == PASOLETU_UNTOUCHED && c[0] == 1 && same(r + PASOLETU_U, worked + PASOLETU_U, 21));
    CHECK(pasoletu_pass_factored(PASOLETU_RANKINE, rankine, 3, r, PASOLETU_FLOATS, a, 2, c, 3) == 8);
    CHECK(pasoletu_pass_factored(NO_MODEL, rankine, 4, r, PASOLETU_FLOATS, a, 2, c, 3) == 6);
}

/* A column's entries are as told: least, greatest and total as int64_t. */
static int column(const uint64_t *c, uint64_t count, int64_t least, int64_t greatest, int64_t total, uint64_t outside,
                  uint64_t not_finite)
{
    return c[PASOLETU_REPORT_COUNT] == count && c[PASOLETU_REPORT_LEAST] == (uint64_t)least
        && c[PASOLETU_REPORT_GREATEST] == (uint64_t)greatest && c[PASOLETU_REPORT_TOTAL] == (uint64_t)total
        && c[PASOLETU_REPORT_OUTSIDE] == outside && c[PASOLETU_REPORT_NOT_FINITE] == not_finite;
}

static void reports(void)
{
    static double r[(PASOLETU_REPORT_MOST + 1) * PASOLETU_FLOATS];
    const int64_t bound = INT64_C(1) << 50;
    uint64_t w[PASOLETU_REPORT + 1], a[PASOLETU_REPORT], b[PASOLETU_REPORT], j[PASOLETU_REPORT], was[PASOLETU_REPORT + 1];
    memset(was, 0x55, sizeof was);
    memcpy(w, was, sizeof w);

    /* 8 for the lengths, then 16; nothing is written. */
    CHECK(pasoletu_report(r, PASOLETU_FLOATS - 1, w, PASOLETU_REPORT) == 8);
    CHECK(pasoletu_report(r, PASOLETU_FLOATS, w, PASOLETU_REPORT - 1) == 8);
    CHECK(pasoletu_report(r, PASOLETU_FLOATS, w, PASOLETU_REPORT + 1) == 8);
    CHECK(pasoletu_report(r, sizeof r / sizeof *r - 1, w, PASOLETU_REPORT) == 8);
    CHECK(pasoletu_report(r, sizeof r / sizeof *r, w, 0) == 8);
    CHECK(pasoletu_report(r, sizeof r / sizeof *r, w, PASOLETU_REPORT) == PASOLETU_TOO_LONG);
    CHECK(memcmp(w, was, sizeof w) == 0);

    /* None: nothing but zeros. */
    memset(a, 0, sizeof a);
    CHECK(pasoletu_report(r, 0, w, PASOLETU_REPORT) == 0 && memcmp(w, a, sizeof a) == 0 && w[PASOLETU_REPORT] == was[0]);

    /* -0.1 goes down to -107374183; 2^20 is counted and the next number is not; the smallest below zero is -1. */
    r[PASOLETU_PLASTIC_HARDENING] = -0.1;
    r[PASOLETU_FLOATS + PASOLETU_PLASTIC_HARDENING] = 1048576.0;
    r[PASOLETU_ELASTIC_HARDENING] = nan_with_payload();
    r[PASOLETU_FLOATS + PASOLETU_ELASTIC_HARDENING] = -infinity();
    r[PASOLETU_PLASTIC_DETERMINANT] = pasoletu_amount(UINT64_C(0x8000000000000001));
    r[PASOLETU_FLOATS + PASOLETU_PLASTIC_DETERMINANT] = pasoletu_amount(UINT64_C(0xc130000000000001));
    CHECK(pasoletu_report(r, 2 * PASOLETU_FLOATS, w, PASOLETU_REPORT) == 0 && w[PASOLETU_REPORT] == was[0]);
    CHECK(column(w + PASOLETU_REPORT_PLASTIC_HARDENING, 2, -107374183, bound, bound - 107374183, 0, 0));
    CHECK(column(w + PASOLETU_REPORT_ELASTIC_HARDENING, 0, 0, 0, 0, 0, 2));
    CHECK(column(w + PASOLETU_REPORT_PLASTIC_DETERMINANT, 1, -1, -1, -1, 1, 0));

    /* The same of the two records put together. */
    CHECK(pasoletu_report(r, PASOLETU_FLOATS, a, PASOLETU_REPORT) == 0);
    CHECK(pasoletu_report(r + PASOLETU_FLOATS, PASOLETU_FLOATS, b, PASOLETU_REPORT) == 0);
    CHECK(pasoletu_join_reports(a, PASOLETU_REPORT, b, PASOLETU_REPORT, j, PASOLETU_REPORT) == 0);
    CHECK(memcmp(w, j, sizeof j) == 0);

    /* 8 and 16 of the joining; nothing is written. */
    CHECK(pasoletu_join_reports(a, 17, b, PASOLETU_REPORT, j, PASOLETU_REPORT) == 8);
    CHECK(pasoletu_join_reports(a, PASOLETU_REPORT, b, 0, j, PASOLETU_REPORT) == 8);
    CHECK(pasoletu_join_reports(a, PASOLETU_REPORT, b, PASOLETU_REPORT, j, 17) == 8);
    CHECK(pasoletu_report(r, PASOLETU_REPORT_MOST * PASOLETU_FLOATS, a, PASOLETU_REPORT) == 0);
    CHECK(pasoletu_join_reports(a, PASOLETU_REPORT, b, PASOLETU_REPORT, j, PASOLETU_REPORT) == PASOLETU_TOO_LONG);
    CHECK(memcmp(w, j, sizeof j) == 0);
}

/* WANTED_VERSION is what the file VERSION says. */
static void version(void)
{
    char numbers[32];
    CHECK(strcmp(PASOLETU_VERSION, WANTED_VERSION) == 0);
    CHECK(strcmp(pasoletu_version(), PASOLETU_VERSION) == 0);
    sprintf(numbers, "%d.%d.%d", PASOLETU_VERSION_MAJOR, PASOLETU_VERSION_MINOR, PASOLETU_VERSION_PATCH);
    CHECK(strcmp(numbers, PASOLETU_VERSION) == 0);
}

static void refusal_texts(void)
{
    for (uint64_t k = 0; k <= PASOLETU_WRONG_DETERMINANT; k++)
        CHECK(strchr(pasoletu_refusal_text(k), ':') != NULL);
    CHECK(strstr(pasoletu_refusal_text(8), "give 37 floats (the determinant last)") != NULL);
    CHECK(strncmp(pasoletu_refusal_text(11), "the record's stored determinant is not that of its F: ", 54) == 0);
    CHECK(strstr(pasoletu_refusal_text(2), "below its range (crushed") != NULL);
    CHECK(strstr(pasoletu_refusal_text(10), "above its range (torn") != NULL);
    CHECK(strncmp(pasoletu_refusal_text(PASOLETU_NOT_ACCEPTED), "the factors or the principal values worked out miss their check: ", 65) == 0);
    CHECK(strstr(pasoletu_refusal_text(PASOLETU_TOO_LONG), "over 4096 particles") != NULL);
    CHECK(strcmp(pasoletu_refusal_text(4), "the sheet ends early: send the sheet again, whole") == 0);
    CHECK(strncmp(pasoletu_refusal_text(99), "no refusal of this library", 26) == 0);
}

/* The phone's question: how many failed in zone 7? */
static void tallies(void)
{
    enum { ZONES = 8, LISTED = 3, FIELDS = 5 };
    double r[LISTED * PASOLETU_FLOATS], was[LISTED * PASOLETU_FLOATS];
    uint64_t zones[LISTED] = {7, 7, 0}, t[ZONES * FIELDS], then[ZONES * FIELDS], a[2 * LISTED];
    static const double LIMITS[2] = {-1, -1}, COROTATED[4] = {0, 0.5, 1, 1};

    /* Clearing counts the particles now; 8 and 12 write nothing. */
    memset(t, 255, sizeof t);
    memcpy(then, t, sizeof t);
    CHECK(pasoletu_clear_tallies(LISTED, zones, LISTED, t, ZONES * FIELDS - 1) == 8);
    CHECK(pasoletu_clear_tallies(LISTED + 1, zones, LISTED, t, ZONES * FIELDS) == 12);
    CHECK(pasoletu_clear_tallies(LISTED, zones, LISTED, t, 7 * FIELDS) == 12);
    CHECK(memcmp(t, then, sizeof t) == 0);
    CHECK(pasoletu_clear_tallies(LISTED, zones, LISTED, t, ZONES * FIELDS) == 0);
    memset(then, 0, sizeof then);
    then[0] = 1;
    then[7 * FIELDS] = 2;
    CHECK(memcmp(t, then, sizeof t) == 0);

    /* A pass adds each outcome to its zone; one that is refused counts there as refused. */
    for (int k = 0; k < LISTED; k++)
        at_rest(r + k * PASOLETU_FLOATS);
    r[PASOLETU_FLOATS + PASOLETU_PHASE] = nan_with_payload();
    memcpy(was, r, sizeof was);
    CHECK(pasoletu_pass_by_zone(PASOLETU_SNOW, SNOW, 3, zones, LISTED - 1, r, LISTED * PASOLETU_FLOATS, a, 2 * LISTED, t, ZONES * FIELDS) == 12);
    CHECK(same(r, was, LISTED * PASOLETU_FLOATS) && memcmp(t, then, sizeof t) == 0);
    CHECK(pasoletu_pass_by_zone(PASOLETU_SNOW, SNOW, 3, zones, LISTED, r, LISTED * PASOLETU_FLOATS, a, 2 * LISTED, t, ZONES * FIELDS) == 0);
    CHECK(a[0] == 1 && a[2] == 2 && a[3] == 1 && a[4] == 1);
    then[2] = 1;
    then[7 * FIELDS + 2] = then[7 * FIELDS + 3] = 1;
    CHECK(memcmp(t, then, sizeof t) == 0);

    /* What happened before a move stays where it happened; failed counts beside stored, and not where refused. */
    CHECK(pasoletu_move_particle(LISTED, 0, 8, zones, LISTED, t, ZONES * FIELDS) == 12 && zones[0] == 7);
    CHECK(pasoletu_move_particle(LISTED, 0, 3, zones, LISTED, t, ZONES * FIELDS) == 0 && zones[0] == 3);
    then[3 * FIELDS] = then[7 * FIELDS] = 1;
    CHECK(memcmp(t, then, sizeof t) == 0);
    CHECK(pasoletu_pass_with_failure_by_zone(PASOLETU_SNOW, SNOW, 3, LIMITS, 2, COROTATED, 4, zones, LISTED, r, LISTED * PASOLETU_FLOATS, a, 2 * LISTED,
                                             t, ZONES * FIELDS) == 0);
    then[2]++;
    then[4]++;
    then[3 * FIELDS + 2]++;
    then[3 * FIELDS + 4]++;
    then[7 * FIELDS + 3]++;
    CHECK(memcmp(t, then, sizeof t) == 0);

    /* A tally at its end refuses the pass before any record, also one of another kind of outcome. */
    t[4] = then[4] = 4294967295u;
    CHECK(pasoletu_pass_by_zone(PASOLETU_SNOW, SNOW, 3, zones, LISTED, r, LISTED * PASOLETU_FLOATS, a, 2 * LISTED, t, ZONES * FIELDS) == 13);
    CHECK(memcmp(t, then, sizeof t) == 0);
}

/* A sheet over a slow line: every cutting into two, byte by byte, faults, 15, and lists of a wrong length. */
static void sheets_in_parts(void)
{
    enum { MOST = PASOLETU_SHEET_MOST, WORDS = MOST * PASOLETU_FLOATS, PLACES = MOST * PASOLETU_ANSWERS, STATE = PASOLETU_PARTS_STATE, LISTED = 3 };
    static double r[WORDS], whole_r[WORDS], given[LISTED * PASOLETU_FLOATS];
    static uint64_t a[PLACES], whole_a[PLACES];
    static uint8_t s[PASOLETU_SHEET_BYTES];
    uint64_t state[STATE], was[STATE], p[2] = {9, 9}, c[4], n;

    for (int k = 0; k < LISTED; k++)
        at_rest(given + k * PASOLETU_FLOATS);
    given[PASOLETU_FLOATS + PASOLETU_PHASE] = nan_with_payload();
    CHECK(pasoletu_write_sheet(PASOLETU_SNOW, SNOW, 3, given, LISTED * PASOLETU_FLOATS, s, sizeof s, &n, 1) == 0);
    CHECK(pasoletu_run_sheet(s, n, whole_r, WORDS, whole_a, PLACES, c, 4) == 0);

    /* Cut anywhere: the same records, answers and count. */
    int cuts = 1;
    for (uint64_t k = 0; k <= n; k++) {
        memset(r, 0, sizeof r);
        memset(a, 0, sizeof a);
        cuts = cuts && pasoletu_begin_parts(state, STATE) == 0;
        cuts = cuts && pasoletu_part(s, k, state, STATE, r, WORDS, a, PLACES, p, 2) == 0;
        cuts = cuts && pasoletu_part(s + k, n - k, state, STATE, r, WORDS, a, PLACES, p, 2) == 0;
        cuts = cuts && pasoletu_end_parts(r, WORDS, a, PLACES, state, STATE, p, 2) == 0;
        cuts = cuts && p[PASOLETU_PARTS_COMPLETE] == LISTED && p[PASOLETU_PARTS_COUNT] == LISTED;
        cuts = cuts && same(r, whole_r, WORDS) && memcmp(a, whole_a, sizeof a) == 0;
    }
    CHECK(cuts);

    /* After the end 15, also to a part of no bytes and to an end, with nothing changed; 8 comes before it. */
    memcpy(was, state, sizeof was);
    CHECK(pasoletu_part(s, 0, state, STATE, r, WORDS, a, PLACES, p, 2) == PASOLETU_AFTER_END);
    CHECK(pasoletu_part(s, n, state, STATE, r, WORDS, a, PLACES, p, 2) == PASOLETU_AFTER_END);
    CHECK(pasoletu_end_parts(r, WORDS, a, PLACES, state, STATE, p, 2) == PASOLETU_AFTER_END);
    CHECK(pasoletu_part(s, 0, state, STATE, r, WORDS, a, PLACES - 1, p, 2) == 8);
    CHECK(memcmp(state, was, sizeof was) == 0 && same(r, whole_r, WORDS) && memcmp(a, whole_a, sizeof a) == 0);

    /* Byte by byte: a record is worked with its last byte, and a shortage is told only at the end, then again. */
    memset(r, 0, sizeof r);
    int bytewise = pasoletu_begin_parts(state, STATE) == 0;
    for (uint64_t k = 0; k + 1 < n; k++) {
        bytewise = bytewise && pasoletu_part(s + k, 1, state, STATE, r, WORDS, a, PLACES, p, 2) == 0;
        bytewise = bytewise && p[PASOLETU_PARTS_COMPLETE] == (k + 1 < 26 ? 0 : (k + 1 - 26) / 288);
    }
    CHECK(bytewise);
    CHECK(pasoletu_end_parts(r, WORDS, a, PLACES, state, STATE, p, 2) == 4 && p[PASOLETU_PARTS_COMPLETE] == LISTED - 1);
    CHECK(pasoletu_part(s + n - 1, 1, state, STATE, r, WORDS, a, PLACES, p, 2) == 4);
    CHECK(pasoletu_end_parts(r, WORDS, a, PLACES, state, STATE, p, 2) == 4);
    CHECK(same(r, whole_r, (LISTED - 1) * PASOLETU_FLOATS) && r[(LISTED - 1) * PASOLETU_FLOATS] == 0);

    /* A byte after the last: the records stand, and the fault is told again. */
    CHECK(pasoletu_begin_parts(state, STATE) == 0);
    CHECK(pasoletu_part(s, n, state, STATE, r, WORDS, a, PLACES, p, 2) == 0);
    CHECK(pasoletu_part(s, 1, state, STATE, r, WORDS, a, PLACES, p, 2) == 7 && p[PASOLETU_PARTS_COMPLETE] == LISTED);
    CHECK(pasoletu_end_parts(r, WORDS, a, PLACES, state, STATE, p, 2) == 7 && same(r, whole_r, WORDS));

    /* A state whose words name no model, or have another flag: 6, and nothing is worked or written; put right again it goes on. */
    CHECK(pasoletu_begin_parts(state, STATE) == 0);
    CHECK(pasoletu_part(s, 26, state, STATE, r, WORDS, a, PLACES, p, 2) == 0);
    memset(r, 0, sizeof r);
    memset(a, 0, sizeof a);
    p[0] = p[1] = 9;
    state[PASOLETU_PARTS_STATE_MODEL] = NO_MODEL;
    memcpy(was, state, sizeof was);
    CHECK(pasoletu_part(s + 26, n - 26, state, STATE, r, WORDS, a, PLACES, p, 2) == 6);
    CHECK(pasoletu_end_parts(r, WORDS, a, PLACES, state, STATE, p, 2) == 6);
    CHECK(memcmp(state, was, sizeof was) == 0 && p[0] == 9 && p[1] == 9 && a[0] == 0 && r[0] == 0);
    state[PASOLETU_PARTS_STATE_MODEL] = PASOLETU_NACC;
    state[PASOLETU_PARTS_STATE_PARAMETERS + 3] = UINT64_C(0x401c000000000000);
    CHECK(pasoletu_part(s + 26, n - 26, state, STATE, r, WORDS, a, PLACES, p, 2) == 6 && a[0] == 0 && r[0] == 0);
    state[PASOLETU_PARTS_STATE_MODEL] = PASOLETU_SNOW;
    state[PASOLETU_PARTS_STATE_PARAMETERS + 3] = 0;
    CHECK(pasoletu_part(s + 26, n - 26, state, STATE, r, WORDS, a, PLACES, p, 2) == 0 && same(r, whole_r, LISTED * PASOLETU_FLOATS));

    /* Lists of another length: 8, nothing written, and no fault. */
    CHECK(pasoletu_begin_parts(state, STATE - 1) == 8 && pasoletu_begin_parts(state, 0) == 8);
    CHECK(pasoletu_begin_parts(state, STATE) == 0);
    memcpy(was, state, sizeof was);
    p[0] = p[1] = 9;
    CHECK(pasoletu_part(s, n, state, STATE - 1, r, WORDS, a, PLACES, p, 2) == 8);
    CHECK(pasoletu_part(s, n, state, STATE, r, WORDS - PASOLETU_FLOATS, a, PLACES, p, 2) == 8);
    CHECK(pasoletu_part(s, n, state, STATE, r, WORDS, a, PLACES - 2, p, 2) == 8);
    CHECK(pasoletu_part(s, n, state, STATE, r, WORDS, a, PLACES, p, 1) == 8);
    CHECK(pasoletu_end_parts(r, WORDS - 1, a, PLACES, state, STATE, p, 2) == 8);
    CHECK(pasoletu_end_parts(r, WORDS, a, PLACES, state, STATE, p, 1) == 8);
    CHECK(memcmp(state, was, sizeof was) == 0 && p[0] == 9 && p[1] == 9);
    CHECK(pasoletu_part(s, n, state, STATE, r, WORDS, a, PLACES, p, 2) == 0);
    CHECK(strncmp(pasoletu_refusal_text(PASOLETU_AFTER_END), "a part or an end of a sheet in parts comes after its end: ", 58) == 0);
}

/* Slices of a slope: flat records of 20. */
static void slices(void)
{
    enum { LISTED = 3 };
    double r[LISTED * PASOLETU_FLAT_FLOATS], was[LISTED * PASOLETU_FLAT_FLOATS];
    uint64_t a[2 * LISTED] = {0}, counts[3] = {0};

    memset(r, 0, sizeof r);
    for (int k = 0; k < LISTED; k++) {
        double *one = r + k * PASOLETU_FLAT_FLOATS;
        one[PASOLETU_FLAT_F] = one[PASOLETU_FLAT_F + 3] = one[PASOLETU_FLAT_U] = one[PASOLETU_FLAT_U + 3] = 1;
        one[PASOLETU_FLAT_SIGMA] = one[PASOLETU_FLAT_SIGMA + 1] = one[PASOLETU_FLAT_VT] = one[PASOLETU_FLAT_VT + 3] = 1;
        for (int i = 0; i < 4; i++)
            one[PASOLETU_FLAT_PHASE + i] = 1;
    }
    r[PASOLETU_FLAT_SIGMA] = 0.9;
    r[PASOLETU_FLAT_FLOATS + PASOLETU_FLAT_U] = nan_with_payload();
    memcpy(was, r, sizeof was);

    /* 8 with 20, 6, and nothing written. */
    CHECK(pasoletu_flat_update(PASOLETU_SNOW, SNOW, 3, r, PASOLETU_FLOATS, a, 2) == 8);
    CHECK(pasoletu_flat_update(PASOLETU_SNOW, SNOW, 3, r, PASOLETU_FLAT_FLOATS - 1, a, 2) == 8);
    CHECK(pasoletu_flat_update(PASOLETU_SNOW, SNOW, 2, r, PASOLETU_FLAT_FLOATS, a, 2) == 8);
    CHECK(pasoletu_flat_update(NO_MODEL, SNOW, 0, r, PASOLETU_FLAT_FLOATS, a, 2) == 6);
    CHECK(pasoletu_flat_pass(PASOLETU_SNOW, SNOW, 3, r, LISTED * PASOLETU_FLAT_FLOATS - 1, a, 2 * LISTED, counts, 3) == 8);
    CHECK(pasoletu_flat_pass(PASOLETU_SNOW, SNOW, 3, r, LISTED * PASOLETU_FLAT_FLOATS, a, 2 * LISTED - 1, counts, 3) == 8);
    CHECK(pasoletu_flat_pass(PASOLETU_SNOW, SNOW, 3, r, LISTED * PASOLETU_FLAT_FLOATS, a, 2 * LISTED, counts, 4) == 8);
    CHECK(same(r, was, LISTED * PASOLETU_FLAT_FLOATS) && a[0] == 0 && counts[1] == 0);

    /* A refused record keeps its bits, the others are still worked. */
    CHECK(pasoletu_flat_pass(PASOLETU_SNOW, SNOW, 3, r, LISTED * PASOLETU_FLAT_FLOATS, a, 2 * LISTED, counts, 3) == 0);
    CHECK(counts[0] == 0 && counts[1] == 2 && counts[2] == 1);
    CHECK(a[0] == PASOLETU_STORED && a[2] == PASOLETU_REFUSED && a[3] == 1 && a[4] == PASOLETU_STORED);
    CHECK(r[PASOLETU_FLAT_SIGMA] == 0.975 && r[PASOLETU_FLAT_F] == 0.975 && r[PASOLETU_FLAT_SIGMA + 1] == 1);
    CHECK(same(r + PASOLETU_FLAT_FLOATS, was + PASOLETU_FLAT_FLOATS, PASOLETU_FLAT_FLOATS));
    CHECK(pasoletu_flat_update(PASOLETU_SNOW, SNOW, 3, was, PASOLETU_FLAT_FLOATS, a, 2) == 0);
    CHECK(same(r, was, PASOLETU_FLAT_FLOATS));
    CHECK(pasoletu_flat_update(PASOLETU_SNOW, SNOW, 3, was + PASOLETU_FLAT_FLOATS, PASOLETU_FLAT_FLOATS, a, 2) == 1);
}

/* A mode that is set is seen, in the control word and by arithmetic, and nothing else is. */
static void seen(int wanted)
{
    int told = pasoletu_float_mode(), tried = pasoletu_float_mode_tried();
    CHECK(told == wanted);
    CHECK(tried == wanted);
}

#if defined(__x86_64__)
static void set_mode(uint32_t bits)
{
    uint32_t word = 0x1f80u | bits; /* the default: all exceptions masked */
    __asm__ __volatile__("ldmxcsr %0" : : "m"(word));
}
static const uint32_t ROUNDED[] = {0x2000u, 0x4000u, 0x6000u}, FLUSHES = 0x8000u, DENORMALS = 0x0040u;
#elif defined(__aarch64__)
static void set_mode(uint32_t bits)
{
    uint64_t word = bits;
    __asm__ __volatile__("msr fpcr, %0" : : "r"(word));
}
static const uint32_t ROUNDED[] = {0x400000u, 0x800000u, 0xc00000u}, FLUSHES = 0x1000000u, DENORMALS = 0x1000000u;
#endif

static void float_mode(void)
{
    seen(0);
#if defined(__x86_64__) || defined(__aarch64__)
    int flushed = FLUSHES == DENORMALS ? PASOLETU_MODE_FLUSHED | PASOLETU_MODE_DENORMALS : PASOLETU_MODE_FLUSHED;
    int denormals = FLUSHES == DENORMALS ? flushed : PASOLETU_MODE_DENORMALS;
    for (int k = 0; k < 3; k++) {
        set_mode(ROUNDED[k]);
        seen(PASOLETU_MODE_ROUNDING);
        set_mode(ROUNDED[k] | FLUSHES);
        seen(PASOLETU_MODE_ROUNDING | flushed);
    }
    set_mode(FLUSHES);
    seen(flushed);
    set_mode(DENORMALS);
    seen(denormals);
    set_mode(FLUSHES | DENORMALS);
    seen(PASOLETU_MODE_FLUSHED | PASOLETU_MODE_DENORMALS);
    set_mode(0);
#endif
    seen(0);
}

int main(void)
{
    version();
    float_mode();
    refusal_texts();
    elementary();
    physics();
    neo_hookean();
    corotated();
    stress_and_verdict();
    monaghan();
    parts_of_laws();
    update();
    passes();
    judged_after_the_law();
    sheets();
    sheets_out();
    determinants();
    of_a_record();
    factors();
    reports();
    tallies();
    sheets_in_parts();
    slices();
    printf("%d passed, %d failed\n", passed, failed);
    return failed != 0;
}
