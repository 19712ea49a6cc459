/* Pasoletu for C and C++: how snow and debris yield, break and push, particle by particle.
 *
 * THE RULES OF EVERY CALL
 *
 * What comes back. Every call returns 0, or the number of its refusal (below; pasoletu_refusal_text says it in words).
 * A refused call writes nothing: every list that was lent holds the bits it held. One kind of call does: where
 * pasoletu_part or pasoletu_end_parts meets a fault, it leaves in its lists how far the sheet came.
 *
 * Lists. A list is two arguments, a pointer and the number of its entries (not of its bytes). Lists are lent for the
 * time of the call: the library keeps no pointer, allocates nothing, holds no state, and frees nothing. The caller
 * owns all of them, before and after. No two lists of a call may overlap where one of them is written. Calls on
 * different lists may run at the same time in different threads.
 *
 * Pointers. A pointer is to entries of its type and aligned for it: to 8 bytes for double and uint64_t, as malloc and
 * arrays of these types are; a double inside a packed structure or at an odd place of a file's bytes is not, and must
 * be copied first. Bytes (uint8_t) may stand anywhere. A pointer must not be null, also where its list has no entry:
 * lend the address of any entry of the type, and 0.
 *
 * Lengths. A list of any length but the one told is refused by 8, before all else. A list of particles may have none:
 * the pass then returns 0 and counts of 0.
 *
 * Floats. Lists of double hold IEEE 754 binary64; the library reads and writes their bits. Matrices are 9 doubles, row
 * by row: m[3 * row + column]. (nalgebra, Eigen and Fortran keep columns together by default: transpose on the way.)
 * Flags are the doubles 0.0 and 1.0, told by their bits: -0.0 is refused by 6.
 *
 * The mode. The proofs speak of IEEE 754's default: rounding to nearest, no flushing of small numbers to zero. A host
 * that is built with -ffast-math, or sets another mode, gets other bits: a right record may be refused by 11, an
 * exponential be off by 14 units. The library does not look; pasoletu_float_mode does, and says what is wrong.
 *
 * Records. A record is PASOLETU_FLOATS doubles, the last of them the determinant of its F: whoever writes F fills it in
 * (pasoletu_fill_determinants), and every call that writes F writes it too. Another one is refused by 11.
 *
 * Factors. The laws take U, sigma and V^T as they stand in a record. A host that decomposes nothing itself writes F and
 * its determinant, any finite doubles for the factors, and asks pasoletu_factor, or a pass that factors first.
 *
 * The order of refusals. 8 first, then 6, then 1; then 11 for a record's determinant; then 14 for factors worked here;
 * then 3 for moduli that are not finite; then the law's steps in order to the first 2, 3 or 10; last 3 for a result that
 * is not finite.
 *
 * "Section n" below is section n of docs/RULES.md, the exact rules. What each call answers is proved for every input;
 * docs/PROMISES.md leads to each statement.
 *
 * The library is for x86-64. Link with -lpasoletu; it needs no other library.
 */
#ifndef PASOLETU_H
#define PASOLETU_H

#include <stddef.h>
#include <stdint.h>
#include <string.h>

#ifdef __cplusplus
extern "C" {
#endif

/* ==== Made by tools/table from calls.toml and VERSION: edit those ==== */

#define PASOLETU_VERSION "1.0.0"
#define PASOLETU_VERSION_MAJOR 1
#define PASOLETU_VERSION_MINOR 0
#define PASOLETU_VERSION_PATCH 0

/* The version of this header, which install.sh installs with its library. The text is constant. */
static inline const char *pasoletu_version(void)
{
    return PASOLETU_VERSION;
}

/* ---- Refusals (section 6) ---------------------------------------------------------------------------------------- */

enum {
    PASOLETU_DONE = 0,
    PASOLETU_NOT_FINITE = 1,         /* an input is NaN or infinite */
    PASOLETU_BELOW_RANGE = 2,        /* a function would get an argument below its range */
    PASOLETU_NO_NUMBER = 3,          /* a NaN arose, or a modulus or a result is not finite */
    PASOLETU_ENDS_EARLY = 4,         /* the sheet ends early */
    PASOLETU_NOT_SHORTEST = 5,       /* a number of the sheet is not spelled shortest or has over two groups */
    PASOLETU_UNKNOWN = 6,            /* unknown model, a flag that is neither 0.0 nor 1.0, or a number of axes that the call does not take */
    PASOLETU_TOO_MANY = 7,           /* the sheet has over 200 particles, or bytes after the last */
    PASOLETU_LENGTH = 8,             /* a list has the wrong length */
    PASOLETU_NO_ROOM = 9,            /* the lent room is shorter than the sheet */
    PASOLETU_ABOVE_RANGE = 10,       /* a function would get an argument above its range */
    PASOLETU_WRONG_DETERMINANT = 11, /* the record's stored determinant is not that of its F */
    PASOLETU_BAD_ZONE = 12,          /* a zone or a particle is out of range, there are over 256 tallies, or list lengths are unlike */
    PASOLETU_TALLY_FULL = 13,        /* a tally would pass its end, 4294967295 */
    PASOLETU_NOT_ACCEPTED = 14,      /* the factors or the principal values worked out miss their check */
    PASOLETU_AFTER_END = 15,         /* a part or an end of a sheet in parts comes after its end */
    PASOLETU_TOO_LONG = 16           /* a report has over 4096 particles */
};

/* What a refusal means and what to do, in words. The text is constant: nothing is to be freed. */
static inline const char *pasoletu_refusal_text(uint64_t refusal)
{
    switch (refusal) {
    case PASOLETU_DONE:
        return "done: nothing was refused";
    case PASOLETU_NOT_FINITE:
        return "an input is NaN or infinite: find who wrote that value";
    case PASOLETU_BELOW_RANGE:
        return "a function would get an argument below its range (crushed; of Snow: torn): look at the singular "
               "values and the hardenings";
    case PASOLETU_NO_NUMBER:
        return "a NaN arose, or a modulus or a result is not finite: look at the sizes of the parameters and inputs";
    case PASOLETU_ENDS_EARLY:
        return "the sheet ends early: send the sheet again, whole";
    case PASOLETU_NOT_SHORTEST:
        return "a number of the sheet is not spelled shortest or has over two groups: correct the sheet's writer";
    case PASOLETU_UNKNOWN:
        return "unknown model, a flag that is neither 0.0 nor 1.0, or a number of axes that the call does not take: "
               "check the model's number, its flags and its axes";
    case PASOLETU_TOO_MANY:
        return "the sheet has over 200 particles, or bytes after the last: split the sheet, or send it alone";
    case PASOLETU_LENGTH:
        return "a list has the wrong length: give 37 floats (the determinant last) and 2 answers a particle, 9 floats "
               "a matrix, 3 a vector";
    case PASOLETU_NO_ROOM:
        return "the lent room is shorter than the sheet: lend 59267 bytes, which hold every sheet";
    case PASOLETU_ABOVE_RANGE:
        return "a function would get an argument above its range (torn; of Snow: crushed): look at the singular "
               "values and the hardenings";
    case PASOLETU_WRONG_DETERMINANT:
        return "the record's stored determinant is not that of its F: fill it in where you write F "
               "(fill_determinants)";
    case PASOLETU_BAD_ZONE:
        return "a zone or a particle is out of range, there are over 256 tallies, or list lengths are unlike: hold "
               "the zone list to the particles and the tallies";
    case PASOLETU_TALLY_FULL:
        return "a tally would pass its end, 4294967295: read the tallies, then clear them";
    case PASOLETU_NOT_ACCEPTED:
        return "the factors or the principal values worked out miss their check: look at the sizes of F's or the "
               "stress's entries, or give factors of your own";
    case PASOLETU_AFTER_END:
        return "a part or an end of a sheet in parts comes after its end: begin the next sheet";
    case PASOLETU_TOO_LONG:
        return "a report has over 4096 particles: report them in lists of at most 4096";
    default:
        return "no refusal of this library: header and library do not belong together";
    }
}

/* ---- Models and their parameters (sections 5 and 7) -------------------------------------------------------------- */

/* Snow: min_epsilon, max_epsilon, hardening_coeff. Its amount: elastic hardening. */
#define PASOLETU_SNOW 0
/* Rankine: young_modulus, poisson_ratio, tensile_strength, softening_rate, the arguments of new. Its amount: plastic
 * hardening. */
#define PASOLETU_RANKINE 1
/* Drucker-Prager: h0, h1, h2, h3, lambda, mu, only_active_when_failed (flag), volume_correction. Its amount: dq. */
#define PASOLETU_DRUCKER_PRAGER 2
/* NACC: young_modulus, poisson_ratio, cohesion, hardening_enabled (flag), hardening_factor, m, the arguments of
 * with_m. Its amount: alpha. */
#define PASOLETU_NACC 3

/* How many parameters each model has. */
#define PASOLETU_SNOW_PARAMETERS 3
#define PASOLETU_RANKINE_PARAMETERS 4
#define PASOLETU_DRUCKER_PRAGER_PARAMETERS 8
#define PASOLETU_NACC_PARAMETERS 6

/* The Rust's defaults of the models' parameters. */
#define PASOLETU_SNOW_MIN_EPSILON 0.025
#define PASOLETU_SNOW_MAX_EPSILON 0.0045
#define PASOLETU_SNOW_HARDENING_COEFF 10.0
#define PASOLETU_DRUCKER_PRAGER_H0 0.6108652381980153   /* 35 degrees */
#define PASOLETU_DRUCKER_PRAGER_H1 0.15707963267948966  /* 9 degrees */
#define PASOLETU_DRUCKER_PRAGER_H2 0.2
#define PASOLETU_DRUCKER_PRAGER_H3 0.17453292519943295  /* 10 degrees */
#define PASOLETU_DRUCKER_PRAGER_VOLUME_CORRECTION 1.0

/* ---- A record: the doubles of a particle (section 7) ------------------------------------------------------------- */

#define PASOLETU_FLOATS 37
/* The place of each part in a record. */
#define PASOLETU_F 0                     /* 9: deformation gradient, row by row */
#define PASOLETU_U 9                     /* 9: U of F = U diag(sigma) V^T, row by row; the host's own, or pasoletu_factor's */
#define PASOLETU_SIGMA 18                /* 3: singular values */
#define PASOLETU_VT 21                   /* 9: V^T, row by row */
#define PASOLETU_PHASE 30                /* 1.0 whole, 0.0 failed */
#define PASOLETU_PLASTIC_DETERMINANT 31  /* at first 1 */
#define PASOLETU_PLASTIC_HARDENING 32    /* at first 1 */
#define PASOLETU_ELASTIC_HARDENING 33    /* at first 1 */
#define PASOLETU_LOG_GAIN 34             /* at first 0 */
#define PASOLETU_ALPHA 35                /* NACC's alpha */
#define PASOLETU_DETERMINANT 36          /* of the F that stands there, in every bit (pasoletu_fill_determinants) */

/* The Rust's defaults of the laws that are no models. */
#define PASOLETU_NEO_HOOKEAN_CFL_COEFF 0.5
#define PASOLETU_COROTATED_CFL_COEFF 0.9
#define PASOLETU_MONAGHAN_MAX_NEG_PRESSURE 1.0

/* Answers: two numbers a particle. The first is the outcome, the second what stands beside it. */
#define PASOLETU_ANSWERS 2    /* numbers a particle */
#define PASOLETU_UNTOUCHED 0  /* inside the yield surface; beside it 0 */
#define PASOLETU_STORED 1     /* updated; beside it the amount's bits (pasoletu_amount) */
#define PASOLETU_REFUSED 2    /* the record keeps its bits; beside it the refusal's number */

/* Sheets (section 7). */
#define PASOLETU_SHEET_MOST 200       /* particles of a sheet */
#define PASOLETU_SHEET_BYTES 59267    /* of the longest sheet that is not refused */
#define PASOLETU_WITH_DETERMINANT 4   /* added to a model's number: the same law, in a sheet whose records have 37 floats */
#define PASOLETU_SHEET_FLOATS 36      /* a record in a sheet without determinants */
#define PASOLETU_HEADER 11            /* entries of read_sheet's header */
#define PASOLETU_HEADER_MODEL 0
#define PASOLETU_HEADER_PARAMETERS 1  /* 8: bits of the parameters, 0 past the model's last */
#define PASOLETU_HEADER_COUNT 9       /* particles */
#define PASOLETU_HEADER_PLACE 10      /* of the first record's first byte in the sheet */

/* Sheets in parts (section 7): the state's words are the calls' own; these places of it may be read. */
#define PASOLETU_PARTS_STATE 52            /* entries of a state */
#define PASOLETU_PARTS_STATE_WANTS 1       /* 4 while what stands before the records is not complete, 0 once it is */
#define PASOLETU_PARTS_STATE_MODEL 2
#define PASOLETU_PARTS_STATE_PARAMETERS 7  /* 8: bits of the parameters, 0 past the model's last */
#define PASOLETU_PARTS_PROGRESS 2          /* entries of a call's progress */
#define PASOLETU_PARTS_COMPLETE 0          /* in it: how many particles are complete and worked */
#define PASOLETU_PARTS_COUNT 1             /* how many the sheet says it has; 0 before that is known */

/* The calling thread's floating-point mode (float_mode): what of it is not IEEE 754's default, by which all is
 * proved. */
#define PASOLETU_MODE_ROUNDING 1   /* results are not rounded to nearest */
#define PASOLETU_MODE_FLUSHED 2    /* a result below the smallest normal number becomes 0 (flush-to-zero) */
#define PASOLETU_MODE_DENORMALS 4  /* an input below it is read as 0 (denormals-are-zero) */

/* Flat records (section 7): 20 doubles a particle, without a determinant. */
#define PASOLETU_FLAT_FLOATS 20  /* a flat record */
#define PASOLETU_FLAT_F 0        /* deformation gradient, two rows of two */
#define PASOLETU_FLAT_U 4        /* U of F = U diag(sigma) V^T, two rows of two */
#define PASOLETU_FLAT_SIGMA 8    /* two singular values */
#define PASOLETU_FLAT_VT 10      /* V^T, two rows of two */
#define PASOLETU_FLAT_PHASE 14   /* the six scalars, in the order of PASOLETU_PHASE to PASOLETU_ALPHA */

/* Reports (section 7): three columns of six entries. Least, greatest and total are whole numbers of 2^-30, as
 * int64_t. */
#define PASOLETU_REPORT_MOST 4096               /* particles of a report */
#define PASOLETU_REPORT 18                      /* entries of a report */
#define PASOLETU_REPORT_COLUMN 6                /* entries of a column */
#define PASOLETU_REPORT_PLASTIC_HARDENING 0     /* the first entry of this column */
#define PASOLETU_REPORT_ELASTIC_HARDENING 6     /* of this */
#define PASOLETU_REPORT_PLASTIC_DETERMINANT 12  /* and of this */
#define PASOLETU_REPORT_COUNT 0                 /* in a column: how many values are counted */
#define PASOLETU_REPORT_LEAST 1                 /* the least of them; 0 of none */
#define PASOLETU_REPORT_GREATEST 2              /* the greatest; 0 of none */
#define PASOLETU_REPORT_TOTAL 3                 /* their sum */
#define PASOLETU_REPORT_OUTSIDE 4               /* how many lie not within 2^20 of zero */
#define PASOLETU_REPORT_NOT_FINITE 5            /* how many are NaN or infinite */

/* Why (section 7): the entries of a reason. Tests, steps and branches are numbered in docs/STEPS.md. */
#define PASOLETU_REASON 11         /* entries of a reason */
#define PASOLETU_REASON_KIND 0     /* 0 a test of two numbers, 1 of three zeros, 2 a flag, 3 Snow's bounds, 4 a refusal */
#define PASOLETU_REASON_REFUSAL 1  /* the refusal's number, else 0 */
#define PASOLETU_REASON_STEP 2     /* the step that refused, else 0 */
#define PASOLETU_REASON_OF 3       /* for 1 whose place: 1 a parameter's, 2 the record's; else 0 */
#define PASOLETU_REASON_PLACE 4    /* that place, from 0 */
#define PASOLETU_REASON_TEST 5     /* the last test that chose the branch, else 0 */
#define PASOLETU_REASON_HELD 6     /* whether it held */
#define PASOLETU_REASON_BRANCH 7   /* the branch; 0 is untouched */
#define PASOLETU_REASON_NUMBERS 8  /* 3: bits of the numbers compared; of Snow the bounds, 0 neither, 1 lower, 2 upper */

/* The floating-point mode of the thread that calls, as arithmetic shows it: 0, or a sum of PASOLETU_MODE_ numbers. */
static inline int pasoletu_float_mode_tried(void)
{
    /* 1/4 and 3/4 of the last place of 1; the smallest normal number; 2^52 */
    volatile double one = 1.0, low = 1.0 / 18014398509481984.0, high = 3.0 / 18014398509481984.0;
    volatile double least = 2.2250738585072014e-308, half = 0.5, large = 4503599627370496.0, tiny, result;
    double held;
    uint64_t bits = 1;
    int wrong = 0;
    result = one + low;
    if (result != 1.0)
        wrong |= PASOLETU_MODE_ROUNDING;
    result = one + high;
    if (result == 1.0)
        wrong |= PASOLETU_MODE_ROUNDING;
    memcpy(&held, &bits, sizeof held);
    tiny = held;
    result = tiny * large;
    if (result == 0.0)
        wrong |= PASOLETU_MODE_DENORMALS;
    result = least * half;
    held = result;
    memcpy(&bits, &held, sizeof bits);
    if (bits == 0)
        wrong |= PASOLETU_MODE_FLUSHED;
    return wrong;
}

/* The same from the processor's control word where that can be read. A host that is built with -ffast-math, or that sets
 * the mode itself, asks once a thread before the first call; a mode that is set is the thread's own. */
static inline int pasoletu_float_mode(void)
{
#if defined(__x86_64__) && defined(__GNUC__)
    uint32_t word = 0; /* MXCSR */
    __asm__ __volatile__("stmxcsr %0" : "=m"(word));
    return ((word & 0x6000u) != 0 ? PASOLETU_MODE_ROUNDING : 0) | ((word & 0x8000u) != 0 ? PASOLETU_MODE_FLUSHED : 0) |
           ((word & 0x0040u) != 0 ? PASOLETU_MODE_DENORMALS : 0);
#elif defined(__aarch64__) && defined(__GNUC__)
    uint64_t word = 0; /* FPCR: its bit FZ is for results and inputs */
    __asm__ __volatile__("mrs %0, fpcr" : "=r"(word));
    return ((word & 0xc00000u) != 0 ? PASOLETU_MODE_ROUNDING : 0) | ((word & 0x1000000u) != 0 ? PASOLETU_MODE_FLUSHED : 0) |
           ((word & 0x1000001u) != 0 ? PASOLETU_MODE_DENORMALS : 0);
#else
    return pasoletu_float_mode_tried();
#endif
}

/* ---- Elementary functions (section 3) ---------------------------------------------------------------------------- */
/* Each writes one double. The answer lies within the distance told of the exact value.
 * Refusals: 8 unless out_length is 1; 1 where x is NaN or infinite; 2 where x lies below the range, 10 where above
 * it. */

/* out: 1. e^x. Range -700 to 700; within 2^-45 times the exact value; exactly 1 at 0. */
uint8_t pasoletu_exp(double x, double *out, size_t out_length);

/* out: 1. Natural logarithm. Range 2^-60 to 2^60; within 2^-45; exactly 0 at 1. */
uint8_t pasoletu_ln(double x, double *out, size_t out_length);

/* out: 1. Range -700 to 700; within 2^-45 times (1 + size of the exact value); exactly 0 at 0. */
uint8_t pasoletu_sinh(double x, double *out, size_t out_length);

/* out: 1. x in radians. Range -8 to 8; within 2^-45. */
uint8_t pasoletu_sin(double x, double *out, size_t out_length);

/* out: 1. Range: at least 0 (-0.0 too); correctly rounded. */
uint8_t pasoletu_sqrt(double x, double *out, size_t out_length);

/* out: 1. x^(1/3). Range 2^-60 to 2^60; within 2^-45 times the exact value; exactly 1 at 1. */
uint8_t pasoletu_cbrt(double x, double *out, size_t out_length);

/* out: 1. x^(-1/3). Range 2^-60 to 2^60; within 2^-45 times the exact value; exactly 1 at 1. */
uint8_t pasoletu_inv_cbrt(double x, double *out, size_t out_length);

/* out: 1. x^(2/3). Range 2^-60 to 2^60; within 2^-45 times the exact value; exactly 1 at 1. */
uint8_t pasoletu_cbrt_squared(double x, double *out, size_t out_length);

/* out: 1. x^(-2/3). Range 2^-60 to 2^60; within 2^-45 times the exact value; exactly 1 at 1. */
uint8_t pasoletu_inv_cbrt_squared(double x, double *out, size_t out_length);

/* ---- Physics (utils/physics.rs; section 1) ----------------------------------------------------------------------- */
/* Refusals of each: 8 for a wrong length; 1 for an input that is not finite; 3 for a result that is not finite. */

/* out: 1. 0 at 0 (of either sign), else 1/e. */
uint8_t pasoletu_inv_exact(double e, double *out, size_t out_length);

/* out: 1. young_modulus / (2 (1 + poisson_ratio)). */
uint8_t pasoletu_shear_modulus(double young_modulus, double poisson_ratio, double *out, size_t out_length);

/* out: 1. young_modulus / (3 (1 - 2 poisson_ratio)). */
uint8_t pasoletu_bulk_modulus(double young_modulus, double poisson_ratio, double *out, size_t out_length);

/* out: 1. mu. */
uint8_t pasoletu_shear_modulus_from_lame(double lambda, double mu, double *out, size_t out_length);

/* out: 1. lambda + 2 mu / 3. */
uint8_t pasoletu_bulk_modulus_from_lame(double lambda, double mu, double *out, size_t out_length);

/* out: 2. lambda and mu of a Young modulus and a Poisson ratio. */
uint8_t pasoletu_lame_lambda_mu(double young_modulus, double poisson_ratio, double *out, size_t out_length);

/* out: 2. The roots of a x^2 + b x + c, that with +root first. Also 2: the discriminant is negative; 10: it is
 * +infinity. */
uint8_t pasoletu_solve_quadratic(double a, double b, double c, double *out, size_t out_length);

/* m: 9; out: 9. (m - m^T) / 2. */
uint8_t pasoletu_spin_tensor(const double *m, size_t m_length, double *out, size_t out_length);

/* m: 9; out: 9. (m + m^T) / 2. */
uint8_t pasoletu_strain_rate(const double *m, size_t m_length, double *out, size_t out_length);

/* m: 9; out: 9. m with its spherical part taken off the diagonal. */
uint8_t pasoletu_deviatoric_part(const double *m, size_t m_length, double *out, size_t out_length);

/* m: 9; out: 1. Trace over 3. */
uint8_t pasoletu_spherical_part(const double *m, size_t m_length, double *out, size_t out_length);

/* deviatoric: 9; v: 3; out: 3. A decomposed tensor times a vector (lib.rs): deviatoric v + spherical v. */
uint8_t pasoletu_decomposed_times(double spherical, const double *deviatoric, size_t deviatoric_length, const double *v,
                                  size_t v_length, double *out, size_t out_length);

/* ---- Neo-Hookean stress and energy (elasticity_neo_hookean.rs; section 5) ---------------------------------------- */
/* law is (cfl_coeff, lambda, mu); f the deformation gradient; hardening the elastic hardening.
 * Refusals of each: 8 for a wrong length; 1 for an input, of the law too, that is not finite; 2 where F's
 * determinant lies below the range of the powers of thirds or of the logarithm, 10 where above it; 3 for a NaN on
 * the way or a result not finite. */

/* law: 3; f: 9; out: 9. The first Piola-Kirchhoff stress; no split and no phase. */
uint8_t pasoletu_neo_hookean_fpk_stress(const double *law, size_t law_length, double hardening, const double *f,
                                        size_t f_length, double *out, size_t out_length);

/* law: 3; f: 9; out: 1. The energy. Below determinant 1 the volumetric part is the tensile one, as the Rust has it. */
uint8_t pasoletu_neo_hookean_elastic_energy_density(const double *law, size_t law_length, double phase,
                                                    double hardening, const double *f, size_t f_length, double *out,
                                                    size_t out_length);

/* law: 3; f: 9; out: 1. The energy in a mode. one_split is a flag: 0.0 is the call above, bit for bit; with 1.0 the
 * deviatoric part is the tensile one below determinant 1, as in the Kirchhoff stress. From determinant 1 up the two
 * are the same. Also 6, after 8 and before 1: one_split is neither 0.0 nor 1.0. */
uint8_t pasoletu_neo_hookean_elastic_energy_density_in(const double *law, size_t law_length, double one_split,
                                                       double phase, double hardening, const double *f, size_t f_length,
                                                       double *out, size_t out_length);

/* law: 3; f: 9; out: 1. The positive part of the energy; from determinant 1 up times phase, not phase_coeff, as the
 * Rust has it. */
uint8_t pasoletu_neo_hookean_pos_energy(const double *law, size_t law_length, double phase, double hardening,
                                        const double *f, size_t f_length, double *out, size_t out_length);

/* out: 1. (1 - 0.001) phase phase + 0.001. Refusals: 8; 1; 3 for a result that is not finite. */
uint8_t pasoletu_phase_coeff(double phase, double *out, size_t out_length);

/* ---- Corotated energy (elasticity_corotated_linear.rs; section 5) ------------------------------------------------ */
/* law is (split_stress_on_failure (flag), cfl_coeff, lambda, mu); f the deformation gradient, sigma its singular
 * values.
 * Refusals of each: 8 for a wrong length; 6 for a flag that is neither 0.0 nor 1.0; 1 for an input that is not
 * finite; 3 for a NaN on the way or a result that is not finite. */

/* law: 4; sigma: 3; out: 1. The energy. Takes the product of sigma for the determinant. */
uint8_t pasoletu_corotated_elastic_energy_density(const double *law, size_t law_length, double hardening,
                                                  const double *sigma, size_t sigma_length, double *out,
                                                  size_t out_length);

/* law: 4; f: 9; sigma: 3; out: 1. The positive part of the energy. Takes the determinant of F. */
uint8_t pasoletu_corotated_pos_energy(const double *law, size_t law_length, double hardening, const double *f,
                                      size_t f_length, const double *sigma, size_t sigma_length, double *out,
                                      size_t out_length);

/* ---- Stress and verdict of a record (sections 5 and 6) ----------------------------------------------------------- */
/* The Kirchhoff stress of a record, by its F, phase, elastic hardening and stored determinant, and the failure rule
 * on the principal values of that very stress, as one answer: no call judges a stress that is handed in.
 * law is that of the calls above; limits is (max_principal_stress, max_shear_stress); stress is by rows; verdict is
 * 1 (failed) exactly when the greatest principal value is over max_principal_stress or (greatest - least) / 2 over
 * max_shear_stress, else 0.
 * The principal values are worked by this library from the stress's diagonal and what stands below it
 * (docs/FACTORS.md) and pass a check that is exact: with m the largest size there, turned back they lie within m /
 * 2^40 of these entries. A diagonal stress is judged by its entries.
 * Refusals of each, nothing written: 8 for a wrong length; 6 for a flag that is neither 0.0 nor 1.0; 1 for a float
 * of the law, of the limits or one of the record's 37 that is not finite; 11 for a stored determinant that is not
 * that of F in every bit; the stress's own, 3 for a NaN on the way or a result that is not finite and of the
 * neo-Hookean law 2 and 10 for the determinant's range; then 14 where the principal values miss their check, as
 * found at the ends of the doubles alone. */

/* law: 3; limits: 2; record: 37; stress: 9; verdict: 1. The neo-Hookean stress, its tensile part times phase_coeff:
 * from determinant 1 up all of it, below 1 the deviatoric part. */
uint8_t pasoletu_neo_hookean_stress_and_verdict(const double *law, size_t law_length, const double *limits,
                                                size_t limits_length, const double *record, size_t record_length,
                                                double *stress, size_t stress_length, uint64_t *verdict,
                                                size_t verdict_length);

/* law: 4; limits: 2; record: 37; stress: 9; verdict: 1. The corotated stress, by the factors that stand in the
 * record. At phase exactly 1.0 whole; the tensile part is dropped only at phase 0.0 with the flag. */
uint8_t pasoletu_corotated_stress_and_verdict(const double *law, size_t law_length, const double *limits,
                                              size_t limits_length, const double *record, size_t record_length,
                                              double *stress, size_t stress_length, uint64_t *verdict,
                                              size_t verdict_length);

/* ---- Stress and energy of a record (sections 5 and 7) ------------------------------------------------------------ */
/* The same stresses and energies of a record's F, phase, elastic hardening and singular values, with its stored
 * determinant. law is that of the calls above.
 * Refusals of each: 8 for a wrong length; 6 for a flag that is neither 0.0 nor 1.0; 1 for a float of the law or one
 * of the record's 37 that is not finite; 11 for a stored determinant that is not that of F in every bit; then those
 * of the call above. */

/* law: 3; record: 37; out: 9. pasoletu_neo_hookean_fpk_stress of the record. */
uint8_t pasoletu_record_neo_hookean_fpk_stress(const double *law, size_t law_length, const double *record,
                                               size_t record_length, double *out, size_t out_length);

/* law: 3; record: 37; out: 1. pasoletu_neo_hookean_elastic_energy_density of the record. */
uint8_t pasoletu_record_neo_hookean_elastic_energy_density(const double *law, size_t law_length, const double *record,
                                                           size_t record_length, double *out, size_t out_length);

/* law: 3; record: 37; out: 1. pasoletu_neo_hookean_elastic_energy_density_in of the record; one_split is a flag. */
uint8_t pasoletu_record_neo_hookean_elastic_energy_density_in(const double *law, size_t law_length, double one_split,
                                                              const double *record, size_t record_length, double *out,
                                                              size_t out_length);

/* law: 3; record: 37; out: 1. pasoletu_neo_hookean_pos_energy of the record. */
uint8_t pasoletu_record_neo_hookean_pos_energy(const double *law, size_t law_length, const double *record,
                                               size_t record_length, double *out, size_t out_length);

/* law: 4; record: 37; out: 1. pasoletu_corotated_elastic_energy_density of the record: of sigma's product, not of
 * the determinant, which is tested all the same. */
uint8_t pasoletu_record_corotated_elastic_energy_density(const double *law, size_t law_length, const double *record,
                                                         size_t record_length, double *out, size_t out_length);

/* law: 4; record: 37; out: 1. pasoletu_corotated_pos_energy of the record. */
uint8_t pasoletu_record_corotated_pos_energy(const double *law, size_t law_length, const double *record,
                                             size_t record_length, double *out, size_t out_length);

/* ---- Monaghan's equation of state (eos_monaghan_sph.rs; section 5) ----------------------------------------------- */
/* gamma is read as a signed 32-bit number, so that 4294967295 means -1.
 * Refusals of each: 8 for a wrong length; 1 for an input that is not finite; 3 for a NaN on the way or a result that
 * is not finite. */

/* out: 1. The pressure. */
uint8_t pasoletu_monaghan_pressure(double pressure0, uint32_t gamma, double viscosity, double max_neg_pressure,
                                   double mass, double volume0, double density, double *out, size_t out_length);

/* velocity_gradient: 9; out: 9. The Kirchhoff stress. */
uint8_t pasoletu_monaghan_kirchhoff_stress(double pressure0, uint32_t gamma, double viscosity, double max_neg_pressure,
                                           double mass, double volume0, double density, double determinant,
                                           const double *velocity_gradient, size_t velocity_gradient_length,
                                           double *out, size_t out_length);

/* velocity: 3; out: 1. The longest step. Also 10: a root's argument is +infinity. Where the single-particle root's
 * argument is negative, or NaN from its own products and quotient, the other step is the answer. */
uint8_t pasoletu_monaghan_timestep_bound(double pressure0, uint32_t gamma, double viscosity, double max_neg_pressure,
                                         double determinant, double mass, double volume0, double density,
                                         const double *velocity, size_t velocity_length, double cell_width, double *out,
                                         size_t out_length);

/* ---- Parts of the plastic laws (section 5) ----------------------------------------------------------------------- */

/* sigma: 3; out: 3. Snow's bare clamp (plasticity_snow.rs): the maximum with 1 - min_epsilon, then the minimum with
 * 1 + max_epsilon. A NaN answers the lower bound. Refusals: 8 only. */
uint8_t pasoletu_snow_clamp(double min_epsilon, double max_epsilon, double hardening_coeff, const double *sigma,
                            size_t sigma_length, double *out, size_t out_length);

/* arguments: 4; strains: 3; out: 3. Rankine's projection of log strains (plasticity_rankine.rs), in the same order.
 * arguments are those of new, s is the softened strength. Refusals: 8; 1 for an argument, s or a strain that is not
 * finite; 3 for moduli that are not finite, a NaN before a comparison, or a strain that is not finite. */
uint8_t pasoletu_rankine_project(const double *arguments, size_t arguments_length, double s, const double *strains,
                                 size_t strains_length, double *out, size_t out_length);

/* fields: 8; out: 1. The slope of Drucker-Prager's cone at the plastic hardening q (plasticity_drucker_prager.rs).
 * Refusals: 8; 6 for the flag; 1 for a field or q that is not finite; 2 below the exponential's or the sine's range,
 * 10 above it; 3 for a NaN on the way or a result that is not finite. */
uint8_t pasoletu_drucker_prager_alpha(const double *fields, size_t fields_length, double q, double *out,
                                      size_t out_length);

/* out: 1. NACC's parameter m of a friction angle in radians (plasticity_nacc.rs, new), for records of three axes or,
 * with axes 2, flat ones. The two are not alike: of 35 degrees 1.418 and 1.092.
 * Refusals: 8; 6 unless axes is 2 or 3; 1 for an angle that is not finite; 2 below the sine's range, -8 to 8, 10
 * above it. */
uint8_t pasoletu_nacc_friction(uint64_t axes, double friction_angle, double *out, size_t out_length);

/* ---- One particle (sections 5 and 7) ----------------------------------------------------------------------------- */

/* record: 37; answer: 2. The plastic law on one record (sections 5 and 7). parameters: as many as the model has.
 * Returns 0: answer is (PASOLETU_UNTOUCHED, 0) and the record keeps its bits, or (PASOLETU_STORED, the amount's
 * bits) and F, sigma, those scalars that the law names and the determinant of that F are new; U and V^T stay.
 * Refusals, nothing written: 8; 6 for a model over 7 or a flag; 1 for a parameter or one of the 37 that is not
 * finite; 11 for a stored determinant that is not that of F in every bit; 1, 2, 3 and 10 by the law; 3 where the new
 * F's determinant is not finite. */
uint8_t pasoletu_update(uint64_t model, const double *parameters, size_t parameters_length, double *record,
                        size_t record_length, uint64_t *answer, size_t answer_length);

/* record: 37. The factors of the F that stands in a record, worked by this library (docs/FACTORS.md): U, sigma and
 * V^T are written, whatever stood there, and nothing else. With m the largest size of an entry of F, each entry of U
 * diag(sigma) V^T lies within m / 2^40 of F's, those of U U^T and V V^T within 2^-40 of the identity's, and no sigma
 * is below 0; sigma are in no order. For hosts that decompose nothing themselves.
 * Refusals, nothing written: 8; 1 for one of the 37 that is not finite, also of those about to be written; 11 for a
 * stored determinant that is not that of F in every bit; 14 where the factors worked out miss that check, as found
 * at the ends of the doubles alone. */
uint8_t pasoletu_factor(double *record, size_t record_length);

/* ---- Lists of particles (section 7) ------------------------------------------------------------------------------ */

/* counts: 3. The plastic law on every record, each by its index; the pass goes on after a refused one.
 * parameters: as many as the model has; records: 37 doubles a particle, any number of particles; answers: exactly 2
 * numbers a particle; counts: how many are untouched, stored, refused.
 * Returns 0: all answers and counts are written. A refused record keeps its bits, and its answer is
 * (PASOLETU_REFUSED, 1, 2, 3, 10 or 11), as pasoletu_update would refuse it; a parameter that is not finite refuses
 * every record by 1.
 * Refusals, before any record and with nothing written: 8; 6 for a model over 7 or a flag. */
uint8_t pasoletu_pass(uint64_t model, const double *parameters, size_t parameters_length, double *records,
                      size_t records_length, uint64_t *answers, size_t answers_length, uint64_t *counts,
                      size_t counts_length);

/* limits: 2; corotated: 4; counts: 4. The pass with failure: applies the law to each record, then judges the stress
 * of the record as the law leaves it (its sigma and elastic hardening, with the phase as it came), then sets its
 * phase to 0.0 on a yes. A record that the law refuses is not judged.
 * limits: (max_principal_stress, max_shear_stress); corotated: the corotated law as above; the others as in
 * pasoletu_pass, but the fourth count is how many of the records not refused have failed in this pass. A record
 * whose outcome is untouched may have a new phase. A record whose law or stress is refused keeps all its bits;
 * limits or a corotated law that are not finite refuse every record by 1, before 11 and the law's own numbers.
 * Refusals, before any record and with nothing written: 8; 6 for a model over 7 or a flag, also the corotated law's.
 */
uint8_t pasoletu_pass_with_failure(uint64_t model, const double *parameters, size_t parameters_length,
                                   const double *limits, size_t limits_length, const double *corotated,
                                   size_t corotated_length, double *records, size_t records_length, uint64_t *answers,
                                   size_t answers_length, uint64_t *counts, size_t counts_length);

/* counts: 3. pasoletu_factor on every record, each by its index. records, answers and counts as in pasoletu_pass: a
 * record whose factors are accepted is stored, with the amount 0.0, and none is untouched; a refused one keeps its
 * bits, and its answer is (PASOLETU_REFUSED, 1, 11 or 14).
 * Refusals, before any record and with nothing written: 8. */
uint8_t pasoletu_factor_list(double *records, size_t records_length, uint64_t *answers, size_t answers_length,
                             uint64_t *counts, size_t counts_length);

/* counts: 3. The pass that factors each record first: pasoletu_pass on the records with the factors of
 * pasoletu_factor, so that a host sends F and its determinant, and any finite floats for U, sigma and V^T. A record
 * that the law leaves untouched has the new factors.
 * A refused record keeps all its bits, the factors that it had too: by 1 for a parameter or one of its 37 floats as
 * they came, then 11, then 14, then as the law refuses the record with these factors.
 * Refusals, before any record and with nothing written: 8; 6 for a model over 7 or a flag. */
uint8_t pasoletu_pass_factored(uint64_t model, const double *parameters, size_t parameters_length, double *records,
                               size_t records_length, uint64_t *answers, size_t answers_length, uint64_t *counts,
                               size_t counts_length);

/* limits: 2; corotated: 4; counts: 4. The pass with failure that factors each record first:
 * pasoletu_pass_with_failure on the records with the factors of pasoletu_factor.
 * A refused record keeps all its bits, the factors that it had too: by 1 for a parameter, a limit, a float of the
 * corotated law or one of its 37 floats as they came, then 11, then 14, then as the law or the stress refuses the
 * record with these factors.
 * Refusals, before any record and with nothing written: 8; 6 for a model over 7 or a flag, also the corotated law's.
 */
uint8_t pasoletu_pass_factored_with_failure(uint64_t model, const double *parameters, size_t parameters_length,
                                            const double *limits, size_t limits_length, const double *corotated,
                                            size_t corotated_length, double *records, size_t records_length,
                                            uint64_t *answers, size_t answers_length, uint64_t *counts,
                                            size_t counts_length);

/* Makes the last float of each record the determinant of the F that stands in it, a(ei - fh) - b(di - fg) + c(dh -
 * eg), whatever stood there; all others keep their bits. For hosts that write F, or that kept 36 floats a record. It
 * never refuses for a float: a determinant that is not finite goes in as worked, any NaN as 7ff8000000000000, and
 * the law refuses that record by 1.
 * Refusals, nothing written: 8 for a list that is no whole number of records of 37, as a list of 36 a record is. */
uint8_t pasoletu_fill_determinants(double *records, size_t records_length);

/* ---- Slices of a slope (section 7) ------------------------------------------------------------------------------- */
/* The four plastic laws in two axes, on flat records: 20 doubles, F, U, sigma and V^T of 4, 4, 2 and 4, then the six
 * scalars, and no determinant. Snow, Drucker-Prager and NACC are the Rust's with DIM = 2; Rankine tests the smaller
 * strain in its second branch and else divides by 2 mu + 2 lambda (docs/DIFFERENCES.md). NACC's m of a friction
 * angle is pasoletu_nacc_friction's with axes 2: the m of three axes is another, and no call here can tell the two
 * apart. */

/* record: 20; answer: 2. The plastic law on one flat record. parameters: as many as the model has.
 * Returns 0: answer is (PASOLETU_UNTOUCHED, 0) and the record keeps its bits, or (PASOLETU_STORED, the amount's
 * bits) and F, sigma and those scalars that the law names are new; U and V^T stay.
 * Refusals, nothing written: 8; 6 for a model over 7 or a flag; 1 for a parameter or one of the 20 that is not
 * finite; 1, 2, 3 and 10 by the law. */
uint8_t pasoletu_flat_update(uint64_t model, const double *parameters, size_t parameters_length, double *record,
                             size_t record_length, uint64_t *answer, size_t answer_length);

/* counts: 3. The plastic law on every flat record, each by its index; the pass goes on after a refused one.
 * records: 20 doubles a particle, any number of particles; answers: exactly 2 numbers a particle; counts: how many
 * are untouched, stored, refused.
 * Returns 0: all answers and counts are written. A refused record keeps its bits, and its answer is
 * (PASOLETU_REFUSED, 1, 2, 3 or 10), as pasoletu_flat_update would refuse it.
 * Refusals, before any record and with nothing written: 8, also for a list that is no whole number of records of 20;
 * 6 for a model over 7 or a flag. */
uint8_t pasoletu_flat_pass(uint64_t model, const double *parameters, size_t parameters_length, double *records,
                           size_t records_length, uint64_t *answers, size_t answers_length, uint64_t *counts,
                           size_t counts_length);

/* ---- Tallies by zone (section 7) --------------------------------------------------------------------------------- */

/* Clears the tallies and counts the particles now in each zone. zones: the zone number of each of so many particles;
 * tallies: five words a zone, at most 256 zones: particles now, and so far untouched, stored, refused and failed.
 * Refusals, nothing written: 8 for a list that is no whole number of tallies; 12 for over 256 tallies, for a zone
 * list that has not a number a particle, and for a zone that is not below the number of tallies. */
uint8_t pasoletu_clear_tallies(uint64_t particles, const uint64_t *zones, size_t zones_length, uint64_t *tallies,
                               size_t tallies_length);

/* Moves one particle, counted from 0, to another zone and counts the particles now in each zone afresh. What
 * happened to it before stays in the zone where it happened.
 * Refusals, nothing written: 8 and 12 as pasoletu_clear_tallies; 12 also for a particle or a zone out of range. */
uint8_t pasoletu_move_particle(uint64_t particles, uint64_t particle, uint64_t zone, uint64_t *zones,
                               size_t zones_length, uint64_t *tallies, size_t tallies_length);

/* pasoletu_pass, with each outcome added to the tally of its particle's zone, and the particles now in each zone
 * counted afresh.
 * Refusals, before any record and with nothing written: 8 as pasoletu_pass, and for a list that is no whole number
 * of tallies; 6 for a model over 7 or a flag; 12 as pasoletu_clear_tallies, of as many particles as there are
 * records; 13 where for some zone one of the four numbers so far plus the particles listed there would pass
 * 4294967295. */
uint8_t pasoletu_pass_by_zone(uint64_t model, const double *parameters, size_t parameters_length, const uint64_t *zones,
                              size_t zones_length, double *records, size_t records_length, uint64_t *answers,
                              size_t answers_length, uint64_t *tallies, size_t tallies_length);

/* limits: 2; corotated: 4. pasoletu_pass_with_failure, with tallies as in pasoletu_pass_by_zone; a record that is
 * refused counts as refused only.
 * Refusals, before any record and with nothing written: as pasoletu_pass_by_zone; 6 also for the corotated law's
 * flag. */
uint8_t pasoletu_pass_with_failure_by_zone(uint64_t model, const double *parameters, size_t parameters_length,
                                           const double *limits, size_t limits_length, const double *corotated,
                                           size_t corotated_length, const uint64_t *zones, size_t zones_length,
                                           double *records, size_t records_length, uint64_t *answers,
                                           size_t answers_length, uint64_t *tallies, size_t tallies_length);

/* ---- Sheets (section 7) ------------------------------------------------------------------------------------------ */

/* header: 11. Reads a sheet: bytes become a header and records. header: see PASOLETU_HEADER_MODEL and the others;
 * records: room for whole records, at least as many as the sheet has (PASOLETU_SHEET_MOST * PASOLETU_FLOATS is
 * always enough): the first places take the sheet's records, the rest keeps its bits. Floats pass as bits: a NaN is
 * read here and refused by the law. A sheet of model 0 to 3 has 36 floats a record, and the determinant of its F is
 * filled in as pasoletu_fill_determinants does; one of model 4 to 7 has all 37.
 * Refusals, nothing written: 8 for a header not of 11 or a room not of whole records, before the sheet is looked at;
 * 4, 5, 6 and 7 in reading order; then 8 for a room too small for this sheet. */
uint8_t pasoletu_read_sheet(const uint8_t *bytes, size_t bytes_length, uint64_t *header, size_t header_length,
                            double *records, size_t records_length);

/* counts: 4. Reads a sheet and passes its records. records: room as above; answers: room for exactly 2 numbers for
 * each record that has room; counts: how many particles, then how many of them are untouched, stored, refused. Of a
 * sheet with fewer particles the rest of both rooms keeps its bits.
 * Refusals, nothing written: as pasoletu_read_sheet, 8 also for answers or counts of the wrong length. */
uint8_t pasoletu_run_sheet(const uint8_t *bytes, size_t bytes_length, double *records, size_t records_length,
                           uint64_t *answers, size_t answers_length, uint64_t *counts, size_t counts_length);

/* written: 1. Writes a sheet: model, parameters and records become bytes. parameters: as many as the model has;
 * records: whole ones, at most PASOLETU_SHEET_MOST; bytes: room for the sheet (PASOLETU_SHEET_BYTES are always
 * enough), whose first places take it, and the rest keeps its bytes; written: how many bytes the sheet has. Floats
 * pass as bits: a NaN is written here and refused by the law. For models 0 to 3 the determinants are left out; for 4
 * to 7 (a law's number + PASOLETU_WITH_DETERMINANT) they are written as they stand. pasoletu_read_sheet gives back
 * every bit that was written, and a sheet that it read is written to the same bytes.
 * Refusals, nothing written: 8 for records that are not whole, parameters not as many as the model has, or written
 * not of 1; 6 for a model over 7 or a flag; 7 for over 200 records; 9 for a room shorter than the sheet. */
uint8_t pasoletu_write_sheet(uint64_t model, const double *parameters, size_t parameters_length, const double *records,
                             size_t records_length, uint8_t *bytes, size_t bytes_length, uint64_t *written,
                             size_t written_length);

/* ---- Sheets in parts (section 7) --------------------------------------------------------------------------------- */

/* state: 52. Begins a sheet that comes in parts, cut anywhere. The caller keeps the state between the calls and
 * changes nothing in it; it holds at most one unfinished record. Words that no call wrote are answered too, as some
 * state, or by 6 where they name no model.
 * Refusals, nothing written: 8 for a state not of 52. */
uint8_t pasoletu_begin_parts(uint64_t *state, size_t state_length);

/* state: 52; progress: 2. The next bytes of the sheet, as many as came, or none. Each record is read into its place
 * of records and worked by the law when its last byte comes, with its two answers in answers; all that stands behind
 * the complete records keeps its bits. records and answers: room for exactly PASOLETU_SHEET_MOST particles, the same
 * room in every call of a sheet. progress: PASOLETU_PARTS_COMPLETE and the other. A sheet that is short so far is
 * not refused. For every cutting, parts and end give what pasoletu_run_sheet gives of the whole.
 * Refusals: 8 for a list of another length, before all else, with nothing written, and no fault; 5, 6 and 7 as soon
 * as the fault is there: that call does write, the records complete before the fault stand worked, and state and
 * progress tell them; after it the fault's own number again, and 15 after the end, with nothing written, progress
 * too; 6, with nothing written, for a state whose words name no model or have a flag other than 0.0 and 1.0, which
 * no call leaves. */
uint8_t pasoletu_part(const uint8_t *bytes, size_t bytes_length, uint64_t *state, size_t state_length, double *records,
                      size_t records_length, uint64_t *answers, size_t answers_length, uint64_t *progress,
                      size_t progress_length);

/* state: 52; progress: 2. The sheet has ended. The lists are lent as to pasoletu_part, and records and answers are
 * only looked at for their lengths.
 * Refusals: 8 as pasoletu_part, a fault's own number after it, 15 after an end, and the 6 of a state, all with
 * nothing written; 4 where something is missing, told only here and again by every later call: the first time state
 * and progress are written. */
uint8_t pasoletu_end_parts(const double *records, size_t records_length, const uint64_t *answers, size_t answers_length,
                           uint64_t *state, size_t state_length, uint64_t *progress, size_t progress_length);

/* ---- Reports (section 7) ----------------------------------------------------------------------------------------- */

/* report: 18. The report over a list of records: of plastic hardening, elastic hardening and plastic determinant how
 * many values are counted, the least, the greatest and the total of them, how many lie not within 2^20 of zero, and
 * how many are NaN or infinite; see PASOLETU_REPORT_COUNT and the others. Each counted value is taken down, towards
 * minus infinity, to the next whole multiple of 2^-30, and least, greatest and total are whole numbers of 2^-30: no
 * digit of them depends on the machine. No value is refused, and no other float of a record is looked at.
 * Refusals, nothing written: 8 for records that are not whole or a report not of 18; then 16 for over 4096 records.
 */
uint8_t pasoletu_report(const double *records, size_t records_length, uint64_t *report, size_t report_length);

/* first: 18; second: 18; joined: 18. Two reports put together: what pasoletu_report answers of the two lists one
 * after the other, also by 16. Counts and totals are added (totals modulo 2^64, which no two reports of lists
 * reach); least and greatest are over those columns that count a value.
 * Refusals, nothing written: 8 for a list not of 18; then 16 where the three counts of a column and those of its
 * like together pass 4096. */
uint8_t pasoletu_join_reports(const uint64_t *first, size_t first_length, const uint64_t *second, size_t second_length,
                              uint64_t *joined, size_t joined_length);

/* ---- Why (section 7) --------------------------------------------------------------------------------------------- */

/* record: 37; reason: 11. Why the plastic law moves one record, leaves it or refuses it: the last test that chose
 * among the law's branches, the numbers that it compared, as bits since they may be infinite, and the branch; of
 * Snow the bound whose step last changed each sigma; of a refusal the number, the step and, for 1, the place of the
 * first such float, parameters first. See PASOLETU_REASON_KIND and the others; an entry that a kind has not is 0. It
 * refuses the record exactly where pasoletu_update does, by the same number. The record keeps its bits.
 * Refusals, nothing written: 8 for a record not of 37, parameters not as many as the model has, or a reason not of
 * 11; then 6 for a model over 7 or a flag. */
uint8_t pasoletu_why(uint64_t model, const double *parameters, size_t parameters_length, const double *record,
                     size_t record_length, uint64_t *reason, size_t reason_length);

/* ==== End of what tools/table makes ==== */

/* The amount whose bits stand beside PASOLETU_STORED. Above each model's number stands which amount is its. */
static inline double pasoletu_amount(uint64_t bits)
{
    double amount;
    memcpy(&amount, &bits, sizeof amount);
    return amount;
}

#ifdef __cplusplus
}
#endif

#endif
