/* A pass over three particles of snow: one at rest, one crushed, one with a NaN.
 *
 *   cc pass.c $(pkg-config --cflags --libs pasoletu) -o pass && ./pass
 */
#include <math.h>
#include <pasoletu.h>
#include <stdio.h>

#define PARTICLES 3

/* A particle at rest whose factors are the singular values on the axes: F = I diag(sigma) I. Its determinant is still to be filled in. */
static void at_rest(double *record, const double sigma[3])
{
    for (int k = 0; k < PASOLETU_FLOATS; k++)
        record[k] = 0.0;
    for (int k = 0; k < 3; k++) {
        record[PASOLETU_F + 4 * k] = sigma[k];
        record[PASOLETU_U + 4 * k] = 1.0;
        record[PASOLETU_SIGMA + k] = sigma[k];
        record[PASOLETU_VT + 4 * k] = 1.0;
    }
    record[PASOLETU_PHASE] = 1.0;
    record[PASOLETU_PLASTIC_DETERMINANT] = 1.0;
    record[PASOLETU_PLASTIC_HARDENING] = 1.0;
    record[PASOLETU_ELASTIC_HARDENING] = 1.0;
}

int main(void)
{
    const double snow[PASOLETU_SNOW_PARAMETERS] = {
        PASOLETU_SNOW_MIN_EPSILON, PASOLETU_SNOW_MAX_EPSILON, PASOLETU_SNOW_HARDENING_COEFF};
    const double sigma[PARTICLES][3] = {{1.0, 1.0, 1.0}, {0.9, 1.0, 1.0}, {NAN, 1.0, 1.0}};
    double records[PARTICLES * PASOLETU_FLOATS];
    uint64_t answers[PARTICLES * PASOLETU_ANSWERS];
    uint64_t counts[3];

    for (int k = 0; k < PARTICLES; k++)
        at_rest(&records[k * PASOLETU_FLOATS], sigma[k]);
    pasoletu_fill_determinants(records, PARTICLES * PASOLETU_FLOATS);

    /* guide: pass */
    uint8_t refusal = pasoletu_pass(PASOLETU_SNOW, snow, PASOLETU_SNOW_PARAMETERS, records, PARTICLES * PASOLETU_FLOATS,
                                    answers, PARTICLES * PASOLETU_ANSWERS, counts, 3);
    if (refusal != 0) {
        fprintf(stderr, "the pass is refused (%d): %s\n", refusal, pasoletu_refusal_text(refusal));
        return 1;
    }
    /* guide: end */

    for (int k = 0; k < PARTICLES; k++) {
        /* guide: answers */
        uint64_t outcome = answers[2 * k], beside = answers[2 * k + 1];
        if (outcome == PASOLETU_UNTOUCHED)
            printf("particle %d: untouched\n", k);
        else if (outcome == PASOLETU_STORED)
            printf("particle %d: elastic hardening %.6f, sigma[0] %.6f\n", k, pasoletu_amount(beside),
                   records[k * PASOLETU_FLOATS + PASOLETU_SIGMA]);
        else
            printf("particle %d: refused (%d), %s\n", k, (int)beside, pasoletu_refusal_text(beside));
        /* guide: end */
    }
    printf("%d untouched, %d stored, %d refused\n", (int)counts[0], (int)counts[1], (int)counts[2]);
    return 0;
}
