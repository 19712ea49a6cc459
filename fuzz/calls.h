// Made by tools/table from calls.toml: edit that, not this file.
// The C calls that are fuzzed, with every float of a list as its bits.
#include <stddef.h>
#include <stdint.h>

#define FLOATS 37
#define FLAT_FLOATS 20
#define MOST 200
// Of each model's number its law, and whether the records of its sheets have all floats; else they have BARE.
#define LAWS 4
#define MODELS 8
#define BARE 36
static const char *const NAMES[LAWS] = {"snow", "rankine", "drucker_prager", "nacc"};
static const uint64_t LAW_OF[MODELS] = {0, 1, 2, 3, 0, 1, 2, 3};
static const int WHOLE[MODELS] = {0, 0, 0, 0, 1, 1, 1, 1};
// How many parameters each model has, and the place of its flag or -1.
static const size_t FIELDS[MODELS] = {3, 4, 8, 6, 3, 4, 8, 6};
static const int FLAG[MODELS] = {-1, -1, 6, 3, -1, -1, 6, 3};

uint8_t pasoletu_neo_hookean_stress_and_verdict(const uint64_t *law, size_t law_length, const uint64_t *limits,
                                                size_t limits_length, const uint64_t *record, size_t record_length,
                                                uint64_t *stress, size_t stress_length, uint64_t *verdict,
                                                size_t verdict_length);
uint8_t pasoletu_corotated_stress_and_verdict(const uint64_t *law, size_t law_length, const uint64_t *limits,
                                              size_t limits_length, const uint64_t *record, size_t record_length,
                                              uint64_t *stress, size_t stress_length, uint64_t *verdict,
                                              size_t verdict_length);
uint8_t pasoletu_record_neo_hookean_fpk_stress(const uint64_t *law, size_t law_length, const uint64_t *record,
                                               size_t record_length, uint64_t *out, size_t out_length);
uint8_t pasoletu_record_neo_hookean_elastic_energy_density(const uint64_t *law, size_t law_length,
                                                           const uint64_t *record, size_t record_length, uint64_t *out,
                                                           size_t out_length);
uint8_t pasoletu_record_neo_hookean_elastic_energy_density_in(const uint64_t *law, size_t law_length, double one_split,
                                                              const uint64_t *record, size_t record_length,
                                                              uint64_t *out, size_t out_length);
uint8_t pasoletu_record_neo_hookean_pos_energy(const uint64_t *law, size_t law_length, const uint64_t *record,
                                               size_t record_length, uint64_t *out, size_t out_length);
uint8_t pasoletu_record_corotated_elastic_energy_density(const uint64_t *law, size_t law_length, const uint64_t *record,
                                                         size_t record_length, uint64_t *out, size_t out_length);
uint8_t pasoletu_record_corotated_pos_energy(const uint64_t *law, size_t law_length, const uint64_t *record,
                                             size_t record_length, uint64_t *out, size_t out_length);
uint8_t pasoletu_update(uint64_t model, const uint64_t *parameters, size_t parameters_length, uint64_t *record,
                        size_t record_length, uint64_t *answer, size_t answer_length);
uint8_t pasoletu_factor(uint64_t *record, size_t record_length);
uint8_t pasoletu_pass(uint64_t model, const uint64_t *parameters, size_t parameters_length, uint64_t *records,
                      size_t records_length, uint64_t *answers, size_t answers_length, uint64_t *counts,
                      size_t counts_length);
uint8_t pasoletu_pass_with_failure(uint64_t model, const uint64_t *parameters, size_t parameters_length,
                                   const uint64_t *limits, size_t limits_length, const uint64_t *corotated,
                                   size_t corotated_length, uint64_t *records, size_t records_length, uint64_t *answers,
                                   size_t answers_length, uint64_t *counts, size_t counts_length);
uint8_t pasoletu_factor_list(uint64_t *records, size_t records_length, uint64_t *answers, size_t answers_length,
                             uint64_t *counts, size_t counts_length);
uint8_t pasoletu_pass_factored(uint64_t model, const uint64_t *parameters, size_t parameters_length, uint64_t *records,
                               size_t records_length, uint64_t *answers, size_t answers_length, uint64_t *counts,
                               size_t counts_length);
uint8_t pasoletu_pass_factored_with_failure(uint64_t model, const uint64_t *parameters, size_t parameters_length,
                                            const uint64_t *limits, size_t limits_length, const uint64_t *corotated,
                                            size_t corotated_length, uint64_t *records, size_t records_length,
                                            uint64_t *answers, size_t answers_length, uint64_t *counts,
                                            size_t counts_length);
uint8_t pasoletu_fill_determinants(uint64_t *records, size_t records_length);
uint8_t pasoletu_flat_update(uint64_t model, const uint64_t *parameters, size_t parameters_length, uint64_t *record,
                             size_t record_length, uint64_t *answer, size_t answer_length);
uint8_t pasoletu_flat_pass(uint64_t model, const uint64_t *parameters, size_t parameters_length, uint64_t *records,
                           size_t records_length, uint64_t *answers, size_t answers_length, uint64_t *counts,
                           size_t counts_length);
uint8_t pasoletu_clear_tallies(uint64_t particles, const uint64_t *zones, size_t zones_length, uint64_t *tallies,
                               size_t tallies_length);
uint8_t pasoletu_move_particle(uint64_t particles, uint64_t particle, uint64_t zone, uint64_t *zones,
                               size_t zones_length, uint64_t *tallies, size_t tallies_length);
uint8_t pasoletu_pass_by_zone(uint64_t model, const uint64_t *parameters, size_t parameters_length,
                              const uint64_t *zones, size_t zones_length, uint64_t *records, size_t records_length,
                              uint64_t *answers, size_t answers_length, uint64_t *tallies, size_t tallies_length);
uint8_t pasoletu_pass_with_failure_by_zone(uint64_t model, const uint64_t *parameters, size_t parameters_length,
                                           const uint64_t *limits, size_t limits_length, const uint64_t *corotated,
                                           size_t corotated_length, const uint64_t *zones, size_t zones_length,
                                           uint64_t *records, size_t records_length, uint64_t *answers,
                                           size_t answers_length, uint64_t *tallies, size_t tallies_length);
uint8_t pasoletu_read_sheet(const uint8_t *bytes, size_t bytes_length, uint64_t *header, size_t header_length,
                            uint64_t *records, size_t records_length);
uint8_t pasoletu_run_sheet(const uint8_t *bytes, size_t bytes_length, uint64_t *records, size_t records_length,
                           uint64_t *answers, size_t answers_length, uint64_t *counts, size_t counts_length);
uint8_t pasoletu_write_sheet(uint64_t model, const uint64_t *parameters, size_t parameters_length,
                             const uint64_t *records, size_t records_length, uint8_t *bytes, size_t bytes_length,
                             uint64_t *written, size_t written_length);
uint8_t pasoletu_begin_parts(uint64_t *state, size_t state_length);
uint8_t pasoletu_part(const uint8_t *bytes, size_t bytes_length, uint64_t *state, size_t state_length,
                      uint64_t *records, size_t records_length, uint64_t *answers, size_t answers_length,
                      uint64_t *progress, size_t progress_length);
uint8_t pasoletu_end_parts(const uint64_t *records, size_t records_length, const uint64_t *answers,
                           size_t answers_length, uint64_t *state, size_t state_length, uint64_t *progress,
                           size_t progress_length);
uint8_t pasoletu_report(const uint64_t *records, size_t records_length, uint64_t *report, size_t report_length);
uint8_t pasoletu_why(uint64_t model, const uint64_t *parameters, size_t parameters_length, const uint64_t *record,
                     size_t record_length, uint64_t *reason, size_t reason_length);
