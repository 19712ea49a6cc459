// Made by tools/table from calls.toml: edit that, not this file.
// The C calls, with every float of a list as its bits.
#include <stddef.h>
#include <stdint.h>

uint8_t pasoletu_exp(double x, uint64_t *out, size_t out_length);
uint8_t pasoletu_ln(double x, uint64_t *out, size_t out_length);
uint8_t pasoletu_sinh(double x, uint64_t *out, size_t out_length);
uint8_t pasoletu_sin(double x, uint64_t *out, size_t out_length);
uint8_t pasoletu_sqrt(double x, uint64_t *out, size_t out_length);
uint8_t pasoletu_cbrt(double x, uint64_t *out, size_t out_length);
uint8_t pasoletu_inv_cbrt(double x, uint64_t *out, size_t out_length);
uint8_t pasoletu_cbrt_squared(double x, uint64_t *out, size_t out_length);
uint8_t pasoletu_inv_cbrt_squared(double x, uint64_t *out, size_t out_length);
uint8_t pasoletu_inv_exact(double e, uint64_t *out, size_t out_length);
uint8_t pasoletu_shear_modulus(double young_modulus, double poisson_ratio, uint64_t *out, size_t out_length);
uint8_t pasoletu_bulk_modulus(double young_modulus, double poisson_ratio, uint64_t *out, size_t out_length);
uint8_t pasoletu_shear_modulus_from_lame(double lambda, double mu, uint64_t *out, size_t out_length);
uint8_t pasoletu_bulk_modulus_from_lame(double lambda, double mu, uint64_t *out, size_t out_length);
uint8_t pasoletu_lame_lambda_mu(double young_modulus, double poisson_ratio, uint64_t *out, size_t out_length);
uint8_t pasoletu_solve_quadratic(double a, double b, double c, uint64_t *out, size_t out_length);
uint8_t pasoletu_spin_tensor(const uint64_t *m, size_t m_length, uint64_t *out, size_t out_length);
uint8_t pasoletu_strain_rate(const uint64_t *m, size_t m_length, uint64_t *out, size_t out_length);
uint8_t pasoletu_deviatoric_part(const uint64_t *m, size_t m_length, uint64_t *out, size_t out_length);
uint8_t pasoletu_spherical_part(const uint64_t *m, size_t m_length, uint64_t *out, size_t out_length);
uint8_t pasoletu_decomposed_times(double spherical, const uint64_t *deviatoric, size_t deviatoric_length,
                                  const uint64_t *v, size_t v_length, uint64_t *out, size_t out_length);
uint8_t pasoletu_neo_hookean_fpk_stress(const uint64_t *law, size_t law_length, double hardening, const uint64_t *f,
                                        size_t f_length, uint64_t *out, size_t out_length);
uint8_t pasoletu_neo_hookean_elastic_energy_density(const uint64_t *law, size_t law_length, double phase,
                                                    double hardening, const uint64_t *f, size_t f_length, uint64_t *out,
                                                    size_t out_length);
uint8_t pasoletu_neo_hookean_elastic_energy_density_in(const uint64_t *law, size_t law_length, double one_split,
                                                       double phase, double hardening, const uint64_t *f,
                                                       size_t f_length, uint64_t *out, size_t out_length);
uint8_t pasoletu_neo_hookean_pos_energy(const uint64_t *law, size_t law_length, double phase, double hardening,
                                        const uint64_t *f, size_t f_length, uint64_t *out, size_t out_length);
uint8_t pasoletu_phase_coeff(double phase, uint64_t *out, size_t out_length);
uint8_t pasoletu_corotated_elastic_energy_density(const uint64_t *law, size_t law_length, double hardening,
                                                  const uint64_t *sigma, size_t sigma_length, uint64_t *out,
                                                  size_t out_length);
uint8_t pasoletu_corotated_pos_energy(const uint64_t *law, size_t law_length, double hardening, const uint64_t *f,
                                      size_t f_length, const uint64_t *sigma, size_t sigma_length, uint64_t *out,
                                      size_t out_length);
uint8_t pasoletu_neo_hookean_stress_and_verdict(const uint64_t *law, size_t law_length, const uint64_t *limits,
                                                size_t limits_length, const uint64_t *record, size_t record_length,
                                                uint64_t *stress, size_t stress_length, uint64_t *verdict,
                                                size_t verdict_length);
uint8_t pasoletu_corotated_stress_and_verdict(const uint64_t *law, size_t law_length, const uint64_t *limits,
                                              size_t limits_length, const uint64_t *record, size_t record_length,
                                              uint64_t *stress, size_t stress_length, uint64_t *verdict,
                                              size_t verdict_length);
uint8_t pasoletu_record_neo_hookean_fpk_stress(const uint64_t *law, size_t law_length, const uint64_t *record,
                                               size_t record_length, uint64_t *out, size_t out_length);
uint8_t pasoletu_record_neo_hookean_elastic_energy_density(const uint64_t *law, size_t law_length,
                                                           const uint64_t *record, size_t record_length, uint64_t *out,
                                                           size_t out_length);
uint8_t pasoletu_record_neo_hookean_elastic_energy_density_in(const uint64_t *law, size_t law_length, double one_split,
                                                              const uint64_t *record, size_t record_length,
                                                              uint64_t *out, size_t out_length);
uint8_t pasoletu_record_neo_hookean_pos_energy(const uint64_t *law, size_t law_length, const uint64_t *record,
                                               size_t record_length, uint64_t *out, size_t out_length);
uint8_t pasoletu_record_corotated_elastic_energy_density(const uint64_t *law, size_t law_length, const uint64_t *record,
                                                         size_t record_length, uint64_t *out, size_t out_length);
uint8_t pasoletu_record_corotated_pos_energy(const uint64_t *law, size_t law_length, const uint64_t *record,
                                             size_t record_length, uint64_t *out, size_t out_length);
uint8_t pasoletu_monaghan_pressure(double pressure0, uint32_t gamma, double viscosity, double max_neg_pressure,
                                   double mass, double volume0, double density, uint64_t *out, size_t out_length);
uint8_t pasoletu_monaghan_kirchhoff_stress(double pressure0, uint32_t gamma, double viscosity, double max_neg_pressure,
                                           double mass, double volume0, double density, double determinant,
                                           const uint64_t *velocity_gradient, size_t velocity_gradient_length,
                                           uint64_t *out, size_t out_length);
uint8_t pasoletu_monaghan_timestep_bound(double pressure0, uint32_t gamma, double viscosity, double max_neg_pressure,
                                         double determinant, double mass, double volume0, double density,
                                         const uint64_t *velocity, size_t velocity_length, double cell_width,
                                         uint64_t *out, size_t out_length);
uint8_t pasoletu_snow_clamp(double min_epsilon, double max_epsilon, double hardening_coeff, const uint64_t *sigma,
                            size_t sigma_length, uint64_t *out, size_t out_length);
uint8_t pasoletu_rankine_project(const uint64_t *arguments, size_t arguments_length, double s, const uint64_t *strains,
                                 size_t strains_length, uint64_t *out, size_t out_length);
uint8_t pasoletu_drucker_prager_alpha(const uint64_t *fields, size_t fields_length, double q, uint64_t *out,
                                      size_t out_length);
uint8_t pasoletu_nacc_friction(uint64_t axes, double friction_angle, uint64_t *out, size_t out_length);
uint8_t pasoletu_update(uint64_t model, const uint64_t *parameters, size_t parameters_length, uint64_t *record,
                        size_t record_length, uint64_t *answer, size_t answer_length);
uint8_t pasoletu_factor(uint64_t *record, size_t record_length);
uint8_t pasoletu_pass(uint64_t model, const uint64_t *parameters, size_t parameters_length, uint64_t *records,
                      size_t records_length, uint64_t *answers, size_t answers_length, uint64_t *counts,
                      size_t counts_length);
uint8_t pasoletu_pass_with_failure(uint64_t model, const uint64_t *parameters, size_t parameters_length,
                                   const uint64_t *limits, size_t limits_length, const uint64_t *corotated,
                                   size_t corotated_length, uint64_t *records, size_t records_length, uint64_t *answers,
                                   size_t answers_length, uint64_t *counts, size_t counts_length);
uint8_t pasoletu_factor_list(uint64_t *records, size_t records_length, uint64_t *answers, size_t answers_length,
                             uint64_t *counts, size_t counts_length);
uint8_t pasoletu_pass_factored(uint64_t model, const uint64_t *parameters, size_t parameters_length, uint64_t *records,
                               size_t records_length, uint64_t *answers, size_t answers_length, uint64_t *counts,
                               size_t counts_length);
uint8_t pasoletu_pass_factored_with_failure(uint64_t model, const uint64_t *parameters, size_t parameters_length,
                                            const uint64_t *limits, size_t limits_length, const uint64_t *corotated,
                                            size_t corotated_length, uint64_t *records, size_t records_length,
                                            uint64_t *answers, size_t answers_length, uint64_t *counts,
                                            size_t counts_length);
uint8_t pasoletu_fill_determinants(uint64_t *records, size_t records_length);
uint8_t pasoletu_flat_update(uint64_t model, const uint64_t *parameters, size_t parameters_length, uint64_t *record,
                             size_t record_length, uint64_t *answer, size_t answer_length);
uint8_t pasoletu_flat_pass(uint64_t model, const uint64_t *parameters, size_t parameters_length, uint64_t *records,
                           size_t records_length, uint64_t *answers, size_t answers_length, uint64_t *counts,
                           size_t counts_length);
uint8_t pasoletu_clear_tallies(uint64_t particles, const uint64_t *zones, size_t zones_length, uint64_t *tallies,
                               size_t tallies_length);
uint8_t pasoletu_move_particle(uint64_t particles, uint64_t particle, uint64_t zone, uint64_t *zones,
                               size_t zones_length, uint64_t *tallies, size_t tallies_length);
uint8_t pasoletu_pass_by_zone(uint64_t model, const uint64_t *parameters, size_t parameters_length,
                              const uint64_t *zones, size_t zones_length, uint64_t *records, size_t records_length,
                              uint64_t *answers, size_t answers_length, uint64_t *tallies, size_t tallies_length);
uint8_t pasoletu_pass_with_failure_by_zone(uint64_t model, const uint64_t *parameters, size_t parameters_length,
                                           const uint64_t *limits, size_t limits_length, const uint64_t *corotated,
                                           size_t corotated_length, const uint64_t *zones, size_t zones_length,
                                           uint64_t *records, size_t records_length, uint64_t *answers,
                                           size_t answers_length, uint64_t *tallies, size_t tallies_length);
uint8_t pasoletu_read_sheet(const uint8_t *bytes, size_t bytes_length, uint64_t *header, size_t header_length,
                            uint64_t *records, size_t records_length);
uint8_t pasoletu_run_sheet(const uint8_t *bytes, size_t bytes_length, uint64_t *records, size_t records_length,
                           uint64_t *answers, size_t answers_length, uint64_t *counts, size_t counts_length);
uint8_t pasoletu_write_sheet(uint64_t model, const uint64_t *parameters, size_t parameters_length,
                             const uint64_t *records, size_t records_length, uint8_t *bytes, size_t bytes_length,
                             uint64_t *written, size_t written_length);
uint8_t pasoletu_begin_parts(uint64_t *state, size_t state_length);
uint8_t pasoletu_part(const uint8_t *bytes, size_t bytes_length, uint64_t *state, size_t state_length,
                      uint64_t *records, size_t records_length, uint64_t *answers, size_t answers_length,
                      uint64_t *progress, size_t progress_length);
uint8_t pasoletu_end_parts(const uint64_t *records, size_t records_length, const uint64_t *answers,
                           size_t answers_length, uint64_t *state, size_t state_length, uint64_t *progress,
                           size_t progress_length);
uint8_t pasoletu_report(const uint64_t *records, size_t records_length, uint64_t *report, size_t report_length);
uint8_t pasoletu_join_reports(const uint64_t *first, size_t first_length, const uint64_t *second, size_t second_length,
                              uint64_t *joined, size_t joined_length);
uint8_t pasoletu_why(uint64_t model, const uint64_t *parameters, size_t parameters_length, const uint64_t *record,
                     size_t record_length, uint64_t *reason, size_t reason_length);
