// The header in C++, in two files of one program (second.cpp is the other): a pass over a vector of records.
#include <pasoletu.h>

#include <cstdio>
#include <limits>
#include <string>
#include <vector>

const char *version_in_second();

namespace {

std::vector<double> at_rest(double first_sigma)
{
    std::vector<double> record(PASOLETU_FLOATS, 0.0);
    for (int k = 0; k < 3; k++)
        for (int place : {PASOLETU_F + 4 * k, PASOLETU_U + 4 * k, PASOLETU_SIGMA + k, PASOLETU_VT + 4 * k})
            record[static_cast<std::size_t>(place)] = 1.0;
    for (int place : {PASOLETU_PHASE, PASOLETU_PLASTIC_DETERMINANT, PASOLETU_PLASTIC_HARDENING, PASOLETU_ELASTIC_HARDENING})
        record[static_cast<std::size_t>(place)] = 1.0;
    record[PASOLETU_F] = record[PASOLETU_SIGMA] = first_sigma;
    return record;
}

} // namespace

int main()
{
    const std::vector<double> snow{PASOLETU_SNOW_MIN_EPSILON, PASOLETU_SNOW_MAX_EPSILON, PASOLETU_SNOW_HARDENING_COEFF};
    std::vector<double> records;
    for (double sigma : {1.0, 0.9, std::numeric_limits<double>::quiet_NaN()}) {
        const std::vector<double> record = at_rest(sigma);
        records.insert(records.end(), record.begin(), record.end());
    }
    const auto filled = pasoletu_fill_determinants(records.data(), records.size());
    std::vector<std::uint64_t> answers(3 * PASOLETU_ANSWERS), counts(3);
    const auto refusal = pasoletu_pass(PASOLETU_SNOW, snow.data(), snow.size(), records.data(), records.size(), answers.data(),
                                       answers.size(), counts.data(), counts.size());
    const bool holds = filled == PASOLETU_DONE && refusal == PASOLETU_DONE && counts[1] == 2 && counts[2] == 1 && answers[5] == PASOLETU_NOT_FINITE &&
                       version_in_second() == std::string(pasoletu_version());
    if (!holds)
        std::printf("host.cpp: the pass answered %d: %s\n", refusal, pasoletu_refusal_text(refusal));
    return holds ? 0 : 1;
}
