/* Surveys a run of so many values, those of standard input over and over, for `compare/survey`; without a second word all but the survey itself. */
#include <stdint.h>
#include <stdio.h>
#include <stdlib.h>

#include "esr.h"

#define CLASSES 64
#define SAMPLE 1000

int main(int count, char **words) {
    static uint64_t sample[SAMPLE];
    uint32_t counts[CLASSES];
    char line[32];
    size_t length = strtoull(words[1], NULL, 10);
    size_t taken = 0;
    uint64_t *run = malloc(length * sizeof *run);
    while (taken < SAMPLE && fgets(line, sizeof line, stdin) != NULL) {
        sample[taken++] = strtoull(line, NULL, 0);
    }
    if (run == NULL || taken == 0) {
        return 1;
    }
    for (size_t i = 0; i < length; i++) {
        run[i] = sample[i % taken];
    }
    if (count == 2) {
        return 0;
    }
    esr_surveyed answer = esr_survey(run, length, counts, CLASSES);
    size_t all = 0;
    for (size_t i = 0; i < CLASSES; i++) {
        all += counts[i];
    }
    for (size_t i = 0; i < 7; i++) {
        all += answer.refused[i];
    }
    return all == length ? 0 : 1;
}
