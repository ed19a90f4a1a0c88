/* An example host: runs a step file and prints its answers as the program parlour does.
 * usage: run_steps FILE
 */
#include "parlour.h"

#include <stdio.h>

static uint8_t steps[PARLOUR_MOST_BYTES + 1];
static uint8_t answers[PARLOUR_ANSWER_BYTES * PARLOUR_MOST_BYTES];

int main(int argc, char **argv) {
    FILE *file = argc == 2 ? fopen(argv[1], "rb") : NULL;
    if (!file) {
        fprintf(stderr, "usage: run_steps FILE\n");
        return 2;
    }
    size_t n = fread(steps, 1, sizeof steps, file);
    fclose(file);
    uint64_t r = parlour_run(steps, n, answers, sizeof answers);
    if (parlour_number(r) == PARLOUR_TOO_LONG) {
        printf("11 0\n");
        return 0;
    }
    for (size_t i = 0; i < parlour_answers(r); i++) {
        const uint8_t *a = answers + PARLOUR_ANSWER_BYTES * i;
        uint32_t value = a[1] | (uint32_t)a[2] << 8 | (uint32_t)a[3] << 16 | (uint32_t)a[4] << 24;
        printf("%u %u\n", (unsigned)a[0], (unsigned)value);
    }
    return 0;
}
