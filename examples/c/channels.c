/*
 * Fits three readings of two channels that stand one after another, and says why the second was dropped. At the
 * repository's top:
 *
 *     tools/staticlib
 *     cc -std=c99 -Wall -Iinclude -o target/channels examples/c/channels.c target/staticlib/libcapi.a
 *     target/channels
 *
 * It prints
 *
 *     stop 4, refits 1, kept 1, error 0.125
 *     channel 0: 2
 *     channel 1: 0
 *     channel 1: cause 3, before refit 1, at 0.25
 */
#include <stdio.h>
#include <stdlib.h>

#include "dapmotar.h"

enum { ROWS = 3, COLS = 2 };

static int refused(uint64_t refusal)
{
    if (refusal != DAPMOTAR_ACCEPTED)
        fprintf(stderr, "refusal %llu\n", (unsigned long long)refusal);
    return refusal != DAPMOTAR_ACCEPTED;
}

int main(void)
{
    /* A channel, then the next: reading i of channel j is number j * ROWS + i. */
    const double theta[] = {1.0, 0.0, 0.0, 0.0, 1.0, 1.0};
    const double target[] = {2.0, 0.25, 0.25};
    const double threshold = 0.5, lambda = 0.0;
    double coeffs[COLS], error[1], value[1];
    uint64_t report[4], cause[2];

    size_t needed = dapmotar_strlsq_workspace(ROWS, COLS);
    double *workspace = malloc(needed * sizeof *workspace);
    if (workspace == NULL)
        return EXIT_FAILURE;

    if (refused(dapmotar_strlsq_by_columns(theta, ROWS * COLS, ROWS, COLS, target, ROWS, threshold, lambda, 10, coeffs,
                                           COLS, workspace, needed, report, error)))
        return EXIT_FAILURE;
    printf("stop %llu, refits %llu, kept %llx, error %g\n", (unsigned long long)report[0],
           (unsigned long long)report[1], (unsigned long long)report[2], error[0]);
    for (int channel = 0; channel < COLS; channel++)
        printf("channel %d: %g\n", channel, coeffs[channel]);

    if (refused(dapmotar_why(DAPMOTAR_SOLVER_NORMAL_BY_COLUMNS, theta, ROWS * COLS, ROWS, COLS, target, ROWS, threshold,
                             lambda, 10, 1, coeffs, COLS, workspace, needed, cause, value)))
        return EXIT_FAILURE;
    free(workspace);
    printf("channel 1: cause %llu, before refit %llu, at %g\n", (unsigned long long)cause[0],
           (unsigned long long)cause[1], value[0]);
    return EXIT_SUCCESS;
}
