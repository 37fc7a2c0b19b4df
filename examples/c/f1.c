/*
 * Fits two ports against a reference and prints the report and the coefficients. At the repository's top:
 *
 *     tools/staticlib
 *     cc -std=c99 -Wall -Iinclude -o target/f1 examples/c/f1.c target/staticlib/libcapi.a
 *     target/f1
 *
 * It prints
 *
 *     stop 4, refits 1, kept 1, error 0.0625
 *     port 0: 3
 *     port 1: 0
 */
#include <stdio.h>
#include <stdlib.h>

#include "dapmotar.h"

int main(void)
{
    /* Two rows, two ports, by rows; the first port reads the reference, the second hardly does. */
    const double theta[] = {1.0, 0.0, 0.0, 1.0};
    const double target[] = {3.0, 0.25};
    const double threshold = 0.5, lambda = 0.0;
    double coeffs[2], error[1];
    uint64_t report[4];

    size_t needed = dapmotar_strlsq_workspace(2, 2);
    double *workspace = malloc(needed * sizeof *workspace);
    if (workspace == NULL)
        return EXIT_FAILURE;

    uint64_t refusal = dapmotar_strlsq(theta, 4, 2, 2, target, 2, threshold, lambda, 10, coeffs, 2, workspace,
                                       needed, report, error);
    free(workspace);
    if (refusal != DAPMOTAR_ACCEPTED) {
        fprintf(stderr, "refusal %llu\n", (unsigned long long)refusal);
        return EXIT_FAILURE;
    }
    if (report[0] != DAPMOTAR_STOP_SETTLED)
        puts("the fit did not settle");
    if (report[3] != DAPMOTAR_NO_TERM)
        printf("port %llu spoilt the solve\n", (unsigned long long)report[3]);
    printf("stop %llu, refits %llu, kept %llx, error %g\n", (unsigned long long)report[0],
           (unsigned long long)report[1], (unsigned long long)report[2], error[0]);
    for (int port = 0; port < 2; port++)
        printf("port %d: %g\n", port, coeffs[port]);
    return EXIT_SUCCESS;
}
