// How often the memory of theta is brought in, where only a few of its pages are at hand at once: as from slow memory. Linux.
//   cc -O1 -Iinclude -o target/paging bench/paging.c target/staticlib/libcapi.a && target/paging
// A page that is not at hand can't be read; reading it brings it in and sends the oldest away. The exit status is 1 unless jtj and jtr bring each page in once, and a fit twice, for its sums and for its error, or once if it keeps nothing: what is not kept is not read for the error.
// By columns a row has an entry in as many pages as there are columns, so that many are at hand there; a fit brings each page in once for its sums, and those of its kept columns once more for its error.
#define _GNU_SOURCE
#include "dapmotar.h"

#include <signal.h>
#include <stdint.h>
#include <stdio.h>
#include <stdlib.h>
#include <sys/mman.h>
#include <unistd.h>

enum { ROWS = 4096, COLS = 64, AT_HAND = 8, AT_HAND_BY_COLUMNS = COLS };

static unsigned char *theta, *at_hand[AT_HAND_BY_COLUMNS];
static size_t page_size, brought, hand = AT_HAND;

static void bring(int sign, siginfo_t *info, void *unused) {
    (void)sign, (void)unused;
    unsigned char *page = (unsigned char *)((uintptr_t)info->si_addr & ~(uintptr_t)(page_size - 1));
    if (page < theta || page >= theta + ROWS * COLS * sizeof(double)) abort();
    unsigned char **oldest = &at_hand[brought++ % hand];
    if (*oldest) mprotect(*oldest, page_size, PROT_NONE);
    mprotect(page, page_size, PROT_READ);
    *oldest = page;
}

static void send_all_away(size_t bytes) {
    mprotect(theta, bytes, PROT_NONE);
    for (size_t i = 0; i < AT_HAND_BY_COLUMNS; i++) at_hand[i] = NULL;
    brought = 0;
}

int main(void) {
    size_t bytes = ROWS * COLS * sizeof(double);
    page_size = (size_t)sysconf(_SC_PAGESIZE);
    theta = mmap(NULL, bytes, PROT_READ | PROT_WRITE, MAP_PRIVATE | MAP_ANONYMOUS, -1, 0);
    if (theta == MAP_FAILED) return 2;
    const double *matrix = (const double *)theta;
    double *target = malloc(ROWS * sizeof(double)), values[COLS];
    double *square = malloc(COLS * COLS * sizeof(double));
    size_t need = dapmotar_strlsq_workspace(ROWS, COLS);
    double *space = malloc(need * sizeof(double));
    uint64_t report[4];
    double error[1];
    for (size_t i = 0; i < ROWS * COLS; i++) ((double *)theta)[i] = (rand() % 2000 - 1000) / 500.0;
    for (size_t i = 0; i < ROWS; i++) target[i] = 2 * matrix[i * COLS] + matrix[i * COLS + 5];
    struct sigaction action = {.sa_sigaction = bring, .sa_flags = SA_SIGINFO};
    sigaction(SIGSEGV, &action, NULL);
    sigaction(SIGBUS, &action, NULL);

    size_t pages = bytes / page_size;
    send_all_away(bytes);
    if (dapmotar_jtj(matrix, ROWS * COLS, ROWS, COLS, 1e-6, square, COLS * COLS)) return 2;
    size_t jtj = brought;
    send_all_away(bytes);
    if (dapmotar_jtr(matrix, ROWS * COLS, target, ROWS, ROWS, COLS, values, COLS)) return 2;
    size_t jtr = brought;
    send_all_away(bytes);
    if (dapmotar_strlsq(matrix, ROWS * COLS, ROWS, COLS, target, ROWS, 0.25, 1e-6, 10, values, COLS, space, need, report, error)) return 2;
    size_t strlsq = brought, refits = report[1];
    send_all_away(bytes);
    if (dapmotar_strlsq_marquardt(matrix, ROWS * COLS, ROWS, COLS, target, ROWS, 0.25, 1e-6, 10, values, COLS, space, need, report, error)) return 2;
    size_t marquardt = brought, marquardt_refits = report[1];
    send_all_away(bytes);
    if (dapmotar_strlsq(matrix, ROWS * COLS, ROWS, COLS, target, ROWS, 1e9, 1e-6, 10, values, COLS, space, need, report, error)) return 2;
    size_t empty = brought, kept = report[2];

    mprotect(theta, bytes, PROT_READ);
    for (size_t i = 0; i < ROWS; i++) target[i] = 2 * matrix[i] + matrix[5 * ROWS + i];
    hand = AT_HAND_BY_COLUMNS;
    send_all_away(bytes);
    if (dapmotar_strlsq_by_columns(matrix, ROWS * COLS, ROWS, COLS, target, ROWS, 0.25, 1e-6, 10, values, COLS, space, need, report, error)) return 2;
    size_t by_columns = brought, kept_by_columns = report[2];
    send_all_away(bytes);
    if (dapmotar_strlsq_marquardt_by_columns(matrix, ROWS * COLS, ROWS, COLS, target, ROWS, 0.25, 1e-6, 10, values, COLS, space, need, report, error)) return 2;
    size_t marquardt_by_columns = brought;
    send_all_away(bytes);
    if (dapmotar_strlsq_by_columns(matrix, ROWS * COLS, ROWS, COLS, target, ROWS, 1e9, 1e-6, 10, values, COLS, space, need, report, error)) return 2;
    size_t empty_by_columns = brought;

    printf("theta of %d by %d stands in %zu pages, %d at hand at once\n", ROWS, COLS, pages, AT_HAND);
    printf("jtj brings in %zu, jtr %zu, strlsq with %zu refits %zu, strlsq_marquardt with %zu refits %zu, strlsq that keeps nothing %zu\n", jtj, jtr, refits, strlsq, marquardt_refits, marquardt, empty);
    printf("by columns, %d at hand: strlsq that keeps the word %zx brings in %zu, strlsq_marquardt %zu, strlsq that keeps nothing %zu\n", AT_HAND_BY_COLUMNS, kept_by_columns, by_columns, marquardt_by_columns, empty_by_columns);
    int by_rows_fails = jtj != pages || jtr != pages || strlsq != 2 * pages || marquardt != 2 * pages || kept || empty != pages;
    size_t wanted = pages + 2 * pages / COLS; // two columns are kept
    int by_columns_fails = kept_by_columns != 0x21 || by_columns != wanted || marquardt_by_columns != wanted || report[2] || empty_by_columns != pages;
    return by_rows_fails || by_columns_fails;
}
