// How much stack each call takes at full size: a thread on a painted stack, and the lowest byte that was touched.
//   cc -O1 -Iinclude -o target/stack bench/stack.c target/staticlib/libcapi.a -lpthread && target/stack examples/eight-ports.frames
#include "dapmotar.h"

#include <pthread.h>
#include <stdio.h>
#include <stdlib.h>
#include <string.h>

enum { STACK = 1 << 20, ROWS = 4096, COLS = 64, PAINT = 0xa5 };

static const char *const names[] = {"nothing", "jtj", "jtr", "cholesky", "lu", "normal", "qr", "least", "strlsq", "strlsq_qr", "respond", "sqrt", "invert", "strlsq_marquardt", "why", "respond_why", "strlsq_by_columns", "strlsq_qr_by_columns", "strlsq_marquardt_by_columns", "why by columns"};
enum { BY_COLUMNS = 16 }; // the first of those by columns
static unsigned char *stack, input[40000], answer[DAPMOTAR_ANSWER], causes[DAPMOTAR_WHY_ANSWER];
static size_t which, input_len;
static double *theta, *target, *square, *values, *space;

static void *call(void *unused) {
    uint64_t report[4], column[1], cause[2];
    double value[1], error[1];
    switch (which) {
    case 1: dapmotar_jtj(theta, ROWS * COLS, ROWS, COLS, 1e-6, square, COLS * COLS); break;
    case 2: dapmotar_jtr(theta, ROWS * COLS, target, ROWS, ROWS, COLS, values, COLS); break;
    case 3: dapmotar_solve_spd_cholesky(square, COLS * COLS, values, COLS, COLS, column); break;
    case 4: dapmotar_solve_lu(square, COLS * COLS, values, COLS, COLS, column); break;
    case 5: dapmotar_solve_normal_equations(square, COLS * COLS, values, COLS, COLS, space, COLS * COLS, column); break;
    case 6: dapmotar_qr(theta, ROWS * COLS, ROWS, COLS, space, ROWS * COLS, values, COLS, space + ROWS * COLS, ROWS); break;
    case 7: dapmotar_solve_least_squares(theta, ROWS * COLS, target, ROWS, ROWS, COLS, values, COLS, space, ROWS * COLS + 2 * ROWS + 2 * COLS, column); break;
    case 8: dapmotar_strlsq(theta, ROWS * COLS, ROWS, COLS, target, ROWS, 0.25, 1e-6, 10, values, COLS, space, dapmotar_strlsq_workspace(ROWS, COLS), report, error); break;
    case 9: dapmotar_strlsq_qr(theta, ROWS * COLS, ROWS, COLS, target, ROWS, 0.25, 1e-6, 10, values, COLS, space, dapmotar_strlsq_qr_workspace(ROWS, COLS), report, error); break;
    case 10: dapmotar_respond(input, input_len, answer); break;
    case 11: dapmotar_sqrt(2.0); break;
    case 12: dapmotar_invert_spd(square, COLS * COLS, COLS, space, COLS * COLS, space + COLS * COLS, COLS * COLS + COLS, column); break;
    case 13: dapmotar_strlsq_marquardt(theta, ROWS * COLS, ROWS, COLS, target, ROWS, 0.25, 1e-6, 10, values, COLS, space, dapmotar_strlsq_marquardt_workspace(ROWS, COLS), report, error); break;
    case 14: dapmotar_why(2, theta, ROWS * COLS, ROWS, COLS, target, ROWS, 0.25, 1e-6, 10, 1, values, COLS, space, dapmotar_strlsq_qr_workspace(ROWS, COLS), cause, value); break;
    case 15: dapmotar_respond_why(input, input_len, causes); break;
    case 16: dapmotar_strlsq_by_columns(theta, ROWS * COLS, ROWS, COLS, target, ROWS, 0.25, 1e-6, 10, values, COLS, space, dapmotar_strlsq_workspace(ROWS, COLS), report, error); break;
    case 17: dapmotar_strlsq_qr_by_columns(theta, ROWS * COLS, ROWS, COLS, target, ROWS, 0.25, 1e-6, 10, values, COLS, space, dapmotar_strlsq_qr_workspace(ROWS, COLS), report, error); break;
    case 18: dapmotar_strlsq_marquardt_by_columns(theta, ROWS * COLS, ROWS, COLS, target, ROWS, 0.25, 1e-6, 10, values, COLS, space, dapmotar_strlsq_marquardt_workspace(ROWS, COLS), report, error); break;
    case 19: dapmotar_why(0x12, theta, ROWS * COLS, ROWS, COLS, target, ROWS, 0.25, 1e-6, 10, 1, values, COLS, space, dapmotar_strlsq_qr_workspace(ROWS, COLS), cause, value); break;
    }
    return unused;
}

static long used(void) {
    pthread_attr_t attributes;
    pthread_t thread;
    long untouched = 0;
    memset(stack, PAINT, STACK);
    pthread_attr_init(&attributes);
    pthread_attr_setstack(&attributes, stack, STACK);
    pthread_create(&thread, &attributes, call, NULL);
    pthread_join(thread, NULL);
    while (untouched < STACK && stack[untouched] == PAINT) untouched++;
    return STACK - untouched;
}

int main(int argc, char **argv) {
    FILE *file = argc > 1 ? fopen(argv[1], "r") : NULL;
    input_len = file ? fread(input, 1, sizeof input, file) : 0;
    theta = malloc(ROWS * COLS * sizeof(double));
    target = malloc(ROWS * sizeof(double));
    square = malloc(COLS * COLS * sizeof(double));
    values = malloc(COLS * sizeof(double));
    space = malloc(2 * (ROWS + COLS) * (COLS + 4) * sizeof(double));
    for (size_t i = 0; i < ROWS * COLS; i++) theta[i] = (rand() % 2000 - 1000) / 500.0;
    if (posix_memalign((void **)&stack, 4096, STACK) != 0) return 2;
    used(); // the first thread also binds what later ones find bound
    long bare = used();
    for (which = 1; which < sizeof names / sizeof names[0]; which++) {
        size_t row = which < BY_COLUMNS ? COLS : 1, column = which < BY_COLUMNS ? 1 : ROWS; // the strides of theta
        for (size_t i = 0; i < ROWS; i++) target[i] = 2 * theta[i * row] + theta[i * row + 5 * column];
        for (size_t i = 0; i < COLS * COLS; i++) square[i] = i % (COLS + 1) ? 0.0 : 1.0; // which no solver refuses
        printf("%-27s %6ld bytes\n", names[which], used() - bare);
    }
    return 0;
}
