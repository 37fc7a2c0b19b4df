/*
 * dapmotar.h: the fitting core of a calibration bench, from C and C++.
 *
 * The library is target/staticlib/libcapi.a, made by `tools/staticlib` at the top of the repository.
 * docs/REFERENCE.md is the reference of what each call does.
 *
 * Slices.      A slice is a pointer and its length in numbers. A null pointer with length 0 is an empty slice.
 * Arrays       of a fixed length, report[4], error[1], column[1], cause[2], value[1], answer[..], are never null.
 * Overlap.     What is written, slice or array, must not overlap anything else that is read or written.
 * Matrices     stand by rows: entry (i, j) of a matrix of n columns is number i*n + j. In the calls .._by_columns theta
 *              stands by columns: entry (i, j) of a theta of m rows is number j*m + i.
 * Numbers      may have any bits: infinities, NaN, zeros of both signs. Each operation rounds once.
 * NaN.         A NaN from dapmotar_sqrt is 7ff8000000000000, always; dapmotar_abs hands a NaN on with its bits. Of any
 *              other computed NaN the bits are not promised.
 * Machine.     While a call runs the processor must round to nearest, ties to even, keep subnormal numbers (x86: FTZ
 *              and DAZ of MXCSR off; Arm: FZ of FPCR off) and not trap floating-point exceptions. So a C program
 *              starts, but one linked with -ffast-math may not. No call tests it: rounded upward, for one, the answers
 *              have other bits.
 * Answers.     0, or the number of the refusal: the first that applies, in the order below. No call traps.
 * Workspaces   are lent by the caller. They may be longer than needed. After an accepted call and after 8 and 9 they
 *              are +0.0 over the needed length; numbers past it are untouched.
 * Threads.     A call touches nothing but its arguments, and up to 20 KB of stack; dapmotar_respond and
 *              dapmotar_respond_why up to 80 KB.
 */
#ifndef DAPMOTAR_H
#define DAPMOTAR_H

#include <stddef.h>
#include <stdint.h>

#ifdef __cplusplus
extern "C" {
#endif

/* Limits. */
enum {
    DAPMOTAR_MAX_COLS = 64,      /* columns of a fit, jtj, jtr, qr, least squares; n of a square solver and the inverse */
    DAPMOTAR_MAX_ROWS = 4096,    /* rows of a fit, jtj, jtr */
    DAPMOTAR_MAX_QR_ROWS = 4160, /* rows of qr and least squares */
    DAPMOTAR_MAX_ROUNDS = 1000   /* max_iter of a fit */
};

/*
 * Refusals, in the order in which they are looked for. All but 8 and 9 leave every slice, the report and its error, the
 * column, the cause and its value unchanged; what 8 and 9 leave is said at the calls that give them.
 */
enum {
    DAPMOTAR_ACCEPTED = 0,
    DAPMOTAR_REFUSED_COLUMNS = 1,         /* columns above the limit */
    DAPMOTAR_REFUSED_ROWS = 2,            /* rows above the limit */
    DAPMOTAR_REFUSED_ROUNDS = 3,          /* max_iter above 1,000 */
    DAPMOTAR_REFUSED_THRESHOLD = 12,      /* the threshold is not above zero, a NaN too: dapmotar_why only */
    DAPMOTAR_REFUSED_TERM = 13,           /* the term is not below n_cols: dapmotar_why only */
    DAPMOTAR_REFUSED_MATRIX = 4,          /* the matrix is not rows * columns long */
    DAPMOTAR_REFUSED_RIGHT_HAND_SIDE = 5, /* the target or right-hand side is not as long as there are rows */
    DAPMOTAR_REFUSED_OUTPUT = 6,          /* an output has the wrong length */
    DAPMOTAR_REFUSED_FEWER_ROWS = 10,     /* fewer rows than columns: qr and least squares only */
    DAPMOTAR_REFUSED_WORKSPACE = 7,       /* the workspace is shorter than needed */
    DAPMOTAR_REFUSED_CHOLESKY = 8,        /* Cholesky refuses at a column: not positive definite */
    DAPMOTAR_REFUSED_SMALL_PIVOT = 9,     /* a small pivot or diagonal at a column: singular */
    DAPMOTAR_REFUSED_MALFORMED = 11       /* a malformed frame: dapmotar_respond and dapmotar_respond_why write it; an
                                             unknown code: dapmotar_why returns it, first of all */
};

/* Why a fit ended: the first number of its report. After 1 and 3 its last number is the term at which the solve refused. */
enum {
    DAPMOTAR_STOP_NO_DATA = 0,       /* no rows or no columns: zeros */
    DAPMOTAR_STOP_FIRST_REFUSED = 1, /* the first solve was refused: zeros */
    DAPMOTAR_STOP_EMPTY = 2,         /* no term was kept: zeros */
    DAPMOTAR_STOP_REFIT_REFUSED = 3, /* a refit was refused: zeros */
    DAPMOTAR_STOP_SETTLED = 4,       /* a look, or the last one after max_iter rounds, kept the terms of the last refit */
    DAPMOTAR_STOP_OUT_OF_ROUNDS = 5  /* max_iter rounds are used up, and it has not settled; only here a coefficient can be NaN */
};

/* The last number of a fit's report where no solve refused. */
enum { DAPMOTAR_NO_TERM = 255 };

/* The square root, rounded to nearest. Zeros and +infinity give themselves; NaN and numbers below zero that one NaN. */
double dapmotar_sqrt(double x);

/* The magnitude. A NaN is handed on, its sign too. */
double dapmotar_abs(double x);

/*
 * out = J^T J + lambda I, for J of n_rows by n_params. out has n_params * n_params numbers. J is walked once, by rows.
 * Refusals: 1, 2, 4, 6.
 */
uint64_t dapmotar_jtj(const double *jac, size_t jac_len, size_t n_rows, size_t n_params, double lambda,
                      double *out, size_t out_len);

/*
 * out = J^T J, each number d of its diagonal damped in proportion: d + lambda where |d| is below 2^-52, else
 * d + lambda * d. Refusals as dapmotar_jtj.
 */
uint64_t dapmotar_jtj_marquardt(const double *jac, size_t jac_len, size_t n_rows, size_t n_params, double lambda,
                                double *out, size_t out_len);

/*
 * out = J^T r, for J of n_rows by n_params and r of n_rows. out has n_params numbers.
 * Refusals: 1, 2, 4, 5, 6.
 */
uint64_t dapmotar_jtr(const double *jac, size_t jac_len, const double *r, size_t r_len, size_t n_rows,
                      size_t n_params, double *out, size_t out_len);

/*
 * The four solvers and the inverse: column[0] is the column at which the call refused, under 8 and 9 only; else it is
 * unchanged.
 *
 * Solves a x = b by Cholesky, for a of n by n: b becomes x, a its factor on and below the diagonal.
 * Refusals: 1, 4, 5, 8. 8 leaves b unchanged; the columns of a before the refused one hold the factor on and below
 * the diagonal, all else of a is unchanged.
 */
uint64_t dapmotar_solve_spd_cholesky(double *a, size_t a_len, double *b, size_t b_len, size_t n, uint64_t column[1]);

/*
 * Solves a x = b by LU with row swaps, for a of n by n: b becomes x, a its factors.
 * Refusals: 1, 4, 5, 9. 9 leaves a and b as the steps so far made them (b: the row swaps only).
 */
uint64_t dapmotar_solve_lu(double *a, size_t a_len, double *b, size_t b_len, size_t n, uint64_t column[1]);

/*
 * Solves a x = b by Cholesky and, where that refuses, by LU: b becomes x. Workspace: n * n numbers.
 * Refusals: 1, 4, 5, 7, 9. 9 leaves b with LU's row swaps; its column is LU's, wherever Cholesky refused.
 */
uint64_t dapmotar_solve_normal_equations(const double *a, size_t a_len, double *b, size_t b_len, size_t n,
                                         double *workspace, size_t workspace_len, uint64_t column[1]);

/*
 * out = the inverse of a, for a of n by n and positive definite, by Cholesky: a column of it solves for a column of 1.0
 * and zeros. Only a's numbers on and below the diagonal are read. out has n * n numbers. Workspace: n * n + n numbers.
 * Refusals: 1, 4, 6, 7, 8. 8 leaves out unchanged.
 */
uint64_t dapmotar_invert_spd(const double *a, size_t a_len, size_t n, double *out, size_t out_len,
                             double *workspace, size_t workspace_len, uint64_t column[1]);

/*
 * The Householder factors of a, m by n: data has m * n numbers (R on and above the diagonal, the vectors below it
 * with a leading 1 that is not stored), betas has n. Workspace: m numbers.
 * Refusals: 1, 2, 4, 6, 10, 7.
 */
uint64_t dapmotar_qr(const double *a, size_t a_len, size_t m, size_t n, double *data, size_t data_len,
                     double *betas, size_t betas_len, double *workspace, size_t workspace_len);

/*
 * out = the x of least ||a x - b||, for a of m by n and b of m. out has n numbers.
 * Workspace: m * n + 2 * m + 2 * n numbers.
 * Refusals: 1, 2, 4, 5, 6, 10, 7, 9. 9 leaves out unchanged; its column is the last one with a small diagonal.
 */
uint64_t dapmotar_solve_least_squares(const double *a, size_t a_len, const double *b, size_t b_len, size_t m,
                                      size_t n, double *out, size_t out_len, double *workspace,
                                      size_t workspace_len, uint64_t column[1]);

/*
 * The fit by normal equations. theta has n_rows * n_cols numbers, a column a term; target has n_rows; coeffs has
 * n_cols. Terms whose coefficient's magnitude is below the threshold are dropped and the others fitted again, for at
 * most max_iter rounds. theta is walked once, by rows, however many rounds there are, and its kept columns once more
 * for the error.
 * report: the stop; how many refits were tried; the kept word, whose bit j is one exactly if term j's final
 * magnitude is at least the threshold; the term at which a solve refused, a column of theta also after a refit, or
 * DAPMOTAR_NO_TERM.
 * error: the squared error that the kept terms leave, whatever the stop: for each row the products of the kept word's
 * terms, rising, summed from +0.0; the target less that sum; its square, summed over the rows from +0.0. So it is the
 * target's squares where nothing is kept, and +0.0 without rows. What a column that is not kept holds doesn't show in
 * it; a kept zero times an infinite reading makes it NaN.
 * Both are written only if the call is accepted.
 * Workspace: dapmotar_strlsq_workspace(n_rows, n_cols) numbers.
 * Refusals: 1, 2, 3, 4, 5, 6, 7.
 */
uint64_t dapmotar_strlsq(const double *theta, size_t theta_len, size_t n_rows, size_t n_cols,
                         const double *target, size_t target_len, double threshold, double lambda,
                         size_t max_iter, double *coeffs, size_t coeffs_len, double *workspace,
                         size_t workspace_len, uint64_t report[4], double error[1]);

/* The fit by QR: the same, with dapmotar_strlsq_qr_workspace(n_rows, n_cols) numbers of workspace. */
uint64_t dapmotar_strlsq_qr(const double *theta, size_t theta_len, size_t n_rows, size_t n_cols,
                            const double *target, size_t target_len, double threshold, double lambda,
                            size_t max_iter, double *coeffs, size_t coeffs_len, double *workspace,
                            size_t workspace_len, uint64_t report[4], double error[1]);

/*
 * The fit by normal equations that are damped in proportion, as dapmotar_jtj_marquardt damps, in the first solve and
 * in each refit; else as dapmotar_strlsq. Workspace: dapmotar_strlsq_marquardt_workspace(n_rows, n_cols) numbers.
 */
uint64_t dapmotar_strlsq_marquardt(const double *theta, size_t theta_len, size_t n_rows, size_t n_cols,
                                   const double *target, size_t target_len, double threshold, double lambda,
                                   size_t max_iter, double *coeffs, size_t coeffs_len, double *workspace,
                                   size_t workspace_len, uint64_t report[4], double error[1]);

/*
 * The three fits of a theta that stands by columns, one after another: entry (i, j) is number j * n_rows + i. theta isn't
 * copied beyond the workspace. Parameters, refusals, workspace and answers are those of the call by rows, and for every
 * matrix both give the same report, error and coefficients, any NaN for any NaN.
 */
uint64_t dapmotar_strlsq_by_columns(const double *theta, size_t theta_len, size_t n_rows, size_t n_cols,
                                    const double *target, size_t target_len, double threshold, double lambda,
                                    size_t max_iter, double *coeffs, size_t coeffs_len, double *workspace,
                                    size_t workspace_len, uint64_t report[4], double error[1]);
uint64_t dapmotar_strlsq_qr_by_columns(const double *theta, size_t theta_len, size_t n_rows, size_t n_cols,
                                       const double *target, size_t target_len, double threshold, double lambda,
                                       size_t max_iter, double *coeffs, size_t coeffs_len, double *workspace,
                                       size_t workspace_len, uint64_t report[4], double error[1]);
uint64_t dapmotar_strlsq_marquardt_by_columns(const double *theta, size_t theta_len, size_t n_rows, size_t n_cols,
                                              const double *target, size_t target_len, double threshold, double lambda,
                                              size_t max_iter, double *coeffs, size_t coeffs_len, double *workspace,
                                              size_t workspace_len, uint64_t report[4], double error[1]);

/*
 * The numbers of workspace that a fit needs in either layout, with r rows and c columns: 3*c*c + 2*c for the normal
 * equations (at any r), 2*(r+c)*c + 3*(r+c) + 3*c for QR. 0 says that none is needed (no columns; for QR no rows
 * either), or that the sizes are beyond the limits: then the fit is refused, 1 or 2, whatever workspace it gets. Either
 * way a null pointer with length 0 will do.
 */
size_t dapmotar_strlsq_workspace(size_t n_rows, size_t n_cols);
size_t dapmotar_strlsq_qr_workspace(size_t n_rows, size_t n_cols);
size_t dapmotar_strlsq_marquardt_workspace(size_t n_rows, size_t n_cols);

/* The fits by their codes, as in a header. */
enum {
    DAPMOTAR_SOLVER_NORMAL = 0x01,              /* dapmotar_strlsq */
    DAPMOTAR_SOLVER_QR = 0x02,                  /* dapmotar_strlsq_qr */
    DAPMOTAR_SOLVER_MARQUARDT = 0x03,           /* dapmotar_strlsq_marquardt */
    DAPMOTAR_SOLVER_NORMAL_BY_COLUMNS = 0x11,   /* dapmotar_strlsq_by_columns */
    DAPMOTAR_SOLVER_QR_BY_COLUMNS = 0x12,       /* dapmotar_strlsq_qr_by_columns */
    DAPMOTAR_SOLVER_MARQUARDT_BY_COLUMNS = 0x13 /* dapmotar_strlsq_marquardt_by_columns */
};

/* What became of a term: the first number of its cause. */
enum {
    DAPMOTAR_CAUSE_NO_DATA = 0,       /* there were no rows */
    DAPMOTAR_CAUSE_FIRST_REFUSED = 1, /* the first solve was refused */
    DAPMOTAR_CAUSE_KEPT = 2,          /* its final magnitude is at least the threshold */
    DAPMOTAR_CAUSE_DROPPED = 3,       /* at the look before refit cause[1], with the coefficient value[0], which may be NaN;
                                         cause[1] is one past the last refit where that look found no term at all */
    DAPMOTAR_CAUSE_CLEARED = 4,       /* when refit cause[1] was refused */
    DAPMOTAR_CAUSE_ZEROED = 5,        /* by the last pass, from value[0], which may be a zero of either sign */
    DAPMOTAR_CAUSE_LEFT_NAN = 6       /* the rounds are used up, and its coefficient is a NaN */
};

/*
 * Why was this term dropped? Runs the fit of that code, on a theta in its layout, leaves coeffs and workspace as it
 * does, and says what became of one term, a column of theta. cause: its code and a refit number, counted from 1; value:
 * a coefficient. Each is zero (value +0.0) where the cause has none. Both are written only if the call is accepted.
 * Workspace: as the fit's.
 * Refusals: 11, 1, 2, 3, 12, 13, 4, 5, 6, 7.
 */
uint64_t dapmotar_why(uint64_t code, const double *theta, size_t theta_len, size_t n_rows, size_t n_cols,
                      const double *target, size_t target_len, double threshold, double lambda, size_t max_iter,
                      size_t term, double *coeffs, size_t coeffs_len, double *workspace, size_t workspace_len,
                      uint64_t cause[2], double value[1]);

/* The room for an answer of dapmotar_respond: a report's line, and a line for each of 16 coefficients. */
enum { DAPMOTAR_ANSWER = 313 };

/*
 * The bench program's exchange: writes the answer to the frames in input to the head of answer, leaves the bytes behind
 * it, and gives its length. Any bytes are an input; every answer fits.
 */
size_t dapmotar_respond(const uint8_t *input, size_t input_len, uint8_t answer[DAPMOTAR_ANSWER]);

/* The room for an answer of dapmotar_respond_why: a line for each of 16 terms. */
enum { DAPMOTAR_WHY_ANSWER = 368 };

/* The exchange of the program why, on the bench program's input: else as dapmotar_respond. */
size_t dapmotar_respond_why(const uint8_t *input, size_t input_len, uint8_t answer[DAPMOTAR_WHY_ANSWER]);

#ifdef __cplusplus
}
#endif

#endif
