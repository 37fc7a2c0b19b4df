//! The exports of the static library, as include/dapmotar.h declares them. A slice is a pointer and a length; a
//! null pointer with length 0 is an empty slice. What is written must not overlap anything else that is read or
//! written, and `report`, `error`, `column`, `cause`, `value` and `answer` are never null.

/// The room for an answer of [`dapmotar_respond`], in bytes.
pub const ANSWER: usize = 313;

/// The room for an answer of [`dapmotar_respond_why`], in bytes.
pub const WHY_ANSWER: usize = 368;

/// One signature of several calls: as the type of each, and as their declarations.
macro_rules! alike {
    ($(#[$doc:meta])* $type:ident: $($name:ident)* : $takes:tt -> $gives:ty) => {
        $(#[$doc])*
        pub type $type = unsafe extern "C" fn $takes -> $gives;

        unsafe extern "C" {
            $(pub fn $name $takes -> $gives;)*
        }
    };
}

alike! {
    /// Any of the fits: theta by rows, or by columns.
    Fit: dapmotar_strlsq dapmotar_strlsq_qr dapmotar_strlsq_marquardt
        dapmotar_strlsq_by_columns dapmotar_strlsq_qr_by_columns dapmotar_strlsq_marquardt_by_columns: (
        theta: *const f64,
        theta_len: usize,
        n_rows: usize,
        n_cols: usize,
        target: *const f64,
        target_len: usize,
        threshold: f64,
        lambda: f64,
        max_iter: usize,
        coeffs: *mut f64,
        coeffs_len: usize,
        workspace: *mut f64,
        workspace_len: usize,
        report: *mut [u64; 4],
        error: *mut [f64; 1],
    ) -> u64
}

alike! {
    /// Cholesky or LU, which solve in place.
    InPlace: dapmotar_solve_spd_cholesky dapmotar_solve_lu: (
        a: *mut f64,
        a_len: usize,
        b: *mut f64,
        b_len: usize,
        n: usize,
        column: *mut [u64; 1],
    ) -> u64
}

alike! {
    /// The pair sums, with either damping.
    Jtj: dapmotar_jtj dapmotar_jtj_marquardt: (
        jac: *const f64,
        jac_len: usize,
        n_rows: usize,
        n_params: usize,
        lambda: f64,
        out: *mut f64,
        out_len: usize,
    ) -> u64
}

unsafe extern "C" {
    pub safe fn dapmotar_sqrt(x: f64) -> f64;

    pub safe fn dapmotar_abs(x: f64) -> f64;

    pub fn dapmotar_jtr(
        jac: *const f64,
        jac_len: usize,
        r: *const f64,
        r_len: usize,
        n_rows: usize,
        n_params: usize,
        out: *mut f64,
        out_len: usize,
    ) -> u64;

    pub fn dapmotar_solve_normal_equations(
        a: *const f64,
        a_len: usize,
        b: *mut f64,
        b_len: usize,
        n: usize,
        workspace: *mut f64,
        workspace_len: usize,
        column: *mut [u64; 1],
    ) -> u64;

    pub fn dapmotar_invert_spd(
        a: *const f64,
        a_len: usize,
        n: usize,
        out: *mut f64,
        out_len: usize,
        workspace: *mut f64,
        workspace_len: usize,
        column: *mut [u64; 1],
    ) -> u64;

    pub fn dapmotar_qr(
        a: *const f64,
        a_len: usize,
        m: usize,
        n: usize,
        data: *mut f64,
        data_len: usize,
        betas: *mut f64,
        betas_len: usize,
        workspace: *mut f64,
        workspace_len: usize,
    ) -> u64;

    pub fn dapmotar_solve_least_squares(
        a: *const f64,
        a_len: usize,
        b: *const f64,
        b_len: usize,
        m: usize,
        n: usize,
        out: *mut f64,
        out_len: usize,
        workspace: *mut f64,
        workspace_len: usize,
        column: *mut [u64; 1],
    ) -> u64;

    pub safe fn dapmotar_strlsq_workspace(n_rows: usize, n_cols: usize) -> usize;

    pub safe fn dapmotar_strlsq_qr_workspace(n_rows: usize, n_cols: usize) -> usize;

    pub safe fn dapmotar_strlsq_marquardt_workspace(n_rows: usize, n_cols: usize) -> usize;

    pub fn dapmotar_why(
        code: u64,
        theta: *const f64,
        theta_len: usize,
        n_rows: usize,
        n_cols: usize,
        target: *const f64,
        target_len: usize,
        threshold: f64,
        lambda: f64,
        max_iter: usize,
        term: usize,
        coeffs: *mut f64,
        coeffs_len: usize,
        workspace: *mut f64,
        workspace_len: usize,
        cause: *mut [u64; 2],
        value: *mut [f64; 1],
    ) -> u64;

    pub fn dapmotar_respond(input: *const u8, input_len: usize, answer: *mut [u8; ANSWER])
    -> usize;

    pub fn dapmotar_respond_why(
        input: *const u8,
        input_len: usize,
        answer: *mut [u8; WHY_ANSWER],
    ) -> usize;
}
