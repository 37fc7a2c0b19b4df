//! Every export of libcapi.a against a model over the published Rust: the answer, and every number of every slice
//! afterwards.

#[cfg(feature = "stand-in")]
pub use stand_in::fault;

pub mod call;
pub mod compare;
pub mod drop_in;
pub mod frames;
pub mod functions;
pub mod matrices;
#[cfg(feature = "stand-in")]
pub mod replay;
pub mod run;
pub mod sizes;
pub mod slice;
pub mod sqrt;

/// The compiler holds the stand-in's definitions against the declarations that the runs call.
#[cfg(feature = "stand-in")]
const _: () = {
    macro_rules! declared {
        ($($name:ident)*) => {
            $(let _ = [dapmotar::raw::$name, stand_in::exports::$name];)*
        };
    }
    declared! {
        dapmotar_sqrt dapmotar_abs dapmotar_jtj dapmotar_jtj_marquardt dapmotar_jtr
        dapmotar_solve_spd_cholesky dapmotar_solve_lu dapmotar_solve_normal_equations dapmotar_invert_spd
        dapmotar_qr dapmotar_solve_least_squares
        dapmotar_strlsq dapmotar_strlsq_qr dapmotar_strlsq_marquardt
        dapmotar_strlsq_by_columns dapmotar_strlsq_qr_by_columns dapmotar_strlsq_marquardt_by_columns
        dapmotar_strlsq_workspace dapmotar_strlsq_qr_workspace dapmotar_strlsq_marquardt_workspace
        dapmotar_why dapmotar_respond dapmotar_respond_why
    }
};

/// The stand-in's fault, where there is a stand-in.
pub fn set_fault_from_env() {
    #[cfg(feature = "stand-in")]
    fault::set_from_env();
}
