//! The calls that are measured: the port's into lent slices, the Rust's as published.

use crate::data::{Data, LAMBDA, MAX_ITER, THRESHOLD};
use dapmotar::Setup;
use oracle::linalg;
use oracle::symreg::{strlsq, strlsq_marquardt};

/// The port's outputs and workspace, lent to every call.
pub struct Room {
    pub out: Vec<f64>,
    pub workspace: Vec<f64>,
}

impl Room {
    pub fn new(call: Call, data: &Data) -> Room {
        Room {
            out: vec![0.0; (call.out)(data)],
            workspace: vec![0.0; (call.workspace)(data)],
        }
    }
}

/// One call, by the port and by the Rust. The Rust gives its result; the port leaves it in the room.
#[derive(Clone, Copy)]
pub struct Call {
    pub name: &'static str,
    /// The numbers of the result.
    pub out: fn(&Data) -> usize,
    /// The numbers of workspace.
    pub workspace: fn(&Data) -> usize,
    pub port: fn(&Data, &mut Room),
    pub rust: fn(&Data) -> Vec<f64>,
}

const SETUP: Setup = Setup {
    threshold: THRESHOLD,
    lambda: LAMBDA,
    max_iter: MAX_ITER,
};

/// A fit, by the port's call with its workspace, on theta in that call's layout, and by the Rust's.
macro_rules! fit {
    ($name:literal, $theta:ident, $port:path, $workspace:path, $rust:path) => {
        Call {
            name: $name,
            out: |d| d.cols,
            workspace: |d| $workspace(d.rows, d.cols),
            port: |d, Room { out, workspace }| {
                $port(&d.$theta, d.rows, d.cols, &d.target, SETUP, out, workspace)
                    .map(|_| ())
                    .expect("accepted")
            },
            rust: |d| {
                $rust(
                    &d.theta, d.rows, d.cols, &d.target, THRESHOLD, LAMBDA, MAX_ITER,
                )
            },
        }
    };
}

pub const STRLSQ: Call = fit!(
    "strlsq",
    theta,
    dapmotar::strlsq,
    dapmotar::strlsq_workspace,
    strlsq::strlsq
);

const STRLSQ_QR: Call = fit!(
    "strlsq_qr",
    theta,
    dapmotar::strlsq_qr,
    dapmotar::strlsq_qr_workspace,
    strlsq::strlsq_qr
);

const STRLSQ_MARQUARDT: Call = fit!(
    "strlsq_marquardt",
    theta,
    dapmotar::strlsq_marquardt,
    dapmotar::strlsq_marquardt_workspace,
    strlsq_marquardt::strlsq
);

/// Each fit by columns, and the same by rows.
pub const LAYOUTS: [(Call, Call); 3] = [
    (
        fit!(
            "strlsq_by_columns",
            by_columns,
            dapmotar::strlsq_by_columns,
            dapmotar::strlsq_workspace,
            strlsq::strlsq
        ),
        STRLSQ,
    ),
    (
        fit!(
            "strlsq_qr_by_columns",
            by_columns,
            dapmotar::strlsq_qr_by_columns,
            dapmotar::strlsq_qr_workspace,
            strlsq::strlsq_qr
        ),
        STRLSQ_QR,
    ),
    (
        fit!(
            "strlsq_marquardt_by_columns",
            by_columns,
            dapmotar::strlsq_marquardt_by_columns,
            dapmotar::strlsq_marquardt_workspace,
            strlsq_marquardt::strlsq
        ),
        STRLSQ_MARQUARDT,
    ),
];

/// The port's `strlsq`, and how often it refitted.
pub fn refits(d: &Data, Room { out, workspace }: &mut Room) -> u64 {
    let report = dapmotar::strlsq(&d.theta, d.rows, d.cols, &d.target, SETUP, out, workspace);
    report.expect("accepted").refits
}

pub const ALL: [Call; 9] = [
    Call {
        name: "jtj",
        out: |d| d.cols * d.cols,
        workspace: |_| 0,
        port: |d, room| {
            dapmotar::jtj(&d.theta, d.rows, d.cols, LAMBDA, &mut room.out).expect("accepted")
        },
        rust: |d| linalg::jtj(&d.theta, d.rows, d.cols, LAMBDA),
    },
    Call {
        name: "jtj_marquardt",
        out: |d| d.cols * d.cols,
        workspace: |_| 0,
        port: |d, room| {
            dapmotar::jtj_marquardt(&d.theta, d.rows, d.cols, LAMBDA, &mut room.out)
                .expect("accepted")
        },
        rust: |d| linalg::jtj_marquardt(&d.theta, d.rows, d.cols, LAMBDA),
    },
    Call {
        name: "jtr",
        out: |d| d.cols,
        workspace: |_| 0,
        port: |d, room| {
            dapmotar::jtr(&d.theta, &d.target, d.rows, d.cols, &mut room.out).expect("accepted")
        },
        rust: |d| linalg::jtr(&d.theta, &d.target, d.rows, d.cols),
    },
    Call {
        name: "solve_normal_equations",
        out: |d| d.cols,
        workspace: |d| d.cols * d.cols,
        port: |d, room| {
            room.out.copy_from_slice(&d.products);
            let Room { out, workspace } = room;
            dapmotar::solve_normal_equations(&d.sums, out, d.cols, workspace).expect("accepted")
        },
        rust: |d| {
            let mut b = d.products.clone();
            linalg::solve_normal_equations(&d.sums, &mut b, d.cols).expect("accepted");
            b
        },
    },
    Call {
        name: "invert_spd",
        out: |d| d.cols * d.cols,
        workspace: |d| d.cols * d.cols + d.cols,
        port: |d, Room { out, workspace }| {
            dapmotar::invert_spd(&d.sums, d.cols, out, workspace).expect("accepted")
        },
        rust: |d| linalg::invert_spd(&d.sums, d.cols).expect("accepted"),
    },
    Call {
        name: "solve_least_squares",
        out: |d| d.cols,
        workspace: |d| d.rows * d.cols + 2 * d.rows + 2 * d.cols,
        port: |d, Room { out, workspace }| {
            dapmotar::solve_least_squares(&d.theta, &d.target, d.rows, d.cols, out, workspace)
                .expect("accepted")
        },
        rust: |d| {
            linalg::solve_least_squares(&d.theta, &d.target, d.rows, d.cols).expect("accepted")
        },
    },
    STRLSQ,
    STRLSQ_QR,
    STRLSQ_MARQUARDT,
];
