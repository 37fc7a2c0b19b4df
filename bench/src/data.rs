//! What is measured on: readings of a sparse truth, with noise, from a fixed seed.

use oracle::linalg;
use oracle::problem::transposed;
use oracle::rng::Rng;

pub struct Data {
    pub rows: usize,
    pub cols: usize,
    pub theta: Vec<f64>,
    /// Theta by columns.
    pub by_columns: Vec<f64>,
    pub target: Vec<f64>,
    /// The sums of the normal equations, for the solver alone.
    pub sums: Vec<f64>,
    pub products: Vec<f64>,
}

/// The fits' setup: about half of the terms are dropped, over two or three refits.
pub const THRESHOLD: f64 = 0.25;
pub const LAMBDA: f64 = 1e-6;
pub const MAX_ITER: usize = 20;

/// The terms that fall in turn, or at once.
pub const FALLING: usize = 8;

impl Data {
    /// About half of the terms are small.
    pub fn new(rows: usize, cols: usize) -> Data {
        let mut rng = Rng::new(4);
        let theta = (0..rows * cols).map(|_| rng.signed()).collect();
        let truth: Vec<f64> = (0..cols)
            .map(|j| {
                if j % 2 == 0 {
                    1.0 + rng.unit()
                } else {
                    0.24 * rng.unit()
                }
            })
            .collect();
        Data::of(&mut rng, rows, cols, theta, &truth)
    }

    /// The first terms fall, all others stay. At once: the first look finds them small. In turn: each of them leans on the
    /// one before, and is found small only after the refit without that one, so there are as many refits.
    pub fn falling(rows: usize, cols: usize, in_turn: bool) -> Data {
        let mut rng = Rng::new(5);
        let mut theta: Vec<f64> = (0..rows * cols).map(|_| rng.signed()).collect();
        for row in theta.chunks_mut(cols) {
            for j in 1..FALLING {
                row[j] += 0.7 * row[j - 1];
            }
        }
        let truth: Vec<f64> = (0..cols)
            .map(|j| match j {
                FALLING.. => 1.0 + rng.unit(),
                0 => 0.2,
                _ if in_turn => [0.3, -0.3][j % 2],
                _ => [0.1, -0.1][j % 2],
            })
            .collect();
        Data::of(&mut rng, rows, cols, theta, &truth)
    }

    fn of(rng: &mut Rng, rows: usize, cols: usize, theta: Vec<f64>, truth: &[f64]) -> Data {
        let target: Vec<f64> = (0..rows)
            .map(|i| {
                let exact: f64 = (0..cols).map(|j| theta[i * cols + j] * truth[j]).sum();
                exact + 0.5 * rng.signed()
            })
            .collect();
        let sums = linalg::jtj(&theta, rows, cols, LAMBDA);
        let products = linalg::jtr(&theta, &target, rows, cols);
        Data {
            rows,
            cols,
            by_columns: transposed(&theta, rows, cols),
            theta,
            target,
            sums,
            products,
        }
    }
}
