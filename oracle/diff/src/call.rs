//! A call: its sizes, its numbers, its slices, and the report where there is one.

use crate::slice::Slice;
use oracle::rng::Rng;

/// Everything that goes into a call, and what comes out of it.
#[derive(Clone, Debug)]
pub struct Call {
    /// Rows, columns and the like, in the call's order.
    pub sizes: Vec<usize>,
    /// Lambda, threshold and the like, in the call's order.
    pub floats: Vec<f64>,
    /// The slices that are only read.
    pub reads: Vec<Slice>,
    /// The slices that may be written, without the workspace.
    pub writes: Vec<Slice>,
    /// The workspace and the length of it that is needed.
    pub workspace: Option<(Slice, usize)>,
    /// A fit's report; a cause stands at its head.
    pub report: [u64; 4],
    /// The column at which a solver refused.
    pub column: [u64; 1],
}

/// One export: how its calls are made, how the library runs one, and how the model does. Both give the answer.
#[derive(Clone, Copy)]
pub struct Function {
    pub name: &'static str,
    pub make: fn(&mut Rng) -> Call,
    pub library: fn(&mut Call) -> u64,
    pub model: fn(&mut Call) -> u64,
    /// Another call of the library that must answer and leave the same, where there is one.
    pub alike: Option<fn(&mut Call) -> u64>,
    /// The histogram's line for an answer.
    pub label: fn(&Call, u64) -> String,
}

/// The answer's number, for calls that give nothing else.
pub fn number_label(_: &Call, answer: u64) -> String {
    answer.to_string()
}
