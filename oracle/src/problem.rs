//! What is fitted: theta, the target, and the setup; and the codes of a solver and a layout.

#[derive(Clone, Copy, Debug, PartialEq, Eq)]
pub enum Solver {
    Normal,
    Qr,
    Marquardt,
}

impl Solver {
    pub const ALL: [Solver; 3] = [Solver::Normal, Solver::Qr, Solver::Marquardt];

    pub fn name(self) -> &'static str {
        match self {
            Solver::Normal => "normal",
            Solver::Qr => "qr",
            Solver::Marquardt => "marquardt",
        }
    }
}

/// How theta arrives: entry (i, j) is number i·cols + j, or number j·rows + i.
#[derive(Clone, Copy, Debug, PartialEq, Eq)]
pub enum Layout {
    ByRows,
    ByColumns,
}

impl Layout {
    pub const ALL: [Layout; 2] = [Layout::ByRows, Layout::ByColumns];
}

/// What a header's code says.
#[derive(Clone, Copy, Debug, PartialEq, Eq)]
pub struct Code {
    pub solver: Solver,
    pub layout: Layout,
}

impl Code {
    pub fn all() -> impl Iterator<Item = Code> {
        let with = |layout| Solver::ALL.map(|solver| Code { solver, layout });
        Layout::ALL.into_iter().flat_map(with)
    }

    pub fn number(self) -> u8 {
        let solver = match self.solver {
            Solver::Normal => 1,
            Solver::Qr => 2,
            Solver::Marquardt => 3,
        };
        match self.layout {
            Layout::ByRows => solver,
            Layout::ByColumns => 0x10 + solver,
        }
    }

    pub fn of_number(number: u64) -> Option<Code> {
        Code::all().find(|code| u64::from(code.number()) == number)
    }

    pub fn name(self) -> String {
        let layout = match self.layout {
            Layout::ByRows => "",
            Layout::ByColumns => " by columns",
        };
        format!("{}{layout}", self.solver.name())
    }
}

/// A matrix that stands by rows, as it stands by columns. With its sizes exchanged: the other way round.
pub fn transposed(matrix: &[f64], rows: usize, cols: usize) -> Vec<f64> {
    let column = |j| (0..rows).map(move |i| matrix[i * cols + j]);
    (0..cols).flat_map(column).collect()
}

/// The threshold, lambda and max_iter travel together.
#[derive(Clone, Copy, Debug)]
pub struct Setup {
    pub threshold: f64,
    pub lambda: f64,
    pub max_iter: usize,
}

/// `theta` stands by rows here, whatever the layout that it arrives in.
#[derive(Clone, Debug)]
pub struct Problem {
    pub solver: Solver,
    pub layout: Layout,
    pub rows: usize,
    pub cols: usize,
    pub setup: Setup,
    pub theta: Vec<f64>,
    pub target: Vec<f64>,
}

impl Problem {
    /// A problem by rows with every number +0.0.
    pub fn zeros(solver: Solver, rows: usize, cols: usize, setup: Setup) -> Problem {
        Problem {
            solver,
            layout: Layout::ByRows,
            rows,
            cols,
            setup,
            theta: vec![0.0; rows * cols],
            target: vec![0.0; rows],
        }
    }

    /// The same, arriving by columns.
    pub fn by_columns(mut self) -> Problem {
        self.layout = Layout::ByColumns;
        self
    }

    pub fn code(&self) -> Code {
        Code {
            solver: self.solver,
            layout: self.layout,
        }
    }

    pub fn set(&mut self, row: usize, term_idx: usize, x: f64) {
        self.theta[row * self.cols + term_idx] = x;
    }

    pub fn at(&self, row: usize, term_idx: usize) -> f64 {
        self.theta[row * self.cols + term_idx]
    }
}

#[cfg(test)]
mod tests {
    use super::*;

    #[test]
    fn the_codes_are_six() {
        let codes = (0..1000).filter_map(|number| Some((number, Code::of_number(number)?.name())));
        let names = [
            (0x01, "normal"),
            (0x02, "qr"),
            (0x03, "marquardt"),
            (0x11, "normal by columns"),
            (0x12, "qr by columns"),
            (0x13, "marquardt by columns"),
        ];
        assert!(codes.eq(names.map(|(number, name)| (number, name.to_string()))));
    }

    #[test]
    fn a_matrix_by_columns() {
        let by_rows = [1.0, 2.0, 3.0, 4.0, 5.0, 6.0];
        let by_columns = [1.0, 4.0, 2.0, 5.0, 3.0, 6.0];
        assert_eq!(transposed(&by_rows, 2, 3), by_columns);
        assert_eq!(transposed(&by_columns, 3, 2), by_rows);
    }
}
