//! Stand-ins for what `smoothing.rs` takes from elsewhere: nalgebra's view of a
//! matrix, the error of the crate's `diag` module, and the mode of its `path` module.

use std::ops::Index;

/// A matrix of borrowed cells, column after column, as nalgebra's `DMatrixView`.
#[derive(Clone, Copy)]
pub struct DMatrixView<'a, T> {
    rows: usize,
    columns: usize,
    cells: &'a [T],
}

impl<'a, T> DMatrixView<'a, T> {
    pub fn from_slice(cells: &'a [T], rows: usize, columns: usize) -> Self {
        assert_eq!(cells.len(), rows * columns);
        Self {
            rows,
            columns,
            cells,
        }
    }

    pub fn nrows(&self) -> usize {
        self.rows
    }

    pub fn ncols(&self) -> usize {
        self.columns
    }

    pub fn iter(&self) -> std::slice::Iter<'a, T> {
        self.cells.iter()
    }
}

impl<T> Index<(usize, usize)> for DMatrixView<'_, T> {
    type Output = T;

    fn index(&self, (row, column): (usize, usize)) -> &T {
        assert!(row < self.rows && column < self.columns);
        &self.cells[column * self.rows + row]
    }
}

/// The one variant of the original error that `smoothing.rs` makes.
#[derive(Debug)]
pub enum PathError {
    Smoothing { message: String },
}

/// As in the original `path/mod.rs`. `build` never looks at it.
#[derive(Clone, Copy, Debug)]
#[allow(dead_code)]
pub enum OutOfRangeMode {
    Error,
    Clamp,
}
