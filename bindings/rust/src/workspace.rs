//! Memory: what builds share, and cells that may not be had.

use crate::error::PathError;

/// The memory of builds, kept from one to the next. A build without one allocates its own and frees it.
///
/// It grows to what the largest build needed so far, and is freed when it is dropped. What it holds does not matter to a
/// build: the library's contract says what every cell holds after a call, and none depends on what the work cells held
/// before.
///
/// ```
/// use pamitoye::{Path, SmoothingConfig, Workspace};
///
/// let (mut workspace, config) = (Workspace::default(), SmoothingConfig::default());
/// for height in [1.0, 2.0, 3.0] {
///     let points = [0.0, height, 0.0];
///     let path = Path::from_waypoints_fitting_in(&mut workspace, &points, (1, 3), &config)?;
///     assert_eq!(path.dim(), 1);
/// }
/// # Ok::<(), pamitoye::PathError>(())
/// ```
#[derive(Debug, Default)]
pub struct Workspace {
    /// Work, breaks, coefficients, other breaks, other coefficients, errors.
    cells: [Vec<f64>; 6],
}

/// So many cells, or a refusal where there is no memory for them.
pub(crate) fn cells<T: Clone + Default>(count: usize) -> Result<Vec<T>, PathError> {
    let mut cells = Vec::new();
    cells
        .try_reserve_exact(count)
        .map_err(|_| PathError::ShortSlice)?;
    cells.resize(count, T::default());
    Ok(cells)
}

impl Workspace {
    /// Slices of these lengths.
    pub(crate) fn lend(&mut self, room: [usize; 6]) -> [&mut [f64]; 6] {
        for (cells, needed) in self.cells.iter_mut().zip(room) {
            if cells.len() < needed {
                // The old ones are freed first.
                *cells = Vec::new();
                *cells = vec![0.; needed];
            }
        }
        let mut room = room.into_iter();
        self.cells.each_mut().map(|cells| {
            let needed = room.next().unwrap_or_default();
            cells.get_mut(..needed).unwrap_or_default()
        })
    }
}
