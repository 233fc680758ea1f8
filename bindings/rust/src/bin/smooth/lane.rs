//! A lane: the columns of a table that are axes, and the one with the parameters, or the rule that spaces them.

use crate::columns::{Columns, Named};
use crate::csv::Table;
use crate::names::{self, Names};
use crate::options::Options;
use pamitoye::{
    Path, PathError, SmoothingConfig, SmoothingTolerance, Spacing, chord_parameters,
    reversed_waypoints,
};

/// Where the parameters of a lane come from.
#[derive(Clone, Copy)]
pub enum Source {
    /// A list: a column's, or that of the way back.
    Listed,
    /// The rule of spacing.
    Spaced(Spacing),
}

#[derive(Clone)]
pub struct Lane {
    pub names: Names,
    /// The axes to smooth; none for all.
    pub axes: Option<Vec<usize>>,
    /// Waypoint after waypoint.
    pub points: Vec<f64>,
    /// The parameter of each waypoint.
    pub parameters: Vec<f64>,
    /// Where the parameters come from.
    pub source: Source,
    /// The line of each waypoint.
    pub lines: Vec<usize>,
    pub tolerance: SmoothingTolerance,
    /// The depth at which it is certified.
    pub depth: usize,
    /// The axis whose heights are asked for, if they are.
    pub height_axis: Option<usize>,
    /// Whether it is driven back.
    pub back: bool,
}

impl Lane {
    pub fn new(options: &Options, table: Table) -> Result<Self, String> {
        let columns = Columns::new(&table);
        let named = match &options.parameters {
            Some(wanted) => columns.parameters(wanted)?,
            None => Named::Rule(Spacing::default()),
        };
        let axis_columns: Vec<usize> = (0..table.columns)
            .filter(|c| named != Named::Column(*c))
            .collect();
        let axes = match &options.axes {
            Some(list) => Some(columns.selected(list, &axis_columns)?),
            None => None,
        };
        let height_axis = columns.height_axis(options, &axis_columns)?;
        let smoothed = axes.as_ref().map_or(axis_columns.len(), Vec::len);
        let tolerance = options.config.tolerance.clone();
        if let SmoothingTolerance::PerAxis(list) = &tolerance
            && list.len() != smoothed
        {
            let (count, axes) = (list.len(), crate::axes(smoothed));
            return Err(format!("--tolerance has {count} numbers for {axes}"));
        }
        let at = |cells: &[f64], c: usize| cells.get(c).copied().unwrap_or(f64::NAN);
        let rows = || table.rows.iter().map(|row| row.cells.as_slice());
        let points: Vec<f64> = rows()
            .flat_map(|cells| axis_columns.iter().map(|c| at(cells, *c)))
            .collect();
        let (source, parameter, parameters) = match named {
            Named::Column(c) => (
                Source::Listed,
                columns.name(c),
                rows().map(|cells| at(cells, c)).collect(),
            ),
            Named::Rule(rule @ Spacing::Even) => (
                Source::Spaced(rule),
                names::PARAMETER.to_string(),
                even_parameters(table.rows.len()),
            ),
            Named::Rule(rule @ Spacing::Chord) => (
                Source::Spaced(rule),
                "chord length".to_string(),
                chord_parameters(&points, axis_columns.len()),
            ),
        };
        Ok(Self {
            names: Names {
                input: options.input.name(),
                axes: axis_columns.iter().map(|c| columns.name(*c)).collect(),
                parameter,
            },
            axes,
            points,
            parameters,
            source,
            lines: table.rows.iter().map(|row| row.line).collect(),
            tolerance,
            depth: options.depth,
            height_axis,
            back: false,
        })
    }

    /// The lane driven back: its waypoints in reverse, with parameters listed for them.
    pub fn reversed(&self) -> Self {
        let (points, parameters) =
            reversed_waypoints(&self.points, self.d(), Some(&self.parameters));
        Self {
            names: self.names.back(),
            points,
            parameters,
            source: Source::Listed,
            lines: self.lines.iter().rev().copied().collect(),
            back: true,
            ..self.clone()
        }
    }

    /// How many axes there are.
    pub fn d(&self) -> usize {
        self.names.axes.len()
    }

    /// How many waypoints there are.
    pub fn n(&self) -> usize {
        self.lines.len()
    }

    /// The parameters, if they are listed.
    pub fn listed(&self) -> Option<&[f64]> {
        match self.source {
            Source::Listed => Some(&self.parameters),
            Source::Spaced(_) => None,
        }
    }

    /// The rule of spacing, which is not read where the parameters are listed.
    fn spacing(&self) -> Spacing {
        match self.source {
            Source::Listed => Spacing::default(),
            Source::Spaced(rule) => rule,
        }
    }

    /// The parameter of a waypoint.
    pub fn parameter(&self, i: usize) -> f64 {
        self.parameters.get(i).copied().unwrap_or(f64::NAN)
    }

    /// A coordinate.
    pub fn point(&self, i: usize, axis: usize) -> f64 {
        let cell = i * self.d() + axis;
        self.points.get(cell).copied().unwrap_or(f64::NAN)
    }

    /// The lane, smoothed.
    pub fn build(&self, options: &Options) -> Result<Path, PathError> {
        let config = SmoothingConfig {
            axes: self.axes.clone(),
            parameters: self.listed().map(<[f64]>::to_vec),
            spacing: self.spacing(),
            ..options.config.clone()
        };
        Path::from_waypoints_fitting(&self.points, (self.d(), self.n()), config)
    }
}

/// The parameters of so many waypoints, even from 0 to 1.
fn even_parameters(n: usize) -> Vec<f64> {
    let last = n.saturating_sub(1) as f64;
    (0..n).map(|i| i as f64 / last).collect()
}
