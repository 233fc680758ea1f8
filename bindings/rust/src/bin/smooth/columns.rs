//! The columns of a file by header and by number: the axes, and the parameters or the rule that spaces them.

use crate::csv::Table;
use crate::names;
use crate::options::Options;
use pamitoye::Spacing;

/// The rules of spacing, by the words of `--parameters`.
const RULES: [(&str, Spacing); 2] = [("even", Spacing::Even), ("chord", Spacing::Chord)];

/// What `--parameters` names.
#[derive(PartialEq)]
pub enum Named {
    /// The column with this place from 0.
    Column(usize),
    Rule(Spacing),
}

/// The columns of a table, by header and by number.
pub struct Columns<'a> {
    header: Option<&'a [String]>,
    count: usize,
}

impl<'a> Columns<'a> {
    pub fn new(table: &'a Table) -> Self {
        Self {
            header: table.header.as_deref(),
            count: table.columns,
        }
    }

    /// So many columns without a header.
    pub fn numbered(count: usize) -> Self {
        let header = None;
        Self { header, count }
    }

    pub fn name(&self, column: usize) -> String {
        match self.header.and_then(|header| header.get(column)) {
            Some(name) if !name.is_empty() => name.clone(),
            _ => names::column(column),
        }
    }

    /// The column with this header.
    fn headed(&self, wanted: &str) -> Option<usize> {
        let header = self.header.unwrap_or_default();
        header.iter().position(|name| name == wanted)
    }

    /// The column with this header or, if there is none, this number from 1.
    fn find(&self, option: &str, wanted: &str) -> Result<usize, String> {
        if let Some(column) = self.headed(wanted) {
            return Ok(column);
        }
        match wanted.parse::<usize>() {
            Ok(number) if (1..=self.count).contains(&number) => Ok(number - 1),
            _ => Err(format!(
                "{option}: there is no column \"{wanted}\"; there are {}",
                self.listed()
            )),
        }
    }

    /// The column with the parameters, or the rule that spaces them. A word that is both is refused.
    pub fn parameters(&self, wanted: &str) -> Result<Named, String> {
        let option = "--parameters";
        let Some((word, rule)) = RULES.into_iter().find(|(word, _)| *word == wanted) else {
            let words = RULES.map(|(word, _)| word).join(" and ");
            let found = self.find(option, wanted).map(Named::Column);
            return found.map_err(|wrong| format!("{wrong}; the rules are {words}"));
        };
        match self.headed(word).map(|column| column + 1) {
            None => Ok(Named::Rule(rule)),
            Some(number) => Err(format!(
                "{option}: \"{word}\" is a rule, and column {number} is called so too; \
                 write {number} for the column, or rename it for the rule"
            )),
        }
    }

    fn listed(&self) -> String {
        let names: Vec<String> = (0..self.count).map(|c| self.name(c)).collect();
        names.join(", ")
    }

    /// The axis of a column that is named, where the axes are these columns.
    fn axis(&self, option: &str, wanted: &str, axes: &[usize]) -> Result<usize, String> {
        let column = self.find(option, wanted)?;
        let axis = axes.iter().position(|c| *c == column);
        axis.ok_or_else(|| format!("{option}: \"{wanted}\" holds the parameters"))
    }

    /// The axes of these columns.
    pub fn selected(&self, list: &[String], axes: &[usize]) -> Result<Vec<usize>, String> {
        let option = "--axes";
        let mut selected = Vec::new();
        for wanted in list {
            let axis = self.axis(option, wanted, axes)?;
            if selected.contains(&axis) {
                return Err(format!("{option}: \"{wanted}\" is named twice"));
            }
            selected.push(axis);
        }
        Ok(selected)
    }

    /// The axis whose heights are asked for, the first where none is named.
    pub fn height_axis(&self, options: &Options, axes: &[usize]) -> Result<Option<usize>, String> {
        match (&options.heights, &options.height_axis) {
            (None, _) => Ok(None),
            (Some(_), None) => Ok(Some(0)),
            (Some(_), Some(wanted)) => self.axis("--height-axis", wanted, axes).map(Some),
        }
    }
}
