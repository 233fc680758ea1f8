//! What reports, tables and pictures call things.

/// The names of an input, its axes and its parameter.
#[derive(Clone)]
pub struct Names {
    /// A file, or standard input.
    pub input: String,
    pub axes: Vec<String>,
    pub parameter: String,
}

impl Names {
    /// An axis's name.
    pub fn axis(&self, axis: usize) -> &str {
        self.axes.get(axis).map_or("", String::as_str)
    }

    /// The names of these axes, in their order.
    pub fn joined(&self, axes: &[usize]) -> String {
        let names: Vec<&str> = axes.iter().map(|axis| self.axis(*axis)).collect();
        names.join(", ")
    }

    /// The input without the folders before it.
    pub fn file_name(&self) -> &str {
        self.input.rsplit('/').next().unwrap_or_default()
    }

    /// Those of the same lane driven back.
    pub fn back(&self) -> Self {
        Self {
            parameter: format!("{} back", self.parameter),
            ..self.clone()
        }
    }
}

/// What a column that has no header is called.
pub fn column(place: usize) -> String {
    format!("column {}", place + 1)
}

/// What the parameter is called where no column has it.
pub const PARAMETER: &str = "parameter";
