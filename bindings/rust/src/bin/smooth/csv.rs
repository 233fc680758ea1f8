//! Reading CSV, with a message that names file, line and column; and the quotes of a field that is written.

/// The numbers of a file.
pub struct Table {
    /// The name of each column, if the first line has no number.
    pub header: Option<Vec<String>>,
    pub columns: usize,
    pub rows: Vec<Row>,
}

/// A line of numbers, with its place in the file from 1.
pub struct Row {
    pub line: usize,
    pub cells: Vec<f64>,
}

/// Reads a file's bytes. `name` is what messages call it.
pub fn read(name: &str, bytes: &[u8]) -> Result<Table, String> {
    let text = std::str::from_utf8(bytes).map_err(|e| {
        let before = bytes.get(..e.valid_up_to()).unwrap_or_default();
        let line = 1 + before.iter().filter(|b| **b == b'\n').count();
        format!("{name}, line {line}: the text is not UTF-8")
    })?;
    let text = text.strip_prefix('\u{feff}').unwrap_or(text);
    let mut table = Table {
        header: None,
        columns: 0,
        rows: Vec::new(),
    };
    let mut separator = None;
    for (i, line) in text.lines().enumerate() {
        if line.trim().is_empty() || line.starts_with('#') {
            continue;
        }
        let at = format!("{name}, line {}", i + 1);
        let first = separator.is_none();
        let separator = *separator.get_or_insert_with(|| separator_of(line));
        let fields =
            fields(line, separator).ok_or_else(|| format!("{at}: a quote is not closed"))?;
        if first {
            table.columns = fields.len();
            if fields.iter().all(|field| field.parse::<f64>().is_err()) {
                table.header = Some(fields);
                continue;
            }
        }
        if fields.len() != table.columns {
            let (found, wanted) = (crate::counted(fields.len(), "column"), table.columns);
            return Err(format!(
                "{at}: {found}, where the lines before have {wanted}"
            ));
        }
        let cells: Result<Vec<f64>, String> = fields
            .iter()
            .enumerate()
            .map(|(c, field)| cell(field).map_err(|e| format!("{at}, column {}: {e}", c + 1)))
            .collect();
        table.rows.push(Row {
            line: i + 1,
            cells: cells?,
        });
    }
    if table.rows.is_empty() {
        return Err(format!("{name}: there is no line of numbers"));
    }
    Ok(table)
}

/// A semicolon or a tab if the line has one, in this order, else a comma.
fn separator_of(line: &str) -> char {
    [';', '\t']
        .into_iter()
        .find(|c| line.contains(*c))
        .unwrap_or(',')
}

/// The fields of a line without the blanks around them; a field in quotes may have the separator in it, and a quote as
/// two. None if a quote is not closed.
fn fields(line: &str, separator: char) -> Option<Vec<String>> {
    let mut fields = vec![String::new()];
    let mut quoted = false;
    let mut characters = line.chars().peekable();
    while let Some(c) = characters.next() {
        let Some(field) = fields.last_mut() else {
            continue;
        };
        if c == '"' && quoted && characters.peek() == Some(&'"') {
            characters.next();
            field.push(c);
        } else if c == '"' {
            quoted = !quoted;
        } else if c == separator && !quoted {
            fields.push(String::new());
        } else {
            field.push(c);
        }
    }
    let trimmed = fields.iter().map(|field| field.trim().to_string());
    (!quoted).then(|| trimmed.collect())
}

fn cell(field: &str) -> Result<f64, String> {
    match field.parse::<f64>() {
        Ok(x) if x.is_finite() => Ok(x),
        Ok(_) => Err(format!("\"{field}\" is not a finite number")),
        Err(_) if field.is_empty() => Err("the field is empty".to_string()),
        Err(_) if field.contains(',') => Err(format!(
            "\"{field}\" is not a number (decimals stand behind a point)"
        )),
        Err(_) => Err(format!("\"{field}\" is not a number")),
    }
}

/// A field as it is written: in quotes where it needs them.
pub fn quoted(field: &str) -> String {
    if field.contains([',', '"', '\n', '\r']) {
        format!("\"{}\"", field.replace('"', "\"\""))
    } else {
        field.to_string()
    }
}

#[cfg(test)]
mod tests {
    use super::*;

    fn wrong(text: &str) -> String {
        read("f", text.as_bytes()).err().unwrap_or_default()
    }

    #[test]
    fn lines_and_columns_are_named() {
        assert_eq!(
            wrong("1,2\n3,x"),
            "f, line 2, column 2: \"x\" is not a number"
        );
        assert_eq!(
            wrong("a,b\n\n1,\n"),
            "f, line 3, column 2: the field is empty"
        );
        assert_eq!(
            wrong("1;2\n0,5;1"),
            "f, line 2, column 1: \"0,5\" is not a number (decimals stand behind a point)"
        );
        assert_eq!(
            wrong("1\n1e999"),
            "f, line 2, column 1: \"1e999\" is not a finite number"
        );
        assert_eq!(
            wrong("1,2\n3"),
            "f, line 2: 1 column, where the lines before have 2"
        );
        assert_eq!(wrong("\"a,b"), "f, line 1: a quote is not closed");
        assert_eq!(wrong("# nothing\n"), "f: there is no line of numbers");
        assert_eq!(
            read("f", b"1\n2\n\xff").err().unwrap_or_default(),
            "f, line 3: the text is not UTF-8"
        );
    }

    #[test]
    fn headers_quotes_and_separators() {
        let table = read(
            "f",
            "\u{feff}\"x, \"\"m\"\"\"\ty\r\n 1 \t-2e3\r\n".as_bytes(),
        )
        .ok();
        let table = table.map(|t| {
            (
                t.header,
                t.rows
                    .into_iter()
                    .map(|r| (r.line, r.cells))
                    .collect::<Vec<_>>(),
            )
        });
        let header = Some(vec!["x, \"m\"".to_string(), "y".to_string()]);
        assert_eq!(table, Some((header, vec![(2, vec![1., -2000.])])));
        assert_eq!(quoted("x, \"m\""), "\"x, \"\"m\"\"\"");
    }

    /// Any bytes are read or refused.
    #[test]
    fn no_bytes_panic() {
        let mut state = 1u64;
        for _ in 0..20_000 {
            let bytes: Vec<u8> = (0..24)
                .map(|_| {
                    state = state
                        .wrapping_mul(6364136223846793005)
                        .wrapping_add(1442695040888963407);
                    let alphabet = b"01.,;-e\"\n\r\t #x\xff\xc3\xa4";
                    alphabet
                        .get((state >> 40) as usize % alphabet.len())
                        .copied()
                        .unwrap_or(b'0')
                })
                .collect();
            if let Ok(table) = read("f", &bytes) {
                assert!(table.rows.iter().all(|r| r.cells.len() == table.columns));
            }
        }
    }
}
