//! Rows under named columns for other programs: CSV as RFC 4180 has it, or JSON, an object a line.

use crate::arguments::Arguments;
use crate::failure::{Failure, Result};
use std::fmt;

pub const FLAGS: [&str; 2] = ["csv", "json"];

pub enum Cell {
    Number(usize),
    Text(String),
}

impl fmt::Display for Cell {
    fn fmt(&self, to: &mut fmt::Formatter<'_>) -> fmt::Result {
        match self {
            Cell::Number(number) => write!(to, "{number}"),
            Cell::Text(text) => write!(to, "{text}"),
        }
    }
}

pub type Row = Vec<Cell>;

/// Writes rows under the names of their columns.
pub type Writer = fn(&[&str], &[Row]) -> String;

/// The writer that one of the flags asks for.
pub fn writer(arguments: &Arguments) -> Result<Option<Writer>> {
    match FLAGS.map(|flag| arguments.flag(flag)) {
        [true, true] => Err(Failure::usage("--csv and --json are there both")),
        [true, false] => Ok(Some(csv)),
        [false, true] => Ok(Some(json_lines)),
        [false, false] => Ok(None),
    }
}

fn csv(head: &[&str], rows: &[Row]) -> String {
    let field = |word: String| if word.contains([',', '"']) { format!("\"{}\"", word.replace('"', "\"\"")) } else { word };
    let line = |row: &Row| row.iter().map(|cell| field(cell.to_string())).collect::<Vec<_>>().join(",") + "\r\n";
    rows.iter().fold(head.join(",") + "\r\n", |all, row| all + &line(row))
}

/// The texts have no control characters (`text::shown`), so a quote and a backslash are all that JSON wants escaped.
fn json_lines(head: &[&str], rows: &[Row]) -> String {
    let value = |cell: &Cell| match cell {
        Cell::Number(number) => number.to_string(),
        Cell::Text(text) => format!("\"{}\"", text.replace('\\', "\\\\").replace('"', "\\\"")),
    };
    let line = |row: &Row| head.iter().zip(row).map(|(name, cell)| format!("\"{name}\":{}", value(cell))).collect::<Vec<_>>().join(",");
    rows.iter().map(|row| format!("{{{}}}\n", line(row))).collect()
}
