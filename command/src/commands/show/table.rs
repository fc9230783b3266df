//! Columns of text, and tables side by side.

use crate::text::wrapped;

/// A list that is longer goes on in the next line.
const WIDTH: usize = 30;

pub enum Row {
    Empty,
    Heading(String),
    /// The words of each column.
    Cells(Vec<Vec<String>>),
}

/// A table as the lines of each of its rows.
pub type Table = Vec<Vec<String>>;

/// A table below a title, its columns below theirs.
pub fn table(title: &str, titles: &[&str], mut rows: Vec<Row>) -> Table {
    let titles = titles.iter().map(|title| vec![title.to_string()]).collect();
    rows.splice(0..0, [Row::Heading(title.into()), Row::Cells(titles)]);
    let widths = widths(&rows);
    rows.iter().map(|row| lines(row, &widths)).collect()
}

/// Tables of equally many rows, row beside row.
pub fn beside(tables: &[Table]) -> String {
    let widths: Vec<_> = tables.iter().map(|table| longest(table.iter().flatten())).collect();
    let mut text = String::new();
    for row in 0..tables[0].len() {
        let height = tables.iter().map(|table| table[row].len()).max().unwrap_or(0);
        for line in 0..height {
            let parts: Vec<_> = tables.iter().zip(&widths).map(|(table, width)| padded(table[row].get(line), *width)).collect();
            text += parts.join(" | ").trim_end();
            text += "\n";
        }
    }
    text
}

fn longest<'a>(lines: impl Iterator<Item = &'a String>) -> usize {
    lines.map(String::len).max().unwrap_or(0)
}

fn padded(line: Option<&String>, width: usize) -> String {
    format!("{:width$}", line.map_or("", String::as_str))
}

/// How wide each column is.
fn widths(rows: &[Row]) -> Vec<usize> {
    let mut widths = Vec::new();
    for row in rows {
        let Row::Cells(cells) = row else { continue };
        widths.resize(cells.len(), 0);
        for (width, cell) in widths.iter_mut().zip(cells) {
            *width = longest(wrapped(cell, WIDTH).iter()).max(*width);
        }
    }
    widths
}

fn lines(row: &Row, widths: &[usize]) -> Vec<String> {
    match row {
        Row::Empty => Vec::new(),
        Row::Heading(heading) => vec![heading.clone()],
        Row::Cells(cells) => {
            let cells: Vec<_> = cells.iter().map(|cell| wrapped(cell, WIDTH)).collect();
            let height = cells.iter().map(Vec::len).max().unwrap_or(0);
            let line = |at: usize| {
                let parts: Vec<_> = cells.iter().zip(widths).map(|(cell, width)| padded(cell.get(at), *width)).collect();
                parts.join("  ").trim_end().to_string()
            };
            (0..height).map(line).collect()
        }
    }
}
