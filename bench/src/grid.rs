//! A printed table, in Markdown: the first column is words, the others are numbers.

pub struct Grid {
    /// The rows, the first of which is the header. All have equally many cells.
    rows: Vec<Vec<String>>,
}

impl Grid {
    pub fn new(header: Vec<String>) -> Self {
        Self { rows: vec![header] }
    }

    pub fn add(&mut self, row: Vec<String>) {
        self.rows.push(row);
    }

    /// Prints it with an empty line behind it.
    pub fn print(&self) {
        let columns = 0..self.rows[0].len();
        let width = |column: usize| self.rows.iter().map(|row| row[column].len()).max().unwrap_or(0);
        let widths: Vec<usize> = columns.map(width).collect();
        for (at, row) in self.rows.iter().enumerate() {
            print!("| {:<width$} |", row[0], width = widths[0]);
            for (cell, width) in row.iter().zip(&widths).skip(1) {
                print!(" {cell:>width$} |");
            }
            println!();
            if at == 0 {
                let lines: String = widths[1..].iter().map(|width| "-".repeat(width + 1) + ":|").collect();
                println!("|{}|{lines}", "-".repeat(widths[0] + 2));
            }
        }
        println!();
    }
}

/// A number with so many digits behind the point, or a dash.
pub fn shown(number: Option<f64>, digits: usize) -> String {
    number.map_or("-".to_string(), |number| format!("{number:.digits$}"))
}
