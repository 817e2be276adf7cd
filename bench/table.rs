//! Tables, as text or as Markdown.

pub struct Table {
    pub head: Vec<&'static str>,
    pub rows: Vec<Vec<String>>,
}

/// With a comma after each three digits.
pub fn grouped(n: f64) -> String {
    let digits = format!("{n:.0}");
    let comma = |k: usize| k > 0 && (digits.len() - k) % 3 == 0;
    digits.chars().enumerate().flat_map(|(k, c)| comma(k).then_some(',').into_iter().chain([c])).collect()
}

impl Table {
    fn column(&self, k: usize) -> impl Iterator<Item = &str> {
        self.rows.iter().map(move |row| row[k].as_str())
    }

    /// Figures stand to the right.
    fn is_right(&self, k: usize) -> bool {
        self.column(k).all(|cell| cell.chars().all(|c| c.is_ascii_digit() || c == '.' || c == ','))
    }

    pub fn print(&self, markdown: bool) {
        let columns = 0..self.head.len();
        let right: Vec<bool> = columns.clone().map(|k| self.is_right(k)).collect();
        if markdown {
            println!("| {} |", self.head.join(" | "));
            println!("|{}", right.iter().map(|right| if *right { "--:|" } else { "---|" }).collect::<String>());
            self.rows.iter().for_each(|row| println!("| {} |", row.join(" | ")));
        } else {
            let widest = |k: usize| self.column(k).chain([self.head[k]]).map(str::len).max().unwrap_or(0);
            let widths: Vec<usize> = columns.map(widest).collect();
            let padded = |cell: &str, k: usize| match right[k] {
                true => format!("{cell:>0$}", widths[k]),
                false => format!("{cell:<0$}", widths[k]),
            };
            let line = |cells: &[&str]| {
                let cells: Vec<String> = cells.iter().enumerate().map(|(k, cell)| padded(cell, k)).collect();
                println!("{}", cells.join("  ").trim_end());
            };
            line(&self.head);
            self.rows.iter().for_each(|row| line(&row.iter().map(String::as_str).collect::<Vec<_>>()));
        }
        println!();
    }
}
