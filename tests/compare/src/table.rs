//! Tables of numbers: a row for each document, a column for each call.

/// Characters of the names of rows, and of a column.
const NAME: usize = 40;
const COLUMN: usize = 13;

pub struct Table {
    pub title: &'static str,
    pub columns: Vec<&'static str>,
    /// A row's name, and a number for each column where there is one.
    pub rows: Vec<(String, Vec<Option<f64>>)>,
}

impl Table {
    pub fn print(&self) {
        println!("{:<NAME$}{}", self.title, line(&self.columns));
        for (name, numbers) in &self.rows {
            println!("{name:<NAME$}{}", numbers_line(numbers));
        }
    }

    /// The largest number of each column.
    pub fn largest(&self) -> Vec<Option<f64>> {
        let column = |i: usize| self.rows.iter().filter_map(move |(_, numbers)| numbers[i]);
        (0..self.columns.len()).map(|i| column(i).reduce(f64::max)).collect()
    }

    /// A last row with the largest number of each column.
    pub fn with_largest(mut self, name: &str) -> Table {
        let largest = self.largest();
        self.rows.push((name.to_string(), largest));
        self
    }
}

fn line(texts: &[&str]) -> String {
    texts.iter().map(|text| format!("{text:>COLUMN$}")).collect()
}

fn numbers_line(numbers: &[Option<f64>]) -> String {
    let text = |number: &Option<f64>| number.map_or("-".to_string(), |n| format!("{n:.2}"));
    numbers.iter().map(|number| format!("{:>COLUMN$}", text(number))).collect()
}
