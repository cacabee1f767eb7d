//! Tables of what was measured, in Markdown whose columns stand under each other, so that the same
//! text serves a terminal and a page.

/// A table: its heads and its rows.
pub struct Table {
    rows: Vec<Vec<String>>,
}

impl Table {
    /// Makes a table that has heads only.
    pub fn new(heads: &[&str]) -> Table {
        Table { rows: vec![heads.iter().map(|head| head.to_string()).collect()] }
    }

    /// Adds a row.
    pub fn row(&mut self, cells: Vec<String>) {
        self.rows.push(cells);
    }

    /// Adds a row of a ratio, ours to theirs, and of the most that it should be.
    pub fn ratio(&mut self, what: &str, circuit: &str, ours: f64, theirs: f64, goal: Option<f64>) {
        let ratio = ours / theirs;
        let verdict = goal.map_or("", |goal| if ratio <= goal { "met" } else { "missed" });
        let goal = goal.map_or("none".to_string(), |goal| format!("at most {}", two_digits(goal)));
        let numbers = [amount(ours), amount(theirs), two_digits(ratio)];
        let texts = [what, circuit].map(str::to_string);
        self.row([&texts[..], &numbers, &[goal, verdict.to_string()]].concat());
    }

    /// Gives the table as text.
    pub fn text(&self) -> String {
        let columns = self.rows[0].len();
        let longest = |k: usize| self.rows.iter().map(|row| row[k].chars().count()).max();
        let widths: Vec<usize> = (0..columns).map(|k| longest(k).unwrap_or(0).max(3)).collect();
        let line = |row: &[String]| {
            let cells = row.iter().zip(&widths).map(|(cell, &width)| format!(" {cell:width$} |"));
            format!("|{}\n", cells.collect::<String>())
        };
        let dashes: Vec<String> = widths.iter().map(|&width| "-".repeat(width)).collect();
        let body: String = self.rows[1..].iter().map(|row| line(row)).collect();
        line(&self.rows[0]) + &line(&dashes) + &body
    }
}

/// Gives a number of nanoseconds, or of other small things, with as many digits as tell something.
pub fn amount(number: f64) -> String {
    match number {
        n if n < 9.995 => format!("{n:.2}"),
        n if n < 99.95 => format!("{n:.1}"),
        n => grouped(n.round() as u64),
    }
}

/// Gives a ratio: two digits behind the point, or the first two that are not 0.
pub fn two_digits(ratio: f64) -> String {
    if ratio >= 0.1 || ratio <= 0.0 {
        return format!("{ratio:.2}");
    }
    let places = 1 - ratio.log10().floor() as i32;
    format!("{ratio:.*}", places as usize)
}

/// Gives a whole number with a comma between thousands.
fn grouped(number: u64) -> String {
    let digits = number.to_string();
    let places = digits.len();
    let mut text = String::new();
    for (k, digit) in digits.chars().enumerate() {
        if k > 0 && (places - k) % 3 == 0 {
            text.push(',');
        }
        text.push(digit);
    }
    text
}
