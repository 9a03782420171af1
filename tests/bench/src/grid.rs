//! Plain tables and numbers as text.

/// A table with a title and notes.
pub struct Grid {
    title: String,
    notes: Vec<String>,
    rows: Vec<Vec<String>>,
    /// So many columns have words, which stand left; the others have numbers, which stand right.
    words: usize,
}

impl Grid {
    /// A table that has no row yet.
    pub fn new(title: &str, header: &[&str]) -> Grid {
        let header = header.iter().map(|cell| cell.to_string()).collect();
        Grid { title: title.to_string(), notes: Vec::new(), rows: vec![header], words: 1 }
    }

    /// The same with words in all columns.
    pub fn of_words(title: &str, header: &[&str]) -> Grid {
        Grid { words: header.len(), ..Grid::new(title, header) }
    }

    /// Adds a line of text that stands above the table.
    pub fn note(&mut self, note: &str) {
        self.notes.push(note.to_string());
    }

    /// Adds a row.
    pub fn row(&mut self, cells: Vec<String>) {
        assert_eq!(cells.len(), self.rows[0].len(), "a row of \"{}\"", self.title);
        self.rows.push(cells);
    }

    /// Whether it is the table with that title.
    pub fn is(&self, title: &str) -> bool {
        self.title == title
    }

    /// Some rows, by their first cells, and some columns of it, with another title and no notes. No
    /// names: all rows.
    pub fn cut(&self, title: &str, names: &[&str], columns: &[usize]) -> Grid {
        let kept = |row: &&Vec<String>| names.is_empty() || names.contains(&row[0].as_str());
        let body = self.rows[1..].iter().filter(kept);
        let chosen = |row: &Vec<String>| columns.iter().map(|&at| row[at].clone()).collect();
        let rows = self.rows[..1].iter().chain(body).map(chosen).collect();
        Grid { title: title.to_string(), notes: Vec::new(), rows, words: self.words }
    }

    /// The table as it is printed, and as it stands in the record.
    pub fn text(&self) -> String {
        let width = |column: usize| self.rows.iter().map(|row| row[column].chars().count()).max();
        let columns = 0..self.rows[0].len();
        self.laid_out(&columns.map(|column| width(column).unwrap_or(0)).collect::<Vec<_>>())
    }

    /// The table in as few bytes as may be: the cells are not filled up.
    pub fn narrow(&self) -> String {
        self.laid_out(&vec![1; self.rows[0].len()])
    }

    fn laid_out(&self, widths: &[usize]) -> String {
        let mut text = format!("## {}\n\n", self.title);
        self.notes.iter().for_each(|note| text += &format!("{}\n", wrapped(note)));
        for (number, row) in self.rows.iter().enumerate() {
            text += &self.line(row, widths);
            if number == 0 {
                text += &self.rule(widths);
            }
        }
        text
    }

    fn line(&self, row: &[String], widths: &[usize]) -> String {
        let mut line = String::from("|");
        for (column, (cell, &width)) in row.iter().zip(widths).enumerate() {
            line += &match column < self.words {
                true => format!(" {cell:<width$} |"),
                false => format!(" {cell:>width$} |"),
            };
        }
        line + "\n"
    }

    fn rule(&self, widths: &[usize]) -> String {
        let mut line = String::from("|");
        for (column, &width) in widths.iter().enumerate() {
            line += &"-".repeat(width + 1);
            line += if column < self.words { "-|" } else { ":|" };
        }
        line + "\n"
    }
}

/// A text in lines of at most 100 letters. The further lines of an entry of a list are indented.
pub fn wrapped(text: &str) -> String {
    let indent = if text.starts_with("- ") { "  " } else { "" };
    let mut lines = String::new();
    let mut line = String::new();
    for word in text.split(' ') {
        if line.chars().count() + word.chars().count() >= 100 {
            lines += &format!("{}\n", line.trim_end());
            line = indent.to_string();
        }
        line += word;
        line.push(' ');
    }
    format!("{lines}{}\n", line.trim_end())
}

/// A time in nanoseconds.
pub fn nanos(seconds: f64) -> String {
    with_commas((seconds * 1e9).max(0.0).round() as u64)
}

/// A time in microseconds.
pub fn micros(seconds: f64) -> String {
    let time = seconds * 1e6;
    if time < 100.0 {
        format!("{time:.1}")
    } else {
        with_commas(time.round() as u64)
    }
}

/// A time in milliseconds.
pub fn millis(seconds: f64) -> String {
    let time = seconds * 1e3;
    match time {
        t if t < 10.0 => format!("{t:.3}"),
        t if t < 1000.0 => format!("{t:.1}"),
        t => with_commas(t.round() as u64),
    }
}

/// How many times one is the other.
pub fn ratio(one: f64, other: f64) -> String {
    let times = one / other;
    if times < 100.0 {
        format!("{times:.2}")
    } else {
        with_commas(times.round() as u64)
    }
}

/// A number with commas between thousands.
pub fn with_commas(number: u64) -> String {
    let digits = number.to_string();
    let mut text = String::new();
    for (place, digit) in digits.chars().enumerate() {
        if place > 0 && (digits.len() - place).is_multiple_of(3) {
            text.push(',');
        }
        text.push(digit);
    }
    text
}
