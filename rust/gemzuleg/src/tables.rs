//! Tables as text: a header, fields parted by one space. On a terminal, and only there, columns are
//! padded so that they stand below each other.

/// Rows of fields, and lines of other text among them.
pub struct Table {
    text: String,
}

impl Table {
    /// A table with this header.
    pub fn new(header: &str) -> Table {
        Table { text: format!("{header}\n") }
    }

    /// A row.
    pub fn row(&mut self, fields: &[&str]) {
        self.text += &fields.join(" ");
        self.text.push('\n');
    }

    /// A line that is no row: it begins with a space, or is empty.
    pub fn note(&mut self, line: &str) {
        self.text += line;
        self.text.push('\n');
    }

    /// The whole text.
    pub fn text(self) -> String {
        self.text
    }
}

fn is_row(line: &str) -> bool {
    !line.starts_with(' ')
}

/// The text with the columns of each table padded; tables are parted by empty lines, and lines that
/// begin with a space are left alone.
pub fn padded(text: &str) -> String {
    text.split("\n\n").map(padded_table).collect::<Vec<_>>().join("\n\n")
}

fn padded_table(text: &str) -> String {
    let mut widths: Vec<usize> = Vec::new();
    for line in text.split('\n').filter(|line| is_row(line)) {
        for (column, field) in line.split(' ').enumerate() {
            match widths.get_mut(column) {
                Some(width) => *width = field.len().max(*width),
                None => widths.push(field.len()),
            }
        }
    }
    let pad = |line: &str| if is_row(line) { padded_row(line, &widths) } else { line.to_string() };
    text.split('\n').map(pad).collect::<Vec<_>>().join("\n")
}

fn padded_row(line: &str, widths: &[usize]) -> String {
    let fields = line.split(' ').zip(widths);
    let padded: Vec<String> = fields.map(|(field, &width)| format!("{field:width$}")).collect();
    padded.join(" ").trim_end().to_string()
}
