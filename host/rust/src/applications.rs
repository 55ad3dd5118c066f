//! Application records: the places in use, and a row as text.

use crate::calls::Application;

/// The most applications that a derivation has.
pub const MOST_APPLICATIONS: usize = 4096;

/// The places in use. A count above 8, which the library does not fill, counts as 8.
fn in_use(places: &[u64; 8], count: u64) -> &[u64] {
    &places[..count.min(8) as usize]
}

impl Application {
    /// The graph node of each rule node.
    pub fn nodes(&self) -> &[u64] {
        in_use(&self.nodes, self.node_count)
    }

    /// For each rule edge the graph edge, or the number of the application that replaces it.
    pub fn parts(&self) -> &[u64] {
        in_use(&self.parts, self.part_count)
    }
}

/// The text of a derivation file for a row: of one that was filled, the text that the same chart is written as.
///
/// A row from elsewhere gets a text too, and [`Graph::replay`](crate::Graph::replay) judges it. What the text does not say
/// is where in a record the nodes end and the parts begin: only the grammar tells. A number above 9,999 has no field, and a
/// `?` stands for it, which no replay passes.
pub fn text_of(rows: &[Application]) -> Vec<u8> {
    let mut text = String::new();
    put_line(&mut text, 'D', [rows.len() as u64]);
    for (number, row) in (0..).zip(rows) {
        let places = row.nodes().iter().chain(row.parts());
        put_line(&mut text, 'A', [number, row.rule].iter().chain(places).copied());
    }
    text.into_bytes()
}

fn put_line(text: &mut String, letter: char, fields: impl IntoIterator<Item = u64>) {
    text.push(letter);
    for number in fields {
        text.push_str(&field(number));
    }
    text.push('\n');
}

fn field(number: u64) -> String {
    if number > 9999 {
        return String::from("   ?");
    }
    format!("{number:4}")
}
