//! How often a run met each of the places.

use std::fmt::Write;

use crate::book::STAGES;
use crate::places::{self, Part};

#[derive(Clone)]
pub struct Table {
    pub title: &'static str,
    pub names: Vec<String>,
    pub counts: Vec<u64>,
}

#[derive(Clone)]
pub struct Coverage {
    pub tables: Vec<Table>,
}

impl Default for Coverage {
    fn default() -> Self {
        Self::new()
    }
}

impl Coverage {
    pub fn new() -> Coverage {
        let table = |(title, names): (&'static str, Vec<String>)| Table {
            title,
            counts: vec![0; names.len()],
            names,
        };
        let tables = places::tables().into_iter().map(table).collect();
        Coverage { tables }
    }

    /// Counts the place in this row.
    pub fn hit(&mut self, part: Part, row: usize) {
        self.tables[part as usize].counts[row] += 1;
    }

    /// Counts the place of this name.
    pub fn meet(&mut self, part: Part, name: &str) {
        self.add(part, name, 1);
    }

    pub fn add(&mut self, part: Part, name: &str, count: u64) {
        let Table { names, counts, .. } = &mut self.tables[part as usize];
        let row = names.iter().position(|known| known == name);
        counts[row.expect("a place of the table")] += count;
    }

    pub fn merge(&mut self, other: &Coverage) {
        for (mine, theirs) in self.tables.iter_mut().zip(&other.tables) {
            for (count, more) in mine.counts.iter_mut().zip(&theirs.counts) {
                *count += more;
            }
        }
    }

    /// All counts in one row.
    pub fn counts(&self) -> impl Iterator<Item = u64> {
        self.tables
            .iter()
            .flat_map(|table| table.counts.iter().copied())
    }

    /// The places that were never met.
    pub fn missed(&self) -> Vec<String> {
        let missed = |table: &Table| {
            let places = table.names.iter().zip(&table.counts);
            let zero = places.filter(|(_, count)| **count == 0);
            zero.map(|(name, _)| format!("{}: {name}", table.title))
                .collect::<Vec<_>>()
        };
        self.tables.iter().flat_map(missed).collect()
    }

    /// The whole as text.
    pub fn text(&self) -> String {
        let mut text = String::new();
        for (number, table) in self.tables.iter().enumerate() {
            if number == Part::Meetings as usize {
                meetings_text(&mut text, table);
            } else {
                table_text(&mut text, table);
            }
        }
        text
    }
}

/// A title, then "name: count" in lines of moderate length.
fn table_text(text: &mut String, table: &Table) {
    let _ = writeln!(text, "{}", table.title);
    let mut line = String::new();
    for (name, count) in table.names.iter().zip(&table.counts) {
        let cell = format!("{name}: {count}");
        if line.len() + cell.len() > 110 {
            let _ = writeln!(text, "    {line}");
            line.clear();
        }
        if !line.is_empty() {
            line.push_str("; ");
        }
        line.push_str(&cell);
    }
    let _ = writeln!(text, "    {line}");
}

/// One row for each policy and meaning, one column for each stage.
fn meetings_text(text: &mut String, table: &Table) {
    let _ = write!(text, "{:<48}", table.title);
    for stage in STAGES {
        let _ = write!(text, "{stage:>10}");
    }
    text.push('\n');
    for (names, counts) in table
        .names
        .chunks(STAGES.len())
        .zip(table.counts.chunks(STAGES.len()))
    {
        let name = names[0].trim_end_matches(STAGES[0]);
        let _ = write!(text, "    {name:<44}");
        for count in counts {
            let _ = write!(text, "{count:>10}");
        }
        text.push('\n');
    }
}
