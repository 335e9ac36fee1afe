//! A laid-out circuit as lines of text, in blocks of a width.

use super::{Circuit, Column};
use std::ops::Range;

impl Column {
    /// How many characters the widest mark takes.
    fn width(&self) -> usize {
        let widths = self.marks.iter().map(|mark| mark.chars().count());
        widths.max().unwrap_or(0).max(1)
    }
}

impl Circuit {
    /// The drawing, block below block where it is wider than the width.
    pub fn text(&self, width: usize) -> String {
        let labels = (0..self.rows.count()).map(|row| self.rows.label(row).chars().count());
        let margin = labels.max().unwrap_or(0) + 1;
        let blocks = self.blocks(width.saturating_sub(margin));
        let mut text = String::new();
        for (number, block) in blocks.iter().enumerate() {
            if number > 0 {
                text.push('\n');
            }
            if blocks.len() > 1 {
                let (first, last, all) = (block.start + 1, block.end, self.columns.len());
                text.push_str(&format!("columns {first} to {last} of {all}\n"));
            }
            self.block(block.clone(), margin, &mut text);
        }
        text
    }

    /// The columns of each block.
    fn blocks(&self, room: usize) -> Vec<Range<usize>> {
        let mut blocks = Vec::new();
        let (mut start, mut used) = (0, 0);
        for (number, column) in self.columns.iter().enumerate() {
            let wide = column.width() + 2;
            if used + wide > room && number > start {
                blocks.push(start..number);
                (start, used) = (number, 0);
            }
            used += wide;
        }
        blocks.push(start..self.columns.len());
        blocks
    }

    /// Writes the rows of one block, with the links between them.
    fn block(&self, columns: Range<usize>, margin: usize, text: &mut String) {
        for row in 0..self.rows.count() {
            let mut line = format!("{:<margin$}", self.rows.label(row));
            let mut below = " ".repeat(margin);
            let fill = if self.rows.is_wire(row) { '─' } else { '═' };
            for column in &self.columns[columns.clone()] {
                let wide = column.width() + 1;
                line.push(fill);
                line.push_str(&padded(&column.marks[row], wide, fill));
                below.push(' ');
                let link = column.links[row].map_or(String::new(), String::from);
                below.push_str(&padded(&link, wide, ' '));
            }
            if columns.is_empty() {
                line.extend([fill; 3]);
            }
            text.push_str(&line);
            text.push('\n');
            if !below.trim_end().is_empty() {
                text.push_str(below.trim_end());
                text.push('\n');
            }
        }
    }
}

/// A mark filled up to a width.
fn padded(mark: &str, width: usize, fill: char) -> String {
    let missing = width.saturating_sub(mark.chars().count());
    let filled = std::iter::repeat_n(fill, missing);
    mark.chars().chain(filled).collect()
}
