//! A picture of files in a terminal: a line a file, with what was written and where the gaps are.

use crate::scale::{self, Row};
use crate::text;

/// What a line is drawn with.
pub struct Marks {
    written: char,
    partly: char,
    gap: char,
    size: char,
    limit: char,
    both: char,
    beyond: char,
    axis: char,
    tick: char,
    dots: &'static str,
}

pub const UNICODE: Marks = Marks {
    written: '█',
    partly: '▒',
    gap: '·',
    size: '│',
    limit: '╡',
    both: '╣',
    beyond: '→',
    axis: '─',
    tick: '┬',
    dots: "…",
};

pub const ASCII: Marks = Marks {
    written: '#',
    partly: '+',
    gap: '.',
    size: '|',
    limit: ']',
    both: '}',
    beyond: '>',
    axis: '-',
    tick: '+',
    dots: "~",
};

/// The fewest columns of a bar, however narrow the terminal is.
const LEAST_BAR: usize = 16;

/// A label of the axis needs so many.
const LABEL: usize = 9;

/// Draws the files in so many columns.
pub fn draw(rows: &[Row], columns: usize, marks: &Marks) -> String {
    let layout = Layout::of(rows, columns);
    let bars: Vec<String> = rows.iter().map(|row| layout.bar(row, marks)).collect();
    let mut lines = Vec::new();
    for (row, bar) in rows.iter().zip(&bars) {
        let name = shortened(&row.name, layout.name, marks.dots);
        lines.push(format!(
            "{:width$}  {}  {}",
            name,
            bar,
            numbers(row),
            width = layout.name
        ));
    }
    lines.extend(layout.axis(marks));
    lines.push(String::new());
    lines.extend(legend(&bars.concat(), columns, marks));
    lines
        .iter()
        .map(|line| line.trim_end().to_string() + "\n")
        .collect()
}

/// How the columns are shared out.
struct Layout {
    name: usize,
    /// The bar's; behind it stands one more, for a mark at its very end.
    bar: usize,
    end: u64,
}

impl Layout {
    fn of(rows: &[Row], columns: usize) -> Layout {
        let longest = rows
            .iter()
            .map(|row| row.name.chars().count())
            .max()
            .unwrap_or(0);
        let name = longest.min((columns / 3).max(8));
        let numbers = rows
            .iter()
            .map(|row| numbers(row).chars().count())
            .max()
            .unwrap_or(0);
        let taken = name + 2 + 1 + 2 + numbers;
        let bar = columns.saturating_sub(taken).max(LEAST_BAR);
        Layout {
            name,
            bar,
            end: scale::axis_end(rows),
        }
    }

    fn bar(&self, row: &Row, marks: &Marks) -> String {
        let mut cells: Vec<char> = (0..self.bar)
            .map(|cell| self.cell(row, cell, marks))
            .collect();
        cells.push(' ');
        let size = self.column_behind(row.size);
        match row.limit {
            Some(limit) if limit > self.end => {
                cells[size] = marks.size;
                cells[self.bar] = marks.beyond;
            }
            Some(limit) if self.column_behind(limit) == size => cells[size] = marks.both,
            Some(limit) => {
                cells[size] = marks.size;
                cells[self.column_behind(limit)] = marks.limit;
            }
            None => cells[size] = marks.size,
        }
        cells.into_iter().collect()
    }

    /// What a cell says of the bytes that fall into it.
    fn cell(&self, row: &Row, cell: usize, marks: &Marks) -> char {
        let (start, end) = self.bytes_of(cell);
        let end = end.min(row.size);
        if start >= end {
            return ' ';
        }
        let overlaps = row.written.iter().map(|written| {
            written
                .end
                .min(end)
                .saturating_sub(written.start.max(start))
        });
        match overlaps.sum::<u64>() {
            0 => marks.gap,
            all if all == end - start => marks.written,
            _ => marks.partly,
        }
    }

    /// The bytes of a cell, all those that fall into it only in part among them.
    fn bytes_of(&self, cell: usize) -> (u64, u64) {
        let bar = self.bar as u128;
        let start = cell as u128 * u128::from(self.end) / bar;
        let end = ((cell as u128 + 1) * u128::from(self.end) + bar - 1) / bar;
        (start as u64, end as u64)
    }

    /// The first column that lies behind all bytes below an offset.
    fn column_behind(&self, offset: u64) -> usize {
        let end = u128::from(self.end);
        let column = (u128::from(offset.min(self.end)) * self.bar as u128 + end - 1) / end;
        column as usize
    }

    /// The axis, and the labels under it.
    fn axis(&self, marks: &Marks) -> [String; 2] {
        let front = " ".repeat(self.name + 2);
        let mut line: Vec<char> = vec![marks.axis; self.bar + 1];
        let mut labels = String::new();
        for tick in scale::ticks(self.end, (self.bar / LABEL) as u64) {
            let column = self.column_behind(tick);
            line[column] = marks.tick;
            let missing = column.saturating_sub(labels.chars().count());
            labels += &" ".repeat(missing);
            labels += &text::short_size(tick);
        }
        let line: String = line.into_iter().collect();
        [front.clone() + &line, front + &labels]
    }
}

/// How many bytes are written of how many, and the limit.
fn numbers(row: &Row) -> String {
    let written = text::rough_size(row.written_bytes());
    let numbers = format!("{} of {}", written, text::rough_size(row.size));
    match row.limit {
        Some(limit) => format!("{}, limit {}", numbers, text::rough_size(limit)),
        None => numbers,
    }
}

/// A name of so many characters at most. A path's end says more than its front.
pub fn shortened(name: &str, most: usize, dots: &str) -> String {
    match name.chars().count() {
        count if count > most => {
            let end: String = name.chars().skip(count + 1 - most).collect();
            dots.to_string() + &end
        }
        _ => name.to_string(),
    }
}

/// What the marks mean, of those that are drawn, in lines of so many columns.
fn legend(drawn: &str, columns: usize, marks: &Marks) -> Vec<String> {
    let meanings = [
        (marks.written, "written"),
        (marks.partly, "partly written"),
        (marks.gap, "gap, reads as zeros"),
        (marks.size, "size"),
        (marks.limit, "limit"),
        (marks.both, "size and limit"),
        (marks.beyond, "limit further on"),
    ];
    let mut lines: Vec<String> = Vec::new();
    for (mark, meaning) in meanings.iter().filter(|(mark, _)| drawn.contains(*mark)) {
        let text = format!("{} {}", mark, meaning);
        match lines.last_mut() {
            Some(line) if line.chars().count() + 3 + text.chars().count() <= columns => {
                *line += &format!("   {}", text);
            }
            _ => lines.push(text),
        }
    }
    lines
}

#[cfg(test)]
mod tests {
    use super::*;
    use lentilraft::Stretch;

    fn row(name: &str, size: u64, limit: Option<u64>, written: &[(u64, u64)]) -> Row {
        let written = written.iter().map(|&(start, end)| Stretch { start, end });
        Row {
            name: name.to_string(),
            size,
            limit,
            written: written.collect(),
        }
    }

    #[test]
    fn bars_share_one_scale() {
        let rows = [
            row("a", 320, None, &[(0, 110), (200, 320)]),
            row("b", 160, Some(240), &[]),
            row("c", 320, Some(320), &[(0, 320)]),
            row("long/name/of/a/file", 0, Some(1 << 40), &[]),
        ];
        let expected = [
            "a                 #####+....######|  230 of 320",
            "b                 ........|   ]      0 of 160, limit 240",
            "c                 ################}  320 of 320, limit 320",
            "~/name/of/a/file  |               >  0 of 0, limit 1024G",
        ];
        let drawn = draw(&rows, 50, &ASCII);
        assert_eq!(drawn.lines().take(4).collect::<Vec<_>>(), expected);
    }

    #[test]
    fn no_line_is_wider_than_the_terminal() {
        let rows = [
            row(&"x".repeat(300), 347_200, Some(400_000), &[(4096, 8192)]),
            row("y", 1000, Some(1 << 40), &[]),
        ];
        for columns in [70, 80, 132, 300] {
            for line in draw(&rows, columns, &UNICODE).lines() {
                assert!(line.chars().count() <= columns, "{}: {}", columns, line);
            }
        }
    }

    #[test]
    fn a_file_smaller_than_the_bar_fills_it() {
        let drawn = draw(&[row("a", 3, None, &[(0, 3)])], 60, &ASCII);
        assert!(
            !drawn.lines().next().unwrap().contains(ASCII.partly),
            "{}",
            drawn
        );
    }
}
