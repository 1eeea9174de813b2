//! A picture of files as SVG: the same as `map` shows, to look at or to print.

use crate::map;
use crate::scale::{self, Row};
use crate::text;

const WIDTH: f64 = 1200.0;
const EDGE: f64 = 24.0;

/// Where the title, the line under it, the legend and the rows stand, and what each row takes.
const TITLE_LINE: f64 = 42.0;
const SUBTITLE_LINE: f64 = 66.0;
const LEGEND_LINE: f64 = 100.0;
const TOP: f64 = 126.0;
const TOP_BELOW_AXIS: f64 = 146.0;
const ROW: f64 = 32.0;
const BAR: f64 = 16.0;

/// How far the mark of a size stands out of its bar, above and below.
const STICK: f64 = 4.0;

/// A letter is about so wide, in names and in small text, and so many of a name are shown.
const LETTER: f64 = 7.7;
const SMALL_LETTER: f64 = 7.2;
const MOST_LETTERS: usize = 36;
const MOST_TITLE_LETTERS: usize = 90;

const DOTS: &str = "…";

/// A stretch that is written can be seen however short it is.
const LEAST_STRETCH: f64 = 1.0;

const MOST_TICKS: u64 = 8;

const SUBTITLE: &str = "Which bytes of each file were written, by their offset";

/// From so many rows on the axis stands at the top as well.
const MANY_ROWS: usize = 16;

const STYLE: &str = "\
text { font-family: 'DejaVu Sans', Verdana, Helvetica, Arial, sans-serif; font-size: 13px; fill: #1d2b36 }
.title { font-size: 19px; font-weight: bold }
.small { font-size: 12px; fill: #51616e }
.end { text-anchor: end }
.middle { text-anchor: middle }
.grid { stroke: #dfe5ea; stroke-width: 1 }
.axis { stroke: #51616e; stroke-width: 1 }
.gap { fill: #ffffff; stroke: #8395a3; stroke-width: 1 }
.written { fill: #1f6f9c }
.size { stroke: #1d2b36; stroke-width: 2 }
.limit { stroke: #c4500b; stroke-width: 2; stroke-dasharray: 4 3 }
.beyond { fill: #c4500b }
";

pub fn draw(title: &str, rows: &[Row]) -> String {
    let frame = Frame::of(rows);
    let mut picture = Picture {
        text: String::new(),
    };
    picture.open(frame.height);
    let title = map::shortened(title, MOST_TITLE_LETTERS, DOTS);
    picture.label(EDGE, TITLE_LINE, "title", &title);
    picture.label(EDGE, SUBTITLE_LINE, "small", SUBTITLE);
    picture.legend(LEGEND_LINE, rows, frame.end);
    frame.grid(&mut picture);
    for (index, row) in rows.iter().enumerate() {
        frame.row(&mut picture, row, frame.top + ROW * index as f64);
    }
    picture.text + "</svg>\n"
}

/// Where things stand.
struct Frame {
    left: f64,
    right: f64,
    top: f64,
    bottom: f64,
    height: f64,
    end: u64,
    twice: bool,
}

impl Frame {
    fn of(rows: &[Row]) -> Frame {
        let longest = |length: fn(&Row) -> usize| rows.iter().map(length).max().unwrap_or(0);
        let names = longest(|row| row.name.chars().count()).clamp(4, MOST_LETTERS);
        let numbers = longest(|row| numbers(row).len());
        let twice = rows.len() >= MANY_ROWS;
        let top = if twice { TOP_BELOW_AXIS } else { TOP };
        let bottom = top + ROW * rows.len() as f64;
        Frame {
            left: EDGE + 10.0 + LETTER * names as f64,
            right: WIDTH - EDGE - 20.0 - SMALL_LETTER * numbers as f64,
            bottom,
            height: bottom + 62.0,
            end: scale::axis_end(rows),
            twice,
            top,
        }
    }

    /// Where an offset falls.
    fn x(&self, offset: u64) -> f64 {
        let part = offset.min(self.end) as f64 / self.end as f64;
        self.left + (self.right - self.left) * part
    }

    /// The axis with its labels, and a line up through all rows at each.
    fn grid(&self, picture: &mut Picture) {
        let top = self.top - 4.0;
        for tick in scale::ticks(self.end, MOST_TICKS) {
            let (x, label) = (self.x(tick), text::short_size(tick));
            picture.line("grid", (x, top), (x, self.bottom));
            picture.line("axis", (x, self.bottom), (x, self.bottom + 5.0));
            picture.label(x, self.bottom + 20.0, "small middle", &label);
            if self.twice {
                picture.label(x, top - 5.0, "small middle", &label);
            }
        }
        picture.line("axis", (self.left, self.bottom), (self.right, self.bottom));
        let middle = (self.left + self.right) / 2.0;
        picture.label(
            middle,
            self.bottom + 42.0,
            "small middle",
            "offset in bytes",
        );
    }

    fn row(&self, picture: &mut Picture, row: &Row, top: f64) {
        let y = top + (ROW - BAR) / 2.0;
        let base = y + BAR - 3.5;
        let name = map::shortened(&row.name, MOST_LETTERS, DOTS);
        picture.label(self.left - 10.0, base, "end", &name);
        picture.rect("gap", self.x(0), y, self.x(row.size) - self.x(0));
        for written in &row.written {
            let (start, end) = (self.x(written.start), self.x(written.end));
            picture.rect("written", start, y, (end - start).max(LEAST_STRETCH));
        }
        self.marks(picture, row, y);
        picture.label(self.right + 20.0, base, "small", &numbers(row));
    }

    /// The size, and the limit if there is one; one that lies beyond the axis is an arrow.
    fn marks(&self, picture: &mut Picture, row: &Row, y: f64) {
        let (above, below) = (y - STICK, y + BAR + STICK);
        let size = self.x(row.size);
        picture.line("size", (size, above), (size, below));
        match row.limit {
            Some(limit) if limit > self.end => picture.arrow(self.right + 4.0, y + BAR / 2.0),
            Some(limit) => {
                // Beside the size, so that both can be seen if they are the same.
                let x = self.x(limit) + if limit == row.size { 3.0 } else { 0.0 };
                picture.line("limit", (x, above), (x, below));
            }
            None => (),
        }
    }
}

/// How many bytes are written of how many, and the limit.
fn numbers(row: &Row) -> String {
    let written = text::grouped(row.written_bytes());
    let numbers = format!("{} of {}", written, text::grouped(row.size));
    match row.limit {
        Some(limit) => format!("{}, limit {}", numbers, text::grouped(limit)),
        None => numbers,
    }
}

/// The picture's text so far.
struct Picture {
    text: String,
}

impl Picture {
    fn open(&mut self, height: f64) {
        let size = format!(
            "width=\"{}\" height=\"{}\" viewBox=\"0 0 {} {}\"",
            WIDTH, height, WIDTH, height
        );
        self.add(&format!(
            "<svg xmlns=\"http://www.w3.org/2000/svg\" {}>",
            size
        ));
        self.add(&format!("<style>\n{}</style>", STYLE));
        self.add("<rect width=\"100%\" height=\"100%\" fill=\"#ffffff\"/>");
    }

    /// What each form means, of those that are there.
    fn legend(&mut self, y: f64, rows: &[Row], end: u64) {
        let (bar, above, below) = (y - 11.0, y - 15.0, y + 5.0);
        let limits = || rows.iter().filter_map(|row| row.limit);
        let mut x = EDGE;
        self.rect_of("written", (x, bar), (22.0, 12.0));
        x = self.meaning(x + 30.0, y, "written");
        self.rect_of("gap", (x, bar), (22.0, 12.0));
        x = self.meaning(x + 30.0, y, "gap, reads as zeros");
        self.line("size", (x, above), (x, below));
        x = self.meaning(x + 8.0, y, "size");
        if limits().any(|limit| limit <= end) {
            self.line("limit", (x, above), (x, below));
            x = self.meaning(x + 8.0, y, "limit");
        }
        if limits().any(|limit| limit > end) {
            self.arrow(x, y - 5.0);
            self.meaning(x + 18.0, y, "limit further on");
        }
    }

    /// A word of the legend, and where the next one can begin.
    fn meaning(&mut self, x: f64, y: f64, text: &str) -> f64 {
        self.label(x, y, "small", text);
        x + SMALL_LETTER * text.chars().count() as f64 + 24.0
    }

    fn label(&mut self, x: f64, y: f64, class: &str, text: &str) {
        let text = escaped(text);
        self.add(&format!(
            "<text x=\"{:.1}\" y=\"{:.1}\" class=\"{}\">{}</text>",
            x, y, class, text
        ));
    }

    fn line(&mut self, class: &str, from: (f64, f64), to: (f64, f64)) {
        self.add(&format!(
            "<line class=\"{}\" x1=\"{:.2}\" y1=\"{:.1}\" x2=\"{:.2}\" y2=\"{:.1}\"/>",
            class, from.0, from.1, to.0, to.1
        ));
    }

    fn rect(&mut self, class: &str, x: f64, y: f64, width: f64) {
        self.rect_of(class, (x, y), (width, BAR));
    }

    fn rect_of(&mut self, class: &str, at: (f64, f64), size: (f64, f64)) {
        self.add(&format!(
            "<rect class=\"{}\" x=\"{:.2}\" y=\"{:.1}\" width=\"{:.2}\" height=\"{:.1}\"/>",
            class, at.0, at.1, size.0, size.1
        ));
    }

    fn arrow(&mut self, x: f64, y: f64) {
        self.add(&format!(
            "<path class=\"beyond\" d=\"M{:.1} {:.1} l10 5.5 l-10 5.5 z\"/>",
            x,
            y - 5.5
        ));
    }

    fn add(&mut self, element: &str) {
        self.text += element;
        self.text.push('\n');
    }
}

fn escaped(text: &str) -> String {
    text.replace('&', "&amp;")
        .replace('<', "&lt;")
        .replace('>', "&gt;")
}
