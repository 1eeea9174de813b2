//! map: which bytes of files were written.

use std::env;
use std::io::{self, Write};
use std::os::unix::ffi::OsStrExt;
use std::path::Path;

use lentilraft::{Info, Kind, Node, Result, Rows, ROOT};

use super::option;
use crate::args::{Arguments, Command, Run};
use crate::failure::{About, Outcome};
use crate::host;
use crate::map;
use crate::progress::Progress;
use crate::scale::Row;
use crate::store::{self, Volume};
use crate::svg;
use crate::sys;
use crate::text;
use crate::tree;

pub const MAP: Command = Command {
    name: "map",
    about: "draw what was written of files, and their gaps",
    places: "VOLUME [PATH]",
    options: &[option(
        "--svg",
        "FILE",
        "draw a picture to look at or to print",
    )],
    details: "\
A line for a file, or for each file below a folder, on one scale. Bytes count as written by whole
chunks. A limit far above all sizes is told, and not drawn. The lines are as long as the terminal is
wide, or 80 columns.",
    example: "lentil map traces.vol hood7 --svg hood7.svg",
    run: Run::Plain(show_map),
};

const DEFAULT_COLUMNS: usize = 80;

fn show_map(arguments: &Arguments) -> Outcome<()> {
    let (name, path) = (arguments.place(0), arguments.path(1));
    let volume = store::read(name)?;
    let rows = rows(&volume, path).about(path)?;
    let file = match arguments.value("--svg") {
        Some(file) => file,
        None => return text::print(terminal_map(&rows).as_bytes()),
    };
    let picture = svg::draw(&title(arguments), &rows);
    match file == host::STANDARD {
        true => text::print(picture.as_bytes()),
        false => host::write_file(file, name, |mut target| {
            target.write_all(picture.as_bytes()).about(file)
        }),
    }
}

fn terminal_map(rows: &[Row]) -> String {
    if rows.is_empty() {
        return "no files\n".to_string();
    }
    let marks = match text::draws_unicode() {
        true => map::UNICODE,
        false => map::ASCII,
    };
    map::draw(rows, columns(), &marks)
}

/// The terminal's width, or what the environment says of it.
fn columns() -> usize {
    let said = env::var("COLUMNS")
        .ok()
        .and_then(|columns| columns.parse().ok());
    sys::columns(&io::stdout())
        .or(said)
        .unwrap_or(DEFAULT_COLUMNS)
}

fn title(arguments: &Arguments) -> String {
    let volume = Path::new(arguments.place(0));
    let volume = text::quoted(volume.file_name().unwrap_or_default().as_bytes());
    match arguments.path(1) {
        b"" => volume,
        path => format!("{}: {}", volume, text::quoted(path)),
    }
}

/// The file at a path, or all files below it.
fn rows(volume: &Volume, path: &[u8]) -> Result<Vec<Row>> {
    let node = volume.find(ROOT, path)?;
    let checked = volume.rows()?;
    let info = checked.node(node)?;
    if info.kind != Kind::Directory {
        let (_, name) = tree::split(path);
        return Ok(vec![row(checked, name, node, &info)?]);
    }
    let mut progress = Progress::new();
    let mut rows = Vec::new();
    for found in tree::below(volume, node)? {
        if found.info.kind == Kind::File {
            rows.push(row(checked, &found.path, found.node, &found.info)?);
            progress.at(|| format!("looked at {} files", rows.len()));
        }
    }
    Ok(rows)
}

fn row(checked: Rows, name: &[u8], node: Node, info: &Info) -> Result<Row> {
    let written = checked.written(node)?;
    Ok(Row {
        name: text::quoted(name),
        size: info.size,
        limit: info.limit,
        written,
    })
}
