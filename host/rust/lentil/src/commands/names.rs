//! ls, tree, mkdir, ln, rm: commands on names.

use lentilraft::{Info, Kind, Node, Result, ROOT};

use super::flag;
use crate::args::{Arguments, Command, Run};
use crate::failure::{About, Outcome};
use crate::progress::Progress;
use crate::store::{self, Held, Volume};
use crate::text::{self, Names};
use crate::transfer;
use crate::tree::{self, Found};

pub const LS: Command = Command {
    name: "ls",
    about: "list a folder",
    places: "VOLUME [PATH]",
    options: &[flag("-l", "kind, links, size and limit before each name")],
    details: "\
Names stand in the order in which they were made. With -l the kind is d for a folder, - for a file
and l for a symbolic link; a folder's size is the number of its names; a file without a limit has -.",
    example: "lentil ls -l traces.vol hood7",
    run: Run::Plain(ls),
};

pub const TREE: Command = Command {
    name: "tree",
    about: "show a folder and all below it",
    places: "VOLUME [PATH]",
    options: &[],
    details: "A folder has a slash behind its name.",
    example: "lentil tree traces.vol",
    run: Run::Plain(show_tree),
};

pub const MKDIR: Command = Command {
    name: "mkdir",
    about: "make a folder",
    places: "VOLUME PATH",
    options: &[flag(
        "-p",
        "make those before it too, and let one be that is there",
    )],
    details: "The folder that it is to stand in must be there, and have no such name.",
    example: "lentil mkdir -p traces.vol hood7/2024",
    run: Run::Plain(mkdir),
};

pub const LN: Command = Command {
    name: "ln",
    about: "name a file once more",
    places: "VOLUME PATH NEWPATH",
    options: &[],
    details: "Both names are the same file, and neither is the first. A folder has one name only.",
    example: "lentil ln traces.vol hood7/run1 best",
    run: Run::Plain(ln),
};

pub const RM: Command = Command {
    name: "rm",
    about: "take a name away, and a file with its last name",
    places: "VOLUME PATH",
    options: &[flag("-r", "a folder with all below it")],
    details: "A folder must be empty unless -r is given. The root stays in any case.",
    example: "lentil rm traces.vol hood7/run1",
    run: Run::Plain(rm),
};

fn ls(arguments: &Arguments) -> Outcome<()> {
    let volume = store::read(arguments.place(0))?;
    let path = arguments.path(1);
    let lines = match arguments.has("-l") {
        true => long_list(&volume, path),
        false => short_list(&volume, path),
    };
    text::print(&lines.about(path)?)
}

fn short_list(volume: &Volume, path: &[u8]) -> Result<Vec<u8>> {
    let names = Names::for_output();
    let node = volume.find(ROOT, path)?;
    if volume.node(node)?.kind != Kind::Directory {
        return Ok([&names.form(path), &b"\n"[..]].concat());
    }
    let mut lines = Vec::new();
    for entry in volume.entries(node) {
        lines.extend(names.form(entry?.name));
        lines.push(b'\n');
    }
    Ok(lines)
}

fn long_list(volume: &Volume, path: &[u8]) -> Result<Vec<u8>> {
    let node = volume.find(ROOT, path)?;
    let info = volume.node(node)?;
    let listed = match info.kind {
        Kind::Directory => {
            let found = tree::entries(volume.rows()?, node, b"", 0)?;
            found
                .into_iter()
                .map(|found| (found.name, found.node, found.info))
                .collect()
        }
        _ => vec![(path.to_vec(), node, info)],
    };
    let columns: Vec<[String; 3]> = listed.iter().map(|(_, _, info)| numbers(info)).collect();
    let widths = [0, 1, 2].map(|at| columns.iter().map(|row| row[at].len()).max().unwrap_or(0));
    let mut lines = Vec::new();
    for ((name, node, info), [links, size, limit]) in listed.iter().zip(&columns) {
        let [a, b, c] = widths;
        let front = format!(
            "{} {:>a$} {:>b$} {:>c$} ",
            letter(info.kind),
            links,
            size,
            limit
        );
        lines.extend(front.bytes());
        lines.extend(name_and_target(volume, name, *node, info)?);
        lines.push(b'\n');
    }
    Ok(lines)
}

fn numbers(info: &Info) -> [String; 3] {
    let limit = info
        .limit
        .map_or("-".to_string(), |limit| limit.to_string());
    [info.links.to_string(), info.size.to_string(), limit]
}

fn letter(kind: Kind) -> char {
    match kind {
        Kind::Directory => 'd',
        Kind::File => '-',
        Kind::SymbolicLink => 'l',
    }
}

/// A name, and what it points to if it is a symbolic link.
fn name_and_target(volume: &Volume, name: &[u8], node: Node, info: &Info) -> Result<Vec<u8>> {
    let names = Names::for_output();
    let mut text = names.form(name);
    if info.kind == Kind::SymbolicLink {
        text.extend(b" -> ");
        text.extend(names.form(&transfer::content(volume, node, info.size)?));
    }
    Ok(text)
}

fn show_tree(arguments: &Arguments) -> Outcome<()> {
    let volume = store::read(arguments.place(0))?;
    let path = arguments.path(1);
    let lines = tree_lines(&volume, path).about(path)?;
    text::print(&lines)
}

fn tree_lines(volume: &Volume, path: &[u8]) -> Result<Vec<u8>> {
    let node = volume.find(ROOT, path)?;
    let mut lines = match path {
        b"" => b".".to_vec(),
        _ => Names::for_output().form(path),
    };
    lines.push(b'\n');
    let strokes = Strokes::for_output();
    // Of each directory on the way down, whether it is the last of its own.
    let mut way: Vec<bool> = Vec::new();
    for found in tree::below(volume, node)? {
        way.truncate(found.depth);
        lines.extend(strokes.before(&way, found.last).bytes());
        lines.extend(leaf(volume, &found)?);
        way.push(found.last);
    }
    Ok(lines)
}

fn leaf(volume: &Volume, found: &Found) -> Result<Vec<u8>> {
    let mut line = name_and_target(volume, &found.name, found.node, &found.info)?;
    if found.info.kind == Kind::Directory {
        line.push(b'/');
    }
    line.push(b'\n');
    Ok(line)
}

/// What the lines of a tree are drawn with.
struct Strokes {
    past: &'static str,
    below: &'static str,
    branch: &'static str,
    last: &'static str,
}

impl Strokes {
    fn for_output() -> Strokes {
        match text::draws_unicode() {
            true => Strokes {
                past: "    ",
                below: "│   ",
                branch: "├── ",
                last: "└── ",
            },
            false => Strokes {
                past: "    ",
                below: "|   ",
                branch: "|-- ",
                last: "`-- ",
            },
        }
    }

    fn before(&self, way: &[bool], last: bool) -> String {
        let trunk = way
            .iter()
            .map(|past| if *past { self.past } else { self.below });
        let end = if last { self.last } else { self.branch };
        trunk.chain([end]).collect()
    }
}

fn mkdir(arguments: &Arguments) -> Outcome<()> {
    let mut held = Held::open(arguments.place(0))?;
    let path = arguments.path(1);
    let made = match arguments.has("-p") {
        true => tree::make_directories(&mut held.volume, path),
        false => tree::make_directory(&mut held.volume, path),
    };
    made.about(path)?;
    held.save()
}

fn ln(arguments: &Arguments) -> Outcome<()> {
    let mut held = Held::open(arguments.place(0))?;
    let (path, new_path) = (arguments.path(1), arguments.path(2));
    let node = held.volume.find(ROOT, path).about(path)?;
    tree::name_file(&mut held.volume, new_path, node)?;
    held.save()
}

fn rm(arguments: &Arguments) -> Outcome<()> {
    let mut held = Held::open(arguments.place(0))?;
    let path = arguments.path(1);
    if arguments.has("-r") {
        empty(&mut held.volume, path)?;
    }
    tree::take_out(&mut held.volume, ROOT, path).about(path)?;
    held.save()
}

/// Takes away all below a directory, what lies deepest first.
fn empty(volume: &mut Volume, path: &[u8]) -> Outcome<()> {
    let node = volume.find(ROOT, path).about(path)?;
    if volume.node(node).about(path)?.kind != Kind::Directory {
        return Ok(());
    }
    let mut progress = Progress::new();
    let found = tree::below(volume, node).about(path)?;
    for (done, entry) in found.iter().rev().enumerate() {
        let name = tree::joined(path, &entry.path);
        tree::take_out(volume, entry.parent, &entry.name).about(&name[..])?;
        progress.at(|| format!("removed {} of {}", done + 1, found.len()));
    }
    Ok(())
}
