//! What stands below a directory of a volume, and paths to what does not stand there yet.

use lentilraft::{Error, Expected, Info, Kind, Node, Result, Rows, ROOT};

use crate::failure::{About, Failure, Outcome};
use crate::progress::Progress;
use crate::store::Volume;

/// An entry somewhere below a directory.
pub struct Found {
    /// Its path from that directory on.
    pub path: Vec<u8>,
    pub parent: Node,
    pub name: Vec<u8>,
    pub node: Node,
    pub info: Info,
    /// How many directories lie between.
    pub depth: usize,
    /// Whether it is the last entry of its own directory.
    pub last: bool,
}

/// All entries below a directory, each directory before what is in it. The volume is checked once.
///
/// A directory has one name at most and the root none, so that no walk comes to one twice.
pub fn below(volume: &Volume, start: Node) -> Result<Vec<Found>> {
    let mut progress = Progress::new();
    let rows = volume.rows()?;
    let mut waiting = entries(rows, start, b"", 0)?;
    waiting.reverse();
    let mut found = Vec::new();
    while let Some(next) = waiting.pop() {
        if next.info.kind == Kind::Directory {
            let inside = entries(rows, next.node, &next.path, next.depth + 1)?;
            waiting.extend(inside.into_iter().rev());
        }
        found.push(next);
        progress.at(|| format!("looked at {} entries", found.len()));
    }
    Ok(found)
}

/// The entries of one directory, in the order in which they were made.
pub fn entries(rows: Rows, directory: Node, path: &[u8], depth: usize) -> Result<Vec<Found>> {
    let mut found = Vec::new();
    for entry in rows.entries(directory)? {
        found.push(Found {
            path: joined(path, entry.name),
            parent: directory,
            name: entry.name.to_vec(),
            node: entry.node,
            info: rows.node(entry.node)?,
            depth,
            last: false,
        });
    }
    if let Some(last) = found.last_mut() {
        last.last = true;
    }
    Ok(found)
}

/// A path with one more part.
pub fn joined(path: &[u8], name: &[u8]) -> Vec<u8> {
    match path {
        b"" => name.to_vec(),
        _ => [path, b"/", name].concat(),
    }
}

/// A path's last part, and what stands before it. Slashes behind that part belong to neither.
pub fn split(path: &[u8]) -> (&[u8], &[u8]) {
    let end = path
        .iter()
        .rposition(|byte| *byte != b'/')
        .map_or(0, |last| last + 1);
    let start = path[..end]
        .iter()
        .rposition(|byte| *byte == b'/')
        .map_or(0, |slash| slash + 1);
    (&path[..start], &path[start..end])
}

/// Whether a path means a directory, by its last piece: that is empty, `.` or `..`.
fn means_directory(path: &[u8]) -> bool {
    let last = path.rsplit(|byte| *byte == b'/').next();
    matches!(last.unwrap_or_default(), b"" | b"." | b"..")
}

/// Makes a directory at a path, which may end with slashes.
///
/// The whole path is looked up first: what the store refuses in it is refused here. Whether there
/// is something, a file before a slash too, is for the call that makes the directory to judge.
pub fn make_directory(volume: &mut Volume, path: &[u8]) -> Result<Node> {
    match volume.find(ROOT, path) {
        Ok(_) | Err(Error::NoSuchEntry | Error::NotDirectory) => (),
        Err(error) => return Err(error),
    }
    let (parent, name) = new_place(volume, path)?;
    volume.create(parent, name, Kind::Directory)
}

/// Makes a file at a path.
pub fn make_file(volume: &mut Volume, path: &[u8]) -> Outcome<Node> {
    demand_file_path(volume, path)?;
    let (parent, name) = new_place(volume, path).about(path)?;
    volume.create(parent, name, Kind::File).about(path)
}

/// Names a file once more.
pub fn name_file(volume: &mut Volume, path: &[u8], node: Node) -> Outcome<()> {
    demand_file_path(volume, path)?;
    let (parent, name) = new_place(volume, path).about(path)?;
    volume.link(parent, name, node).about(path)
}

/// Refuses a path that the store refuses, and one that means a directory where there is none: a
/// file made there would not be found by it. Whether there is something is for the call that names
/// the file to judge.
fn demand_file_path(volume: &Volume, path: &[u8]) -> Outcome<()> {
    match volume.find(ROOT, path) {
        Err(Error::NoSuchEntry) if means_directory(path) => Err(Failure::declined(
            path,
            "no such folder, and a file's path ends with its name",
        )),
        Ok(_) | Err(Error::NoSuchEntry) => Ok(()),
        Err(error) => Err(error).about(path),
    }
}

/// The directory that something is to be made in at a path, and its name there.
fn new_place<'a>(volume: &Volume, path: &'a [u8]) -> Result<(Node, &'a [u8])> {
    let (front, name) = split(path);
    Ok((volume.find(ROOT, front)?, name))
}

/// The directory at a path, made with those before it if need be.
pub fn make_directories(volume: &mut Volume, path: &[u8]) -> Result<Node> {
    let ends = (1..path.len()).filter(|end| path[*end] == b'/');
    for end in ends.collect::<Vec<_>>() {
        directory_at(volume, &path[..end])?;
    }
    directory_at(volume, path)
}

/// The directory at a path, a new one if there is none.
fn directory_at(volume: &mut Volume, path: &[u8]) -> Result<Node> {
    match volume.find(ROOT, path) {
        Ok(node) if volume.node(node)?.kind == Kind::Directory => Ok(node),
        _ => make_directory(volume, path),
    }
}

/// Takes an entry out of its directory, and its node away if that was its last name: the store says
/// that a node with another name is busy.
pub fn take_out(volume: &mut Volume, start: Node, path: &[u8]) -> Result<()> {
    let node = volume.unlink(start, path, Expected::Any, 0)?;
    match volume.remove(node) {
        Err(Error::Busy) => Ok(()),
        removed => removed,
    }
}

#[cfg(test)]
mod tests {
    use super::*;

    #[test]
    fn paths_are_split_before_their_last_part() {
        let cases: [(&str, &str, &str); 8] = [
            ("a", "", "a"),
            ("a/b", "a/", "b"),
            ("a/b/", "a/", "b"),
            ("a//b//", "a//", "b"),
            ("/a", "/", "a"),
            ("a/..", "a/", ".."),
            ("/", "", ""),
            ("", "", ""),
        ];
        for (path, front, name) in cases {
            assert_eq!(
                split(path.as_bytes()),
                (front.as_bytes(), name.as_bytes()),
                "{}",
                path
            );
        }
    }

    #[test]
    fn a_path_means_a_directory_by_its_last_piece() {
        for path in [
            "a/", "a//", "a/.", "a/./", "a/..", "a/b/..", ".", "..", "/", "",
        ] {
            assert!(means_directory(path.as_bytes()), "{}", path);
        }
        for path in ["a", "a/b", "./a", "../a", "a/...", "a/.b", "a/b.", "a/ "] {
            assert!(!means_directory(path.as_bytes()), "{}", path);
        }
    }
}
