//! put, get, cut, limit: commands on a file's bytes.

use std::ffi::OsStr;
use std::os::unix::ffi::OsStrExt;

use lentilraft::{Error, Node, Result, ROOT};

use super::{flag, option};
use crate::args::{self, Arguments, Command, Run};
use crate::failure::{About, Failure, Outcome};
use crate::host::{self, Source};
use crate::store::{self, Held, Volume};
use crate::transfer::{self, Chunks};
use crate::tree;

pub const PUT: Command = Command {
    name: "put",
    about: "write bytes into a file of the volume",
    places: "VOLUME PATH [FILE|-]",
    options: &[
        option(
            "--at",
            "OFFSET",
            "write there, and keep the file's other bytes",
        ),
        flag("--sparse", "leave chunks of zeros as gaps"),
    ],
    details: "\
Makes the file if need be; PATH ends with its name, not with a slash. Without --at the file has the
bytes of FILE then, and no others; with --at, what lies between its old end and the offset is a gap,
and reads as zeros. The bytes come from standard input if no FILE is given. The volume is locked
while they are read, so that nothing that came in is lost because another command was faster.",
    example: "lentil put traces.vol hood7/run1 run1.bin --at 1M",
    run: Run::Plain(put),
};

pub const GET: Command = Command {
    name: "get",
    about: "read bytes of a file of the volume",
    places: "VOLUME PATH [FILE|-]",
    options: &[
        option("--at", "OFFSET", "from there on"),
        option("--count", "SIZE", "so many bytes, or as many as there are"),
        flag("--sparse", "leave gaps as holes of FILE"),
    ],
    details: "\
Bytes that were never written are zeros. They go to standard output if no FILE is given. A FILE
that is there is replaced, once all bytes are there.",
    example: "lentil get traces.vol hood7/run1 --at 1M --count 4k | xxd",
    run: Run::Plain(get),
};

pub const CUT: Command = Command {
    name: "cut",
    about: "cut a file of the volume, or extend it",
    places: "VOLUME PATH SIZE",
    options: &[],
    details: "\
What is cut off is gone. What a file gets behind its end is a gap, and reads as zeros. Neither
needs room in the volume.",
    example: "lentil cut traces.vol hood7/run1 40000",
    run: Run::Plain(cut),
};

pub const LIMIT: Command = Command {
    name: "limit",
    about: "set the greatest size that a file may have",
    places: "VOLUME PATH SIZE|none",
    options: &[],
    details:
        "At most 1024G, which is the limit of a file without one, and not below the file's size.",
    example: "lentil limit traces.vol hood7/run1 16M",
    run: Run::Plain(limit),
};

fn put(arguments: &Arguments) -> Outcome<()> {
    let (offset, sparse) = (arguments.size("--at")?, arguments.has("--sparse"));
    if offset.is_some() && sparse {
        // Zeros that are not written would leave old bytes where they belong.
        return Err(Failure::usage("put takes --at or --sparse, not both"));
    }
    let mut held = Held::open(arguments.place(0))?;
    let path = arguments.path(1);
    let node = file_at(&mut held.volume, path)?;
    let mut source = Source::open(arguments.place(2))?;
    let volume = &mut held.volume;
    let chunks = Chunks::of(volume).about(path)?;
    if offset.is_none() {
        volume.resize(node, 0).about(path)?;
    }
    match sparse {
        true => transfer::write_sparse(volume, chunks, (node, path), &mut source)?,
        false => transfer::write_all(
            volume,
            chunks,
            (node, path),
            offset.unwrap_or(0),
            &mut source,
        )?,
    }
    held.save()
}

/// The node at a path, a new file if there is none. A directory is refused before bytes are read
/// for it, by a write of none.
fn file_at(volume: &mut Volume, path: &[u8]) -> Outcome<Node> {
    let node = match volume.find(ROOT, path) {
        Err(Error::NoSuchEntry) => tree::make_file(volume, path)?,
        found => found.about(path)?,
    };
    volume.write(node, 0, &[]).about(path)?;
    Ok(node)
}

fn get(arguments: &Arguments) -> Outcome<()> {
    let (at, count) = (
        arguments.size("--at")?.unwrap_or(0),
        arguments.size("--count")?,
    );
    let sparse = arguments.has("--sparse");
    let (volume_name, path, target) = (arguments.place(0), arguments.path(1), arguments.place(2));
    let standard = target.is_empty() || target == host::STANDARD;
    if standard && sparse {
        return Err(Failure::usage(
            "get --sparse needs a FILE, which can have holes",
        ));
    }
    let volume = store::read(volume_name)?;
    let node = readable(&volume, path).about(path)?;
    let stretch = transfer::stretch(&volume, node, at, count).about(path)?;
    if standard {
        let name = OsStr::new("standard output");
        return transfer::copy_out(&volume, (node, path), stretch, &mut std::io::stdout(), name);
    }
    host::write_file(target, volume_name, |mut file| match sparse {
        true => transfer::copy_out_with_holes(&volume, (node, path), stretch, file, target),
        false => transfer::copy_out(&volume, (node, path), stretch, &mut file, target),
    })
}

/// The node at a path; a directory is refused before a file of the host is made for it.
fn readable(volume: &Volume, path: &[u8]) -> Result<Node> {
    let node = volume.find(ROOT, path)?;
    volume.read(node, 0, &mut [])?;
    Ok(node)
}

fn cut(arguments: &Arguments) -> Outcome<()> {
    let size = args::size("SIZE", arguments.place(2))?;
    let mut held = Held::open(arguments.place(0))?;
    let path = arguments.path(1);
    let node = held.volume.find(ROOT, path).about(path)?;
    held.volume.resize(node, size).about(path)?;
    held.save()
}

fn limit(arguments: &Arguments) -> Outcome<()> {
    let limit = match arguments.place(2).as_bytes() {
        b"none" => None,
        _ => Some(args::size("a limit other than none", arguments.place(2))?),
    };
    let mut held = Held::open(arguments.place(0))?;
    let path = arguments.path(1);
    let node = held.volume.find(ROOT, path).about(path)?;
    held.volume.set_limit(node, limit).about(path)?;
    held.save()
}
