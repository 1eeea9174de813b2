//! import, export: folders of the host into a volume and out of it.

use std::collections::HashMap;
use std::ffi::{OsStr, OsString};
use std::fs::{self, File, Metadata, OpenOptions};
use std::io;
use std::os::unix::ffi::OsStrExt;
use std::os::unix::fs::{symlink, MetadataExt};
use std::path::{Path, PathBuf};

use lentilraft::{Error, Kind, Node, Result, ROOT};

use super::flag;
use crate::args::{Arguments, Command, Run};
use crate::failure::{About, Failure, Outcome};
use crate::host::Source;
use crate::progress::Progress;
use crate::store::{self, Held, Volume};
use crate::transfer::{self, Chunks};
use crate::tree::{self, Found};

pub const IMPORT: Command = Command {
    name: "import",
    about: "copy a folder of the host into the volume",
    places: "VOLUME FOLDER [PATH]",
    options: &[flag("--sparse", "leave chunks of zeros as gaps")],
    details: "\
What is in FOLDER goes to PATH, or to the root; PATH is made if need be. Folders that are there stay
and get more; a file that is there is refused, and with it the whole import. Symbolic links come as
such, and files with several names keep them. Times, owners and rights are not kept.",
    example: "lentil import traces.vol measured/today today --sparse",
    run: Run::Plain(import),
};

pub const EXPORT: Command = Command {
    name: "export",
    about: "copy a folder of the volume to the host",
    places: "VOLUME [PATH] FOLDER",
    options: &[flag("--sparse", "leave gaps as holes of the files")],
    details: "\
What is in PATH, or in the root, goes to FOLDER, which is made or must be empty. If it fails, what
it has made is removed again. Limits are not kept.",
    example: "lentil export traces.vol hood7 /tmp/hood7",
    run: Run::Plain(export),
};

fn import(arguments: &Arguments) -> Outcome<()> {
    let mut held = Held::open(arguments.place(0))?;
    let path = arguments.path(2);
    let start = tree::make_directories(&mut held.volume, path).about(path)?;
    let mut import = Import {
        chunks: Chunks::of(&held.volume).about(path)?,
        volume: &mut held.volume,
        sparse: arguments.has("--sparse"),
        linked: HashMap::new(),
        progress: Progress::new(),
        count: 0,
    };
    import.all(Folder {
        host: arguments.place(1).into(),
        path: path.to_vec(),
        node: start,
    })?;
    held.save()
}

struct Import<'a> {
    volume: &'a mut Volume,
    chunks: Chunks,
    sparse: bool,
    /// Files of the host with several names, and the nodes that they have become.
    linked: HashMap<(u64, u64), Node>,
    progress: Progress,
    count: usize,
}

/// A folder of the host, and the directory that it goes to.
struct Folder {
    host: PathBuf,
    path: Vec<u8>,
    node: Node,
}

impl Import<'_> {
    fn all(&mut self, folder: Folder) -> Outcome<()> {
        let mut waiting = vec![folder];
        while let Some(folder) = waiting.pop() {
            for name in sorted_names(&folder.host).about(folder.host.as_path())? {
                waiting.extend(self.one(&folder, &name)?);
                self.count += 1;
                self.progress
                    .at(|| format!("imported {} entries", self.count));
            }
        }
        Ok(())
    }

    /// Brings one entry in, and gives back the folder that it is, if so.
    fn one(&mut self, folder: &Folder, name: &OsStr) -> Outcome<Option<Folder>> {
        let host = folder.host.join(name);
        let path = tree::joined(&folder.path, name.as_bytes());
        let metadata = host.symlink_metadata().about(host.as_path())?;
        let kind = metadata.file_type();
        if kind.is_dir() {
            let node = self
                .directory(folder.node, name.as_bytes())
                .about(&path[..])?;
            return Ok(Some(Folder { host, path, node }));
        }
        if kind.is_file() {
            self.file(folder.node, name.as_bytes(), (&host, &path), &metadata)?;
        } else if kind.is_symlink() {
            self.symbolic_link(folder.node, name.as_bytes(), (&host, &path))?;
        } else {
            let reason = "is no file, folder or symbolic link";
            return Err(Failure::declined(host.as_path(), reason));
        }
        Ok(None)
    }

    /// A new directory, or the one that is there.
    fn directory(&mut self, parent: Node, name: &[u8]) -> Result<Node> {
        let made = self.volume.create(parent, name, Kind::Directory);
        if made == Err(Error::NameExists) {
            let there = self.volume.find(parent, name)?;
            if self.volume.node(there)?.kind == Kind::Directory {
                return Ok(there);
            }
        }
        made
    }

    fn file(
        &mut self,
        parent: Node,
        name: &[u8],
        (host, path): (&Path, &[u8]),
        metadata: &Metadata,
    ) -> Outcome<()> {
        let number = (metadata.dev(), metadata.ino());
        if let Some(node) = self.linked.get(&number) {
            return self.volume.link(parent, name, *node).about(path);
        }
        let node = self.volume.create(parent, name, Kind::File).about(path)?;
        if metadata.nlink() > 1 {
            self.linked.insert(number, node);
        }
        let mut source = Source::open(host.as_os_str())?;
        let (volume, chunks, file) = (&mut *self.volume, self.chunks, (node, path));
        match self.sparse {
            true => transfer::write_sparse(volume, chunks, file, &mut source),
            false => transfer::write_all(volume, chunks, file, 0, &mut source),
        }
    }

    fn symbolic_link(
        &mut self,
        parent: Node,
        name: &[u8],
        (host, path): (&Path, &[u8]),
    ) -> Outcome<()> {
        let target = fs::read_link(host).about(host)?;
        let node = self
            .volume
            .create(parent, name, Kind::SymbolicLink)
            .about(path)?;
        self.volume
            .write(node, 0, target.as_os_str().as_bytes())
            .about(path)?;
        Ok(())
    }
}

/// The names in a folder, sorted, so that one folder always becomes one volume.
fn sorted_names(folder: &Path) -> io::Result<Vec<OsString>> {
    let entries = fs::read_dir(folder)?;
    let names: io::Result<Vec<_>> = entries.map(|entry| Ok(entry?.file_name())).collect();
    let mut names = names?;
    names.sort();
    Ok(names)
}

fn export(arguments: &Arguments) -> Outcome<()> {
    let volume = store::read(arguments.place(0))?;
    let last = arguments.count() - 1;
    let path = if last == 2 { arguments.path(1) } else { b"" };
    let folder = Path::new(arguments.place(last));
    let found = all_below(&volume, path).about(path)?;
    let mut export = Export {
        volume: &volume,
        path,
        sparse: arguments.has("--sparse"),
        made: Vec::new(),
        linked: HashMap::new(),
    };
    let outcome = export.all(folder, &found);
    if outcome.is_err() {
        export.undo();
    }
    outcome
}

fn all_below(volume: &Volume, path: &[u8]) -> Result<Vec<Found>> {
    let node = volume.find(ROOT, path)?;
    tree::below(volume, node)
}

struct Export<'a> {
    volume: &'a Volume,
    path: &'a [u8],
    sparse: bool,
    /// What was made on the host so far, in order.
    made: Vec<PathBuf>,
    /// Nodes with several names, and where the first of them went.
    linked: HashMap<Node, PathBuf>,
}

impl Export<'_> {
    fn all(&mut self, folder: &Path, found: &[Found]) -> Outcome<()> {
        let mut progress = Progress::new();
        self.make_folder(folder)?;
        for (done, entry) in found.iter().enumerate() {
            let host = folder.join(OsStr::from_bytes(&entry.path));
            self.one(entry, &host)?;
            self.made.push(host);
            progress.at(|| format!("exported {} of {}", done + 1, found.len()));
        }
        Ok(())
    }

    /// Everything goes to a folder that holds nothing else: so nothing of the host is overwritten,
    /// and no symbolic link there leads elsewhere.
    fn make_folder(&mut self, folder: &Path) -> Outcome<()> {
        match fs::read_dir(folder) {
            Ok(mut entries) => match entries.next() {
                None => Ok(()),
                Some(_) => Err(Failure::declined(folder, "is not empty")),
            },
            Err(error) if error.kind() == io::ErrorKind::NotFound => {
                fs::create_dir(folder).about(folder)?;
                self.made.push(folder.to_path_buf());
                Ok(())
            }
            Err(error) => Err(error).about(folder),
        }
    }

    fn one(&mut self, entry: &Found, host: &Path) -> Outcome<()> {
        match entry.info.kind {
            Kind::Directory => fs::create_dir(host).about(host),
            Kind::SymbolicLink => self.symbolic_link(entry, host),
            Kind::File => self.file(entry, host),
        }
    }

    fn symbolic_link(&self, entry: &Found, host: &Path) -> Outcome<()> {
        let path = tree::joined(self.path, &entry.path);
        let target = transfer::content(self.volume, entry.node, entry.info.size);
        symlink(OsStr::from_bytes(&target.about(&path[..])?), host).about(host)
    }

    fn file(&mut self, entry: &Found, host: &Path) -> Outcome<()> {
        if let Some(first) = self.linked.get(&entry.node) {
            return fs::hard_link(first, host).about(host);
        }
        if entry.info.links > 1 {
            self.linked.insert(entry.node, host.to_path_buf());
        }
        let file = OpenOptions::new()
            .write(true)
            .create_new(true)
            .open(host)
            .about(host)?;
        let filled = self.fill(entry, &file, host);
        if filled.is_err() {
            self.made.push(host.to_path_buf());
        }
        filled
    }

    fn fill(&self, entry: &Found, mut file: &File, host: &Path) -> Outcome<()> {
        let path = tree::joined(self.path, &entry.path);
        let (source, stretch) = ((entry.node, &path[..]), 0..entry.info.size);
        match self.sparse {
            true => transfer::copy_out_with_holes(self.volume, source, stretch, file, host),
            false => transfer::copy_out(self.volume, source, stretch, &mut file, host),
        }
    }

    /// Removes what was made, what was made last first.
    fn undo(&self) {
        for path in self.made.iter().rev() {
            // A folder in which someone else has put something stays.
            let _ = match path.symlink_metadata() {
                Ok(metadata) if metadata.is_dir() => fs::remove_dir(path),
                _ => fs::remove_file(path),
            };
        }
    }
}
