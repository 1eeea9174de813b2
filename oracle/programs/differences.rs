//! Runs the inputs of docs/DIFFERENCES.md on the Rust and says what came of each.
//! The word before a colon is the name of the difference there.

use oracle::{
    allocator_words::{AllocatorWords, Opened},
    calls::Call,
    caught::{caught, silence},
    error::Error,
    filename_cache::FilenameCache,
    numbered::{Numbered, Rooms},
    runtime::{structure_helpers, types::ChunkSize},
    scope::{FIRST_POINTER, MARKER, OLD_MARKER},
    storage::{
        Storage,
        types::{DirEntry, FileName, FileType, Node},
    },
    volume::{Listed, Volume},
};
use std::{collections::BTreeMap, fmt::Debug};

const ROOT: Node = 0;

fn main() {
    silence();
    boundary_rows();
    allocator_opens();
    allocator_calls();
    sizes_and_limits();
    cuts_in_holes();
    directories_as_files();
    removal();
    new_names();
    refused_creates();
    links();
    paths();
    folder_paths();
    listing();
}

fn show(name: &str, input: &str, came: impl Debug) {
    println!("{name}: {input}: {came:?}");
}

/// The answer of a call that may panic.
fn said<T: Debug>(call: impl FnOnce() -> T) -> String {
    match caught(call) {
        Ok(answer) => format!("{answer:?}"),
        Err(message) => format!("panics, {message}"),
    }
}

fn new_volume() -> Volume {
    Volume::new(ChunkSize::CHUNK16K)
}

fn new_file(volume: &mut Volume, name: &str) -> Result<Node, Error> {
    volume.create(ROOT, name.as_bytes(), FileType::RegularFile)
}

fn new_directory(volume: &mut Volume, name: &str) -> Result<Node, Error> {
    volume.create(ROOT, name.as_bytes(), FileType::Directory)
}

/// A volume with one file, whose limit is 2^40.
fn one_file() -> (Volume, Node) {
    let mut volume = new_volume();
    let node = new_file(&mut volume, "f").unwrap();
    (volume, node)
}

/// A volume that is asked by the scope's calls.
fn numbered() -> Numbered {
    let rooms = Rooms {
        nodes: 8,
        entries: 8,
        chunks: 8,
        area: 65536,
    };
    Numbered::new(rooms, ChunkSize::CHUNK16K)
}

/// The same with the Rust's own limit, or any other.
fn one_file_with(limit: Option<u64>) -> (Volume, Node) {
    let (mut volume, node) = one_file();
    let mut metadata = volume.metadata(node).unwrap();
    metadata.maximum_size_allowed = limit;
    volume.storage.put_metadata(node, &metadata).unwrap();
    (volume, node)
}

fn size(volume: &Volume, node: Node) -> u64 {
    volume.metadata(node).unwrap().size
}

fn links_of(volume: &Volume, node: Node) -> u64 {
    volume.metadata(node).unwrap().link_count
}

fn entries(volume: &Volume, directory: Node) -> Vec<(u32, Node, String)> {
    let mut found = Vec::new();
    let mut from = 0;
    while let Some(Listed { index, node, name }) = volume.next_entry(directory, Some(from)) {
        found.push((index, node, String::from_utf8(name).unwrap()));
        from = index + 1;
    }
    found
}

/// The rows of the scope's boundary table that are no differences.
fn boundary_rows() {
    let (mut v, f) = one_file();
    let written = v.write(f, 16383, b"abc");
    show("P1", "rows, size", (written, v.chunk_rows(f), size(&v, f)));
    show("P2", "free", (v.resize(f, 16383), v.free_pointers()));
    let (grown, mut three) = (v.resize(f, 16386), [9; 3]);
    show("P3", "bytes", (grown, v.read(f, 16383, &mut three), three));
    show("P4", "size", (v.write(f, u64::MAX, b""), size(&v, f)));
    show("P5", "with the limit 2^40", v.write(f, 1 << 40, b"x"));
    let (mut v, f) = one_file();
    let written = v.write(f, (1 << 40) - 1, b"x");
    show("P6", "rows", (written, v.chunk_rows(f)));
    let paths = ["a/../..", "a/../b", "./a//b/", "..."];
    for (row, path) in ["P8", "P9", "P10", "P11"].into_iter().zip(paths) {
        show(row, path, structure_helpers::path_parts(path));
    }
    v.remove(f).unwrap();
    for size in [ChunkSize::CHUNK4K, ChunkSize::CHUNK16K] {
        let set = v.storage.set_chunk_size(size);
        show("Run", "set chunk size", (size, set));
    }
}

/// Words with room for two free pointers.
fn words(marker: u64, size: u64, count: u64, next: u64, free: [u64; 2]) -> Vec<u64> {
    let mut words = vec![0; FIRST_POINTER];
    (words[0], words[1], words[2], words[3]) = (marker, size, count, next);
    words.extend(free);
    words
}

fn allocator_opens() {
    const S: u64 = 16384;
    let old_marker = OLD_MARKER | 0x7a << 32;
    let damaged = [
        ("open-size", words(MARKER, 1, 0, 0, [0, 0])),
        ("open-size-zero", words(MARKER, 0, 0, S, [0, 0])),
        ("open-old-marker", words(old_marker, 1, 0, 0, [0, 0])),
        ("open-too-many", words(MARKER, S, 3, 4 * S, [0, S])),
        ("open-too-many", words(MARKER, S, 1 << 60, S, [0, 0])),
        ("open-repeated", words(MARKER, S, 2, S, [0, 0])),
        ("open-unaligned", words(MARKER, S, 1, S, [1, 0])),
        ("open-not-below", words(MARKER, S, 1, 0, [0, 0])),
        ("open-zero-and-free", words(MARKER, 0, 1, 0, [0, 0])),
        ("open-word-3", words(MARKER, S, 0, 1, [0, 0])),
    ];
    for (name, words) in damaged {
        let input = format!("{:x?} {:x?}", &words[..4], &words[FIRST_POINTER..]);
        let mut rust = AllocatorWords::new(&words);
        let opened = rust.open();
        let after = match rust.words() == words {
            true => "words kept".to_string(),
            false => format!("words now {:x?}", &rust.words()[..4]),
        };
        show(name, &input, (&opened, after));
        if opened == Opened::Accepted {
            let pointers = said(|| [rust.allocate(), rust.allocate()]);
            show(name, "then two allocates", pointers);
        }
    }
    let mut rust = AllocatorWords::new(&[]);
    show(
        "open-empty",
        "then allocate",
        (rust.open(), rust.allocate()),
    );
}

fn allocator_calls() {
    let mut rust = AllocatorWords::new(&words(MARKER, 16384, 0, 16384, [0, 0]));
    rust.open();
    rust.free(0);
    rust.free(0);
    show("free-twice", "free words", &rust.words()[FIRST_POINTER..]);
    let top = 0u64.wrapping_sub(16384);
    let mut rust = AllocatorWords::new(&words(MARKER, 16384, 0, top, [0, 0]));
    rust.open();
    let pointer = said(|| rust.allocate());
    show(
        "allocate-top",
        "word 3 after it",
        (pointer, rust.words()[3]),
    );
}

fn sizes_and_limits() {
    let (mut v, f) = one_file_with(None);
    show(
        "write-2^40",
        "one byte, no limit",
        v.write(f, 1 << 40, b"x"),
    );
    for bytes in ["x", "xy"] {
        let (mut v, f) = one_file();
        let written = said(|| v.write(f, u64::MAX, bytes.as_bytes()));
        let input = format!("{bytes} at u64::MAX, size");
        show("write-wraps", &input, (written, size(&v, f)));
    }
    let (mut v, f) = one_file_with(Some(1 << 60));
    let written = said(|| v.write(f, 1 << 46, b"x"));
    show("write-cut-index", "one byte at 2^46", written);
    let (mut v, f) = one_file();
    show("limit-above", "u64::MAX", v.set_limit(f, Some(u64::MAX)));
    let (mut v, f) = one_file_with(None);
    show("resize-unlimited", "to 2^60", v.resize(f, 1 << 60));

    let (mut v, f) = one_file_with(None);
    v.write(f, 0, b"x").unwrap();
    let (grown, before) = (v.resize(f, 1 << 47), v.chunk_rows(f));
    show("shrink-cut-index", "to 2^47, rows", (grown, before));
    let (shrunk, after) = (v.resize(f, 1 << 46), v.chunk_rows(f));
    let mut byte = [9];
    let read = (v.read(f, 0, &mut byte), byte);
    show("shrink-cut-index", "to 2^46, rows", (shrunk, after, read));

    let mut v = Volume::new(ChunkSize::CHUNK4K);
    let f = new_file(&mut v, "f").unwrap();
    let written = v.write(f, 0, &vec![1; 4097 * 4096]);
    show("room", "4,097 chunks", written);
}

/// Cuts that end in a hole. The first is P7 of the boundary table.
fn cuts_in_holes() {
    let (mut v, f) = one_file();
    v.resize(f, 40000).unwrap();
    let cut = (v.resize(f, 20000), v.chunk_rows(f), v.free_pointers());
    show("cut-hole", "empty, to 40,000, to 20,000: rows, free", cut);
    let (mut v, f) = one_file();
    v.write(f, 40000, b"x").unwrap();
    let cut = (v.resize(f, 20000), v.chunk_rows(f), v.free_pointers());
    show("cut-hole", "x at 40,000, to 20,000: rows, free", cut);
}

fn directories_as_files() {
    let (mut v, _) = one_file();
    let mut four = [9; 4];
    let read = v.read(ROOT, 0, &mut four);
    show("directory-read", "a directory of one entry", (read, four));
    let written = v.write(ROOT, 0, b"hello");
    show("directory-write", "size", (written, size(&v, ROOT)));
    let resized = v.resize(ROOT, 0);
    let left = (size(&v, ROOT), entries(&v, ROOT));
    show("directory-resize", "size, entries", (resized, left));
    let mut v = new_volume();
    let limited = v.set_limit(ROOT, Some(0));
    let created = new_file(&mut v, "f");
    let left = (size(&v, ROOT), entries(&v, ROOT));
    show(
        "directory-limit",
        "0, then create",
        (limited, created, left),
    );
}

fn removal() {
    let (mut v, f) = one_file();
    let removed = v.remove(f);
    let found = (v.find(ROOT, "f"), v.metadata(f).err());
    show("remove-linked", "a file with a name", (removed, found));
    let removed = v.remove(ROOT);
    show("remove-linked", "node 0", (removed, v.metadata(ROOT).err()));
}

fn new_names() {
    let (mut v, f) = one_file();
    let again = new_file(&mut v, "f");
    show("name-twice", "entries", (again, entries(&v, ROOT)));
    for name in ["", ".", "..", "a/b"] {
        show("name-bad", &format!("{name:?}"), new_file(&mut v, name));
    }
    let created = v.create(f, b"x", FileType::RegularFile);
    let found = v.find(f, "x");
    show("below-file", "size, found", (created, size(&v, f), found));
    let created = v.create(ROOT, b"l", FileType::SymbolicLink);
    show("symbolic-link", "create", created);

    let mut v = new_volume();
    let d = new_directory(&mut v, "d").unwrap();
    v.rm_dir_entry(ROOT, "d", None, 0).unwrap();
    let created = v.create(d, b"x", FileType::RegularFile);
    show("under-removed", "links, create", (links_of(&v, d), created));
}

fn refused_creates() {
    let mut v = new_volume();
    let created = v.create(77, b"f", FileType::RegularFile);
    let next = v.storage.new_node();
    let left = ("links of node 1", links_of(&v, 1), "next node", next);
    show("create-refused", "in parent 77", (created, left));
    let mut v = new_volume();
    let created = new_file(&mut v, &"n".repeat(256));
    let next = v.storage.new_node();
    let left = ("links of node 1", links_of(&v, 1), "next node", next);
    show("create-refused", "name of 256 bytes", (created, left));

    for (parent, name) in [(77, "f".to_string()), (ROOT, "n".repeat(256))] {
        let input = format!("type 3 in parent {parent}, name of {} bytes", name.len());
        let kind = 3;
        let create = Call::Create { parent, kind, name };
        show("create-type", &input, numbered().ask(&create).number);
    }

    let mut v = new_volume();
    v.storage.set_next_node(u64::MAX);
    let nodes = [
        said(|| new_file(&mut v, "f")),
        said(|| v.storage.new_node()),
    ];
    show("next-node", "at u64::MAX, this and the next", nodes);
    let mut v = new_volume();
    v.storage.put_direntry(ROOT, u32::MAX, DirEntry::default());
    let created = said(|| new_file(&mut v, "f"));
    let next = v.storage.new_node();
    show("index-full", "next node", (created, next));
}

fn hard_link(volume: &mut Volume, new_path: &str, old_path: &str) -> Result<(), Error> {
    hard_link_in(volume, ROOT, new_path, old_path)
}

fn hard_link_in(
    volume: &mut Volume,
    parent: Node,
    new_path: &str,
    old_path: &str,
) -> Result<(), Error> {
    structure_helpers::create_hard_link(
        parent,
        new_path,
        ROOT,
        old_path,
        false,
        &BTreeMap::new(),
        &mut FilenameCache,
        &mut volume.storage,
    )
}

fn links() {
    let mut v = new_volume();
    let d = new_directory(&mut v, "d").unwrap();
    let linked = hard_link(&mut v, "e", "d");
    show("link-directory", "by create_hard_link", linked);
    let linked = (v.link(d, b"d", d), v.find(ROOT, "d/d/d"));
    show("link-directory", "by add_dir_entry", linked);

    let (mut v, f) = one_file();
    let g = new_file(&mut v, "g").unwrap();
    let linked = hard_link(&mut v, "g", "f");
    let left = (entries(&v, ROOT), links_of(&v, f), links_of(&v, g));
    show("link-existing", "f as g, entries, links", (linked, left));
    let (mut v, f) = one_file();
    let linked = hard_link(&mut v, "f", "f");
    let left = (entries(&v, ROOT), links_of(&v, f));
    show("link-existing", "f as f, entries, links", (linked, left));
    let linked = (hard_link(&mut v, "x/y", "f"), v.find(ROOT, "x"));
    show("link-makes-folders", "f as x/y, x", linked);

    let mut v = new_volume();
    let linked = hard_link(&mut v, &"n".repeat(256), "f");
    show("link-order", "a missing f, name of 256 bytes", linked);
    let (mut v, f) = one_file();
    let linked = hard_link_in(&mut v, 99, "x", "f");
    let left = (links_of(&v, f), v.rm_dir_entry(ROOT, "f", None, 1));
    show(
        "link-refused",
        "f in parent 99, links, unlink",
        (linked, left),
    );
    let (mut v, f) = one_file();
    let g = new_file(&mut v, "g").unwrap();
    let linked = (v.link(f, b"x", g), size(&v, f), v.find(f, "x"));
    show("below-file", "link, size, found", linked);
    let mut v = new_volume();
    let d = new_directory(&mut v, "d").unwrap();
    let f = new_file(&mut v, "f").unwrap();
    v.rm_dir_entry(ROOT, "d", None, 0).unwrap();
    show("under-removed", "link", v.link(d, b"x", f));
}

fn paths() {
    let mut v = new_volume();
    for path in ["", "a", &"n".repeat(256)] {
        let input = format!("path of {} bytes", path.len());
        show("find-missing-start", &input, v.find(99, path));
    }
    let unlinked = v.rm_dir_entry(99, &"n".repeat(256), None, 0);
    show("find-missing-start", "unlink, path of 256 bytes", unlinked);
    let found = v.find(ROOT, &"./".repeat(2049));
    show("path-long", "4,098 bytes", found);
    for path in ["", ".", "a/.."] {
        let mut v = new_volume();
        let unlinked = said(|| v.rm_dir_entry(ROOT, path, None, 0));
        let left = ("links of node 0", links_of(&v, ROOT));
        show("unlink-no-parts", &format!("{path:?}"), (unlinked, left));
    }
    let (mut v, _) = one_file();
    new_file(&mut v, "g").unwrap();
    let unlinked = v.rm_dir_entry(ROOT, "f", None, 0);
    show("unlink-v1-row", "V1 rows", (unlinked, v.storage.v1_rows()));
}

/// Paths that mean a directory: to a file; and to a directory and to a symbolic link, where both
/// sides agree.
fn folder_paths() {
    let (mut v, _) = one_file();
    new_file(&mut v, "hood7.csv").unwrap();
    new_directory(&mut v, "d").unwrap();
    v.create_symbolic_link(ROOT, b"l").unwrap();
    for path in ["f/", "f/.", "f/x/..", "hood7.csv/", "d/", "l/"] {
        show("folder-path", &format!("find {path}"), v.find(ROOT, path));
    }
    let (mut v, _) = one_file();
    let unlinked = v.rm_dir_entry(ROOT, "f/", None, 1);
    show("folder-path", "unlink f/ while it is open", unlinked);
    let unlinked = v.rm_dir_entry(ROOT, "f/", None, 0);
    let left = (unlinked, entries(&v, ROOT));
    show("folder-path", "unlink f/, entries", left);
}

fn listing() {
    let mut v = new_volume();
    let d = new_directory(&mut v, "d").unwrap();
    let f = new_file(&mut v, "f").unwrap();
    for from in [None, Some(u32::MAX - 5), Some(u32::MAX - 4)] {
        let mut listed = Vec::new();
        v.storage.with_direntries(d, from, &mut |index, entry| {
            listed.push((*index, entry.node, entry.name.to_string()));
            true
        });
        show("list-dots", &format!("from {from:?}"), listed);
    }
    let first = (v.next_entry(f, Some(0)), v.next_entry(99, Some(0)));
    show("list-no-directory", "a file, a missing node", first);
    for index in [u32::MAX - 11, u32::MAX - 10] {
        let (mut v, f) = one_file();
        let entry = DirEntry {
            name: FileName::new(b"g").unwrap(),
            node: f,
            entry_type: None,
        };
        v.storage.put_direntry(ROOT, index, entry);
        let listed = (entries(&v, ROOT), v.find(ROOT, "g"));
        show("list-high", &format!("index {index}"), listed);
    }
}
