//! Runs of calls on names and on the bytes of files. Each begins with a new volume, and its calls
//! make the tree that they work on.

use super::{
    generator::Generator,
    lists::{Item, spelled},
    paths,
};
use oracle::{
    bytes::adler_32,
    calls::{Answer, Call, Told},
    numbered::{Numbered, Rooms},
    runtime::types::ChunkSize,
    scope,
    storage::types::{MAX_FILE_ENTRY_INDEX, MAX_FILE_NAME},
    volume::FILE_LIMIT,
};
use std::collections::BTreeMap;

/// Room of each table in the fixed list.
const ROWS: u64 = 64;

/// Bytes for chunks: from one of the greatest size to twenty.
const LEAST_AREA: u64 = 65_536;
const MOST_AREA: u64 = 1_310_720;

/// The proved program lends no longer memory and no longer buffer.
const MOST_MEMORY: u64 = 1_572_864;
const MOST_BUFFER: u64 = 262_144;

/// What a line starts with.
const VOLUME: u64 = 1;
const READ: u64 = 2;
const WRITE: u64 = 3;
const RESIZE: u64 = 4;
const SET_LIMIT: u64 = 5;
const CREATE: u64 = 6;
const LINK: u64 = 7;
const UNLINK: u64 = 8;
const REMOVE: u64 = 9;
const FIND: u64 = 10;
const NEXT_ENTRY: u64 = 11;

/// Names that are alike in one way or another.
const NAMES: [&str; 28] = [
    "a",
    "b",
    "c",
    "d",
    "ab",
    "abc",
    "A",
    "a.",
    ".a",
    "..a",
    "...",
    "....",
    " ",
    "a ",
    "\n",
    "\0",
    "a\0",
    "a\\b",
    "trace",
    "traces",
    "june",
    "hood7.csv",
    "é",
    "e\u{301}",
    "名",
    "．．",
    "／",
    "🌱",
];

const BAD_NAMES: [&str; 6] = ["", ".", "..", "a/b", "/", "a/"];

pub fn summary(items: &[Item]) -> String {
    items.iter().map(|item| item.answers.as_str()).collect()
}

pub fn fixed(generator: &mut Generator) -> Vec<Item> {
    items(generator, 1, 57, |_| [ROWS; 3], Run::chosen_calls)
}

pub fn bulk(generator: &mut Generator) -> Vec<Item> {
    items(generator, 300, 100, some_rooms, |_, _| {})
}

/// Some that a run fills.
fn some_rooms(generator: &mut Generator) -> [u64; 3] {
    let rows = [12, 16, ROWS];
    let chunks = [3, 8, ROWS];
    [&rows, &rows, &chunks].map(|rooms| generator.one_of(rooms))
}

/// So many runs at each chunk size, of so many calls at random, and what ends a run.
fn items(
    generator: &mut Generator,
    runs: usize,
    calls: usize,
    rooms: fn(&mut Generator) -> [u64; 3],
    end: fn(&mut Run, &mut Tally),
) -> Vec<Item> {
    let mut tally = Tally::default();
    let mut items = Vec::new();
    for _ in 0..runs {
        for size in ChunkSize::VALUES {
            let mut run = Run::new(rooms(generator), size);
            for _ in 0..calls {
                let call = run.call(generator, &mut tally);
                run.step(call, &mut tally);
            }
            end(&mut run, &mut tally);
            items.push(run.item);
        }
    }
    let calls: usize = items.iter().map(|item| item.count).sum();
    println!("names: {} runs, {calls} calls", items.len());
    tally.show();
    items
}

// ---- what the lists hold

#[derive(Default)]
struct Tally {
    /// By call and number.
    answers: BTreeMap<(&'static str, u64), usize>,
    lookups: BTreeMap<&'static str, usize>,
    left_out: BTreeMap<&'static str, usize>,
}

impl Tally {
    fn count(&mut self, call: &Call, answer: &Answer) {
        *self
            .answers
            .entry((called(call), answer.number))
            .or_default() += 1;
        if let Call::Find { path, .. } = call {
            for mark in marks(path, answer) {
                *self.lookups.entry(mark).or_default() += 1;
            }
        }
    }

    fn show(&self) {
        for call in CALLS {
            let of_call = self.answers.iter().filter(|(key, _)| key.0 == call);
            let told: Vec<String> = of_call
                .map(|((_, number), count)| format!("{count} answer {number}"))
                .collect();
            println!("{call}: {}", told.join(", "));
        }
        println!("lookups: {:?}", self.lookups);
        println!("left out: {:?}", self.left_out);
    }
}

const CALLS: [&str; 10] = [
    "read",
    "write",
    "resize",
    "set limit",
    "create",
    "link",
    "unlink",
    "remove",
    "find",
    "next entry",
];

fn called(call: &Call) -> &'static str {
    CALLS[(spelled_numbers(call)[0] - READ) as usize]
}

/// What a path that was looked up has in it, or came to.
fn marks(path: &str, answer: &Answer) -> Vec<&'static str> {
    let pieces: Vec<&str> = path.split('/').collect();
    let inner = &pieces[..pieces.len() - 1];
    let long = |piece: &&str| piece.len() > MAX_FILE_NAME;
    let no_part = scope::path_parts(path.as_bytes()).is_ok_and(|parts| parts.is_empty());
    let has = [
        ("one .", pieces.contains(&".")),
        ("one ..", pieces.contains(&"..")),
        ("one empty part", inner.contains(&"")),
        ("a part above 255 bytes", pieces.iter().any(long)),
        ("no part", no_part),
        ("no part and a final /", no_part && path.ends_with('/')),
        ("a missing name", answer.number == scope::NO_SUCH_ENTRY),
        ("4,096 bytes", path.len() == scope::MAX_PATH),
    ];
    has.iter()
        .filter(|(_, has)| *has)
        .map(|(name, _)| *name)
        .collect()
}

// ---- lines

/// The call, the node, then a place, a length and a seed, or what stands for them.
fn spelled_numbers(call: &Call) -> [u64; 5] {
    match call {
        &Call::Read {
            node,
            offset,
            length,
            seed,
        } => [READ, node, offset, length, seed],
        &Call::Write {
            node,
            offset,
            length,
            seed,
        } => [WRITE, node, offset, length, seed],
        &Call::Resize { node, size } => [RESIZE, node, size, 0, 0],
        &Call::SetLimit { node, limit } => [
            SET_LIMIT,
            node,
            limit.unwrap_or(0),
            limit.is_some() as u64,
            0,
        ],
        Call::Create { parent, kind, name } => {
            [CREATE, *parent, *kind as u64, name.len() as u64, 0]
        }
        Call::Link {
            parent,
            target,
            name,
        } => [LINK, *parent, *target, name.len() as u64, 0],
        Call::Unlink {
            start,
            path,
            expect_dir,
            opens,
        } => {
            let expected = match expect_dir {
                None => 0,
                Some(true) => 1,
                Some(false) => 2,
            };
            [UNLINK, *start, *opens, path.len() as u64, expected]
        }
        &Call::Remove { node } => [REMOVE, node, 0, 0, 0],
        Call::Find { start, path } => [FIND, *start, 0, path.len() as u64, 0],
        &Call::NextEntry { directory, from } => [NEXT_ENTRY, directory, from as u64, 0, 0],
    }
}

/// The bytes that a line ends with.
fn spelled_text(call: &Call) -> &str {
    match call {
        Call::Create { name, .. } | Call::Link { name, .. } => name,
        Call::Unlink { path, .. } | Call::Find { path, .. } => path,
        _ => "",
    }
}

fn line(call: &Call) -> String {
    let text = spelled_text(call).bytes().map(u64::from);
    spelled(spelled_numbers(call).into_iter().chain(text)) + "\n"
}

fn printed(answer: &Answer) -> String {
    let mut numbers = vec![answer.number];
    match &answer.told {
        Told::Value(value) => numbers.push(*value),
        Told::Read(count, buffer) => numbers.extend([*count, adler_32(buffer)]),
        Told::Entry(listed) => {
            numbers.extend([listed.index as u64, listed.node]);
            numbers.extend(listed.name.iter().map(|&byte| byte as u64));
        }
    }
    let numbers: Vec<String> = numbers.iter().map(u64::to_string).collect();
    numbers.join(" ") + "\n"
}

/// A new volume, by the length of its memory, its rooms and its chunk size.
fn first_line(volume: &Numbered) -> String {
    let rooms = volume.rooms;
    let tables = 192 + 40 * rooms.nodes + 280 * rooms.entries + 32 * rooms.chunks;
    let length = tables + rooms.area;
    assert!(length <= MOST_MEMORY);
    let rows = [rooms.nodes, rooms.entries, rooms.chunks];
    let numbers = [[VOLUME, length].as_slice(), &rows, &[volume.chunk_size]].concat();
    spelled(numbers) + "\n"
}

// ---- a run

struct Run {
    volume: Numbered,
    item: Item,
}

impl Run {
    fn new([nodes, entries, chunks]: [u64; 3], size: ChunkSize) -> Self {
        let rooms = Rooms {
            nodes,
            entries,
            chunks,
            area: (chunks * size as u64).clamp(LEAST_AREA, MOST_AREA),
        };
        let volume = Numbered::new(rooms, size);
        let item = Item {
            lines: first_line(&volume),
            answers: "volume 0\n".to_string(),
            count: 0,
        };
        Run { volume, item }
    }

    fn step(&mut self, call: Call, tally: &mut Tally) {
        assert_eq!(scope::left_out(&call, &self.volume), None);
        let answer = self.volume.ask(&call);
        tally.count(&call, &answer);
        self.item.lines += &line(&call);
        self.item.answers += &printed(&answer);
        self.item.count += 1;
    }

    // Chosen calls.

    fn chosen_calls(&mut self, tally: &mut Tally) {
        let lookups = chosen_paths().into_iter().map(|path| find(0, &path));
        let missing = [find(u64::MAX, ".."), find(1 << 32, "/")];
        for call in lookups.chain(missing).chain(self.one_folder()) {
            self.step(call, tally);
        }
        self.fill_up(tally);
        self.fill_up(tally);
    }

    /// Long names that differ in a byte, unlinks that have more than one reason to be refused, and
    /// paths to a file with pieces in them that mean nothing.
    fn one_folder(&self) -> Vec<Call> {
        let folder = self.volume.next_node();
        let (file, symbolic_link) = (folder + 1, folder + 2);
        let long = |last: &str| "n".repeat(MAX_FILE_NAME - 1) + last;
        let inside = |name: &str| format!("folder/{name}");
        let mut calls = vec![
            create(0, 0, "folder"),
            create(folder, 1, &long("n")),
            create(folder, 2, &long("m")),
            create(folder, 0, &long("")),
        ];
        for last in ["n", "m", "", "o"] {
            calls.push(find(folder, &long(last)));
        }
        calls.extend([
            link(folder, "again", file),
            find(0, "./folder//../folder/again"),
            unlink("folder", Some(false), 1),
            unlink("folder", None, 1),
            unlink(&inside(&long("n")), Some(true), 1),
            unlink(&inside(&long("n")), None, 1),
            unlink(&inside("again"), None, 1),
            unlink(&inside(".//x/../again"), Some(false), 0),
            link(folder, "back", file),
            unlink(&inside(&long("m")), Some(false), 0),
            unlink(&inside(&long("")), Some(true), 0),
        ]);
        for from in 0..7 {
            let directory = folder;
            calls.push(Call::NextEntry { directory, from });
        }
        let listing = Call::NextEntry {
            directory: folder,
            from: 0,
        };
        calls.extend([
            Call::Remove {
                node: symbolic_link,
            },
            unlink(&inside("back"), None, 0),
            unlink("folder", Some(true), 1),
            unlink("folder", Some(true), 0),
            find(folder, "."),
            find(folder, "back"),
            listing.clone(),
            Call::Remove { node: folder },
            listing,
            Call::Remove { node: folder },
        ]);
        calls
    }

    /// A file takes all room that is left, and is taken away; the next finds its chunks again.
    fn fill_up(&mut self, tally: &mut Tally) {
        let node = self.volume.next_node();
        self.step(create(0, 1, "full"), tally);
        let chunk = self.volume.chunk_size;
        let write = |offset, length| Call::Write {
            node,
            offset,
            length,
            seed: node,
        };
        self.step(write(chunk - 1, 3), tally);
        let read = Call::Read {
            node,
            offset: 0,
            length: 2 * chunk,
            seed: 1,
        };
        self.step(read, tally);
        let mut offset = 2 * chunk;
        while scope::chunk_room(&self.volume) > 0 {
            let length = MOST_BUFFER.min(chunk * scope::chunk_room(&self.volume));
            self.step(write(offset, length), tally);
            offset += length;
        }
        self.step(unlink("full", None, 0), tally);
        self.step(Call::Remove { node }, tally);
    }

    // Calls at random.

    /// A call on which the Rust and the scope agree.
    fn call(&self, generator: &mut Generator, tally: &mut Tally) -> Call {
        loop {
            let call = self.any_call(generator);
            match scope::left_out(&call, &self.volume) {
                Some(difference) => *tally.left_out.entry(difference).or_default() += 1,
                None => return call,
            }
        }
    }

    fn any_call(&self, generator: &mut Generator) -> Call {
        let few = self.volume.nodes().len() < 12;
        match generator.below(100) {
            _ if few && generator.once_in(2) => self.create(generator),
            0..12 => self.create(generator),
            12..19 => self.link(generator),
            19..36 => self.unlink(generator),
            36..42 => self.remove(generator),
            42..69 => self.find(generator),
            69..80 => self.next_entry(generator),
            80..88 => self.read(generator),
            88..95 => self.write(generator),
            95..98 => self.resize(generator),
            _ => self.set_limit(generator),
        }
    }

    // Calls on names.

    fn create(&self, generator: &mut Generator) -> Call {
        Call::Create {
            parent: self.directory(generator),
            kind: generator.one_of(&[0, 0, 0, 0, 0, 0, 1, 1, 1, 1, 1, 1, 2, 2, 3, 255]),
            name: self.new_name(generator),
        }
    }

    fn link(&self, generator: &mut Generator) -> Call {
        Call::Link {
            parent: self.directory(generator),
            target: self.file(generator),
            name: self.new_name(generator),
        }
    }

    /// By a plain path as a rule.
    fn unlink(&self, generator: &mut Generator) -> Call {
        let start = self.start(generator);
        let parts = self.way_down(generator, start);
        let path = match generator.below(3) {
            0 => self.path(generator, start),
            _ => parts.join("/"),
        };
        Call::Unlink {
            start,
            path,
            expect_dir: generator.one_of(&[None, None, None, Some(true), Some(false)]),
            opens: generator.one_of(&[0, 0, 0, 0, 0, 1, 2, u64::MAX]),
        }
    }

    /// Of a node without a name, if there is one.
    fn remove(&self, generator: &mut Generator) -> Call {
        let is_unnamed = |node: &u64| self.volume.metadata(*node).unwrap().link_count == 0;
        let unnamed: Vec<u64> = self.volume.nodes().into_iter().filter(is_unnamed).collect();
        let node = match generator.below(12) {
            0 => self.missing(generator),
            1 => generator.below(self.volume.next_node()),
            _ if unnamed.is_empty() => return self.unlink(generator),
            _ => generator.one_of(&unnamed),
        };
        Call::Remove { node }
    }

    fn find(&self, generator: &mut Generator) -> Call {
        let start = self.start(generator);
        Call::Find {
            start,
            path: self.path(generator, start),
        }
    }

    fn next_entry(&self, generator: &mut Generator) -> Call {
        let directory = match generator.below(6) {
            0 => self.directory(generator),
            _ => self.filled_directory(generator),
        };
        let indexes: Vec<u32> = self
            .volume
            .entries(directory)
            .iter()
            .map(|e| e.index)
            .collect();
        let from = match generator.below(8) {
            0 => 0,
            1..=4 if !indexes.is_empty() => {
                let index = generator.one_of(&indexes);
                index + generator.one_of(&[0, 0, 1, 1])
            }
            5 => generator.one_of(&[MAX_FILE_ENTRY_INDEX - 1, u32::MAX, 1 << 31, 1 << 16]),
            _ => generator.below(12) as u32,
        };
        Call::NextEntry { directory, from }
    }

    // Calls on the bytes of files.

    fn read(&self, generator: &mut Generator) -> Call {
        let node = self.file(generator);
        let offset = self.place(generator, node);
        Call::Read {
            node,
            offset,
            length: self.length(generator, offset),
            seed: generator.below(251),
        }
    }

    fn write(&self, generator: &mut Generator) -> Call {
        let node = self.file(generator);
        let offset = self.place(generator, node);
        Call::Write {
            node,
            offset,
            length: self.length(generator, offset),
            seed: generator.below(251),
        }
    }

    fn resize(&self, generator: &mut Generator) -> Call {
        let node = self.file(generator);
        Call::Resize {
            node,
            size: self.place(generator, node),
        }
    }

    fn set_limit(&self, generator: &mut Generator) -> Call {
        let node = self.file(generator);
        let limit = self.place(generator, node);
        Call::SetLimit {
            node,
            limit: (!generator.once_in(3)).then_some(limit),
        }
    }

    /// An offset, a size or a limit.
    fn place(&self, generator: &mut Generator, node: u64) -> u64 {
        let chunk = self.volume.chunk_size;
        let size = self
            .volume
            .metadata(node)
            .map_or(0, |metadata| metadata.size);
        let near = match generator.below(20) {
            0..=6 => generator.below(5) * chunk,
            7..=10 => generator.below(4 * chunk),
            11..=15 => size,
            16 => FILE_LIMIT,
            17 if generator.once_in(3) => return u64::MAX - generator.below(3),
            _ => 0,
        };
        (near + generator.one_of(&[0, 0, 1, 2])).saturating_sub(generator.one_of(&[0, 0, 1, 3]))
    }

    fn length(&self, generator: &mut Generator, place: u64) -> u64 {
        let chunk = self.volume.chunk_size;
        let to_boundary = chunk - place % chunk;
        let length = match generator.below(10) {
            0 => 0,
            1..=4 => 1 + generator.below(200),
            5 => to_boundary + generator.below(3) - 1,
            6 => chunk + generator.below(3) - 1,
            7 => generator.below(2 * chunk),
            _ => generator.below(chunk),
        };
        length.min(MOST_BUFFER)
    }

    // Nodes.

    fn directory(&self, generator: &mut Generator) -> u64 {
        let volume = &self.volume;
        match generator.below(40) {
            0 => self.missing(generator),
            1 => generator.below(volume.next_node()),
            _ => {
                let nodes = volume.nodes();
                let directories: Vec<u64> = nodes
                    .into_iter()
                    .filter(|&node| volume.is_directory(node))
                    .collect();
                generator.one_of(&directories)
            }
        }
    }

    /// One with entries, if there is one: node 0 more often than another.
    fn filled_directory(&self, generator: &mut Generator) -> u64 {
        let has_entries = |node: &u64| !self.volume.entries(*node).is_empty();
        let filled: Vec<u64> = self
            .volume
            .nodes()
            .into_iter()
            .filter(has_entries)
            .collect();
        match generator.below(3) {
            0 => 0,
            _ if filled.is_empty() => 0,
            _ => generator.one_of(&filled),
        }
    }

    fn file(&self, generator: &mut Generator) -> u64 {
        let volume = &self.volume;
        let nodes = volume.nodes();
        let files: Vec<u64> = nodes
            .into_iter()
            .filter(|&node| !volume.is_directory(node))
            .collect();
        match generator.below(25) {
            0 => self.missing(generator),
            1 => generator.below(volume.next_node()),
            _ if files.is_empty() => self.missing(generator),
            _ => generator.one_of(&files),
        }
    }

    /// Where a path begins.
    fn start(&self, generator: &mut Generator) -> u64 {
        match generator.below(20) {
            0 | 1 => self.file(generator),
            2 => generator.below(self.volume.next_node()),
            3 | 4 => self.directory(generator),
            _ => self.filled_directory(generator),
        }
    }

    /// One that was taken away, or that was never there.
    fn missing(&self, generator: &mut Generator) -> u64 {
        let next = self.volume.next_node();
        let is_gone = |node: &u64| self.volume.metadata(*node).is_none();
        let gone: Vec<u64> = (0..next).filter(is_gone).collect();
        match generator.below(4) {
            0 => next,
            1 => generator.one_of(&[next + 1, 1 << 32, u64::MAX]),
            _ if gone.is_empty() => next,
            _ => generator.one_of(&gone),
        }
    }

    // Names and paths.

    fn new_name(&self, generator: &mut Generator) -> String {
        match generator.below(24) {
            0..=12 => generator.one_of(&NAMES).to_string(),
            13..=16 => {
                let known = self.known_name(generator);
                changed(generator, known)
            }
            17..=19 => {
                let length = 1 + generator.below(12) as usize;
                paths::name(generator, length)
            }
            20 | 21 => long_name(generator),
            22 => too_long_name(generator),
            _ => generator.one_of(&BAD_NAMES).to_string(),
        }
    }

    /// A name of some entry.
    fn known_name(&self, generator: &mut Generator) -> String {
        let nodes = self.volume.nodes();
        let entries = nodes.iter().flat_map(|&node| self.volume.entries(node));
        let names: Vec<Vec<u8>> = entries.map(|entry| entry.name).collect();
        match names.len() as u64 {
            0 => "a".to_string(),
            count => text(&names[generator.below(count) as usize]),
        }
    }

    /// Names from the start on that lead to a node.
    fn way_down(&self, generator: &mut Generator, start: u64) -> Vec<String> {
        let mut parts = Vec::new();
        let mut node = start;
        loop {
            let entries = self.volume.entries(node);
            if entries.is_empty() || !parts.is_empty() && generator.once_in(3) {
                return parts;
            }
            let entry = &entries[generator.below(entries.len() as u64) as usize];
            parts.push(text(&entry.name));
            node = entry.node;
        }
    }

    /// A way down, or almost one, with all that may stand in a path.
    fn path(&self, generator: &mut Generator, start: u64) -> String {
        let mut parts = self.way_down(generator, start);
        match generator.below(16) {
            0 | 1 => parts.push(self.known_name(generator)),
            2 => parts.push(generator.one_of(&NAMES).to_string()),
            3 => {
                let known = parts.pop().unwrap_or_default();
                parts.push(changed(generator, known));
            }
            4 => parts.push(long_name(generator)),
            5 => parts.push(too_long_name(generator)),
            6 => parts.insert(0, too_long_name(generator)),
            7 => drop(parts.pop()),
            8 if generator.once_in(3) => parts.clear(),
            _ => {}
        }
        self.joined(generator, parts)
    }

    /// The parts with what means nothing between them, and sometimes a way out. The last part ends
    /// the path, since another end would mean a directory.
    fn joined(&self, generator: &mut Generator, parts: Vec<String>) -> String {
        let mut path = String::new();
        match generator.below(40) {
            0 => path += "/",
            1 => path += "../",
            2 => path += "a/../../",
            _ => {}
        }
        for part in &parts {
            if !path.is_empty() && !path.ends_with('/') {
                path += "/";
            }
            while generator.once_in(4) {
                path += &self.nothing(generator, path.is_empty());
            }
            path += part;
        }
        path += &match parts.last() {
            Some(last) if generator.once_in(4) => up_and_down(generator, last),
            None if generator.once_in(2) => self.no_part(generator, path.is_empty()),
            _ => String::new(),
        };
        if generator.once_in(120) {
            path = padded(path);
        }
        path
    }

    /// Pieces that lead nowhere, with a slash behind the last or without.
    fn no_part(&self, generator: &mut Generator, begins: bool) -> String {
        let mut pieces = self.nothing(generator, begins);
        while generator.once_in(3) {
            pieces += &self.nothing(generator, false);
        }
        if generator.once_in(2) {
            pieces.pop();
        }
        pieces
    }

    /// Pieces that lead nowhere, with a slash behind each. No empty one begins a path.
    fn nothing(&self, generator: &mut Generator, begins: bool) -> String {
        match generator.below(8) {
            0 | 1 if !begins => "/".to_string(),
            5 => self.known_name(generator) + "/../",
            6 => generator.one_of(&NAMES).to_string() + "/./../",
            7 => too_long_name(generator) + "//../",
            _ => "./".to_string(),
        }
    }
}

// ---- calls by their arguments

fn create(parent: u64, kind: u8, name: &str) -> Call {
    Call::Create {
        parent,
        kind,
        name: name.to_string(),
    }
}

fn link(parent: u64, name: &str, target: u64) -> Call {
    Call::Link {
        parent,
        target,
        name: name.to_string(),
    }
}

/// From node 0.
fn unlink(path: &str, expect_dir: Option<bool>, opens: u64) -> Call {
    Call::Unlink {
        start: 0,
        path: path.to_string(),
        expect_dir,
        opens,
    }
}

fn find(start: u64, path: &str) -> Call {
    Call::Find {
        start,
        path: path.to_string(),
    }
}

// ---- names and paths

/// Looked up at the end of a run.
fn chosen_paths() -> Vec<String> {
    let mut paths = vec![
        padded("a".to_string()),
        "n".repeat(MAX_FILE_NAME),
        "n".repeat(MAX_FILE_NAME + 1),
        "n".repeat(MAX_FILE_NAME + 1) + "/..",
    ];
    for path in [
        "", ".", "..", "./", "/", "a", "./a", ".//a", "a/../", "a/..", "a/../..", "a/../b",
        "./a//b", "...",
    ] {
        paths.push(path.to_string());
    }
    paths
}

fn text(name: &[u8]) -> String {
    String::from_utf8(name.to_vec()).expect("names are made of text")
}

/// A name that is almost another one.
fn changed(generator: &mut Generator, mut name: String) -> String {
    match generator.below(4) {
        0 => name.push(generator.one_of(&['x', ' ', '\0', '.', 'é'])),
        1 => drop(name.pop()),
        2 => {
            name.pop();
            name.push('z');
        }
        _ => name = name.to_uppercase(),
    }
    name
}

/// About as long as a name may be; many differ in the last byte only.
fn long_name(generator: &mut Generator) -> String {
    let length = generator.one_of(&[253, 254, 255, 255, 255]);
    match generator.below(3) {
        0 => paths::name(generator, length),
        _ => "n".repeat(length - 1) + generator.one_of(&["n", "m"]),
    }
}

fn too_long_name(generator: &mut Generator) -> String {
    let length = generator.one_of(&[256, 256, 257, 300]);
    match generator.below(3) {
        0 => paths::name(generator, length),
        _ => "n".repeat(length),
    }
}

/// Behind a last part: a way up, with what means nothing in it, and down again.
fn up_and_down(generator: &mut Generator, last: &str) -> String {
    let up = generator.one_of(&["/../", "//../", "/./../", "/..//", "/.././"]);
    up.to_string() + last
}

/// As long as a path may be, and sometimes a byte longer. What is put in front means nothing.
fn padded(path: String) -> String {
    let left = scope::MAX_PATH.saturating_sub(path.len());
    "./".repeat(left / 2) + "/" + &path
}
