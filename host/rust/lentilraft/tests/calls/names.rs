//! Create, link, find, unlink, remove and next entry.

use lentilraft::{ChunkSize, Entry, Error, Expected, Kind, Node, Volume, ROOT};

use crate::helpers::{
    content, new_volume, refusal, with_bytes, with_file, Owned, ENTRY_INDEX, ENTRY_ROWS, MISSING,
    NEXT_NODE,
};

/// A folder with two files in it.
fn with_folder() -> (Owned, Node) {
    let mut volume = new_volume(ChunkSize::K4);
    let folder = volume.create(ROOT, b"traces", Kind::Directory).unwrap();
    volume.create(folder, b"hood-7", Kind::File).unwrap();
    volume.create(folder, b"hood-8", Kind::File).unwrap();
    (volume, folder)
}

/// Ends by which a path means a directory: its last piece is empty, `.` or `..`.
const DIRECTORY_ENDS: [&str; 6] = ["/", "//", "/.", "/./", "/x/..", "/x/../"];

/// A directory, a file and a symbolic link in the root, in this order.
const KINDS: [(&str, Kind); 3] = [
    ("traces", Kind::Directory),
    ("hood7.csv", Kind::File),
    ("newest", Kind::SymbolicLink),
];

/// A volume with these, and their nodes.
fn with_kinds() -> (Owned, [Node; 3]) {
    let mut volume = new_volume(ChunkSize::K4);
    let nodes = KINDS.map(|(name, kind)| volume.create(ROOT, name.as_bytes(), kind).unwrap());
    (volume, nodes)
}

/// A name with each of the ends.
fn with_ends(name: &str) -> impl Iterator<Item = String> + '_ {
    DIRECTORY_ENDS.iter().map(move |end| [name, end].concat())
}

/// A folder that has no name any more.
fn with_nameless_folder() -> (Owned, Node) {
    let mut volume = new_volume(ChunkSize::K4);
    let folder = volume.create(ROOT, b"old", Kind::Directory).unwrap();
    volume.unlink(ROOT, b"old", Expected::Directory, 0).unwrap();
    (volume, folder)
}

/// A volume whose root has one entry, with the greatest index that there is.
fn with_last_index() -> (Owned, Node) {
    let (volume, file) = with_file();
    let index = u32::MAX.to_le_bytes();
    (with_bytes(volume, ENTRY_ROWS + ENTRY_INDEX, &index), file)
}

fn names(volume: &Owned, directory: Node) -> Vec<Vec<u8>> {
    let entries = volume.entries(directory).map(|entry| entry.unwrap());
    entries.map(|entry| entry.name.to_vec()).collect()
}

#[test]
fn nodes_are_numbered_in_turn() {
    let mut volume = new_volume(ChunkSize::K4);
    for (number, kind) in [Kind::Directory, Kind::File, Kind::SymbolicLink]
        .into_iter()
        .enumerate()
    {
        let name = [b'a' + number as u8];
        assert_eq!(
            volume.create(ROOT, &name, kind),
            Ok(Node(number as u64 + 1))
        );
        assert_eq!(volume.node(Node(number as u64 + 1)).unwrap().kind, kind);
    }
}

#[test]
fn a_number_is_not_given_again() {
    let (mut volume, file) = with_file();
    volume.unlink(ROOT, b"hood-7", Expected::File, 0).unwrap();
    volume.remove(file).unwrap();
    assert_eq!(
        volume.create(ROOT, b"hood-7", Kind::File),
        Ok(Node(file.0 + 1))
    );
}

#[test]
fn create_is_refused() {
    let (mut volume, file) = with_file();
    let mut refused =
        |parent, name: &[u8]| refusal(&mut volume, |v| v.create(parent, name, Kind::File));
    assert_eq!(refused(MISSING, b""), Error::NoSuchEntry);
    assert_eq!(refused(file, b""), Error::NotDirectory);
    for name in [&b""[..], b".", b"..", b"a/b", b"/", &[b'a'; 256]] {
        assert_eq!(refused(ROOT, name), Error::BadName);
    }
    assert_eq!(refused(ROOT, b"hood-7"), Error::NameExists);
}

#[test]
fn nothing_is_made_in_a_nameless_folder() {
    let (mut volume, folder) = with_nameless_folder();
    let file = volume.create(ROOT, b"f", Kind::File).unwrap();
    assert_eq!(
        refusal(&mut volume, |v| v.create(folder, b"", Kind::File)),
        Error::NoSuchEntry
    );
    assert_eq!(
        refusal(&mut volume, |v| v.link(folder, b"", file)),
        Error::NoSuchEntry
    );
}

#[test]
fn any_other_bytes_are_a_name() {
    let mut volume = new_volume(ChunkSize::K4);
    let longest = [0xff; 255];
    for name in [&b"..."[..], b".a", b" ", b"\0", b"\xc3\x28", &longest] {
        let node = volume.create(ROOT, name, Kind::File).unwrap();
        assert_eq!(volume.find(ROOT, name), Ok(node));
    }
}

#[test]
fn rows_are_used_up() {
    let (mut volume, file) = with_file();
    for name in [b"b", b"c", b"d", b"e", b"f", b"g"] {
        volume.create(ROOT, name, Kind::File).unwrap();
    }
    assert_eq!(
        refusal(&mut volume, |v| v.create(ROOT, b"h", Kind::File)),
        Error::NoRowRoom
    );
    volume.link(ROOT, b"h", file).unwrap();
    assert_eq!(
        refusal(&mut volume, |v| v.link(ROOT, b"i", file)),
        Error::NoRowRoom
    );
}

#[test]
fn the_last_node_number_is_not_given() {
    let (volume, _) = with_file();
    let mut volume = with_bytes(volume, NEXT_NODE, &u64::MAX.to_le_bytes());
    assert_eq!(volume.check(), Ok(()));
    assert_eq!(
        refusal(&mut volume, |v| v.create(ROOT, b"g", Kind::File)),
        Error::NoRowRoom
    );
}

#[test]
fn no_entry_stands_behind_the_last_index() {
    let (mut volume, file) = with_last_index();
    assert_eq!(
        refusal(&mut volume, |v| v.create(ROOT, b"g", Kind::File)),
        Error::NoIndexLeft
    );
    assert_eq!(
        refusal(&mut volume, |v| v.link(ROOT, b"g", file)),
        Error::NoIndexLeft
    );
}

#[test]
fn a_file_has_two_names() {
    let (mut volume, file) = with_file();
    volume.write(file, 0, b"0.52").unwrap();
    assert_eq!(volume.link(ROOT, b"latest", file), Ok(()));
    assert_eq!(volume.find(ROOT, b"latest"), Ok(file));
    assert_eq!(volume.unlink(ROOT, b"hood-7", Expected::Any, 0), Ok(file));
    assert_eq!(volume.find(ROOT, b"hood-7"), Err(Error::NoSuchEntry));
    assert_eq!(content(&volume, file, 0, 4), b"0.52");
}

#[test]
fn link_is_refused() {
    let (mut volume, folder) = with_folder();
    let file = volume.find(folder, b"hood-7").unwrap();
    let mut refused =
        |parent, name: &[u8], target| refusal(&mut volume, |v| v.link(parent, name, target));
    assert_eq!(refused(MISSING, b"", MISSING), Error::NoSuchEntry);
    assert_eq!(refused(file, b"", MISSING), Error::NotDirectory);
    assert_eq!(refused(ROOT, b"", MISSING), Error::BadName);
    assert_eq!(refused(ROOT, b"x", MISSING), Error::NoSuchEntry);
    assert_eq!(refused(ROOT, b"traces", folder), Error::IsDirectory);
    assert_eq!(refused(ROOT, b"traces", file), Error::NameExists);
}

#[test]
fn paths_lead_to_nodes() {
    let (volume, folder) = with_folder();
    let file = volume.next_entry(folder, 0).unwrap().node;
    for path in [
        &b"traces/hood-7"[..],
        b"./traces//hood-7",
        b"x/../traces/hood-7",
    ] {
        assert_eq!(volume.find(ROOT, path), Ok(file));
    }
    for path in [&b""[..], b".", b"x/.."] {
        assert_eq!(volume.find(folder, path), Ok(folder));
    }
    assert_eq!(volume.find(folder, b"hood-7"), Ok(file));
}

#[test]
fn find_is_refused() {
    let (mut volume, _) = with_folder();
    let mut refused = |start, path: &[u8]| refusal(&mut volume, |v| v.find(start, path));
    assert_eq!(refused(MISSING, &[b'/'; 4097]), Error::InvalidArgument);
    assert_eq!(refused(MISSING, b"/"), Error::PathNotPermitted);
    assert_eq!(refused(MISSING, b"a/../.."), Error::PathNotPermitted);
    assert_eq!(refused(MISSING, b"traces"), Error::NoSuchEntry);
    assert_eq!(refused(ROOT, &[b'a'; 256]), Error::BadName);
    assert_eq!(refused(ROOT, b"traces/hood-9"), Error::NoSuchEntry);
    assert_eq!(refused(ROOT, b"traces/hood-7/x"), Error::NoSuchEntry);
}

#[test]
fn a_path_that_means_a_directory_finds_no_file() {
    let (mut volume, [folder, file, _]) = with_kinds();
    volume.link(folder, b"again", file).unwrap();
    for path in with_ends("hood7.csv").chain(with_ends("traces/again")) {
        let error = refusal(&mut volume, |v| v.find(ROOT, path.as_bytes()));
        assert_eq!(error, Error::NotDirectory, "{}", path);
    }
    assert_eq!(volume.find(ROOT, b"hood7.csv"), Ok(file));
    // Dots that are a name, or stand before the last piece, mean nothing of that kind.
    for name in ["...", ".a", "a."] {
        let dotted = volume.create(ROOT, name.as_bytes(), Kind::File).unwrap();
        let path = ["./x/..//", name].concat();
        assert_eq!(volume.find(ROOT, path.as_bytes()), Ok(dotted));
    }
}

#[test]
fn a_path_that_means_a_directory_finds_directories_and_symbolic_links() {
    let (volume, [folder, _, link]) = with_kinds();
    for (name, node) in [("traces", folder), ("newest", link)] {
        for path in with_ends(name) {
            assert_eq!(volume.find(ROOT, path.as_bytes()), Ok(node), "{}", path);
        }
    }
}

#[test]
fn a_path_that_means_a_directory_is_walked_first() {
    let (mut volume, _) = with_kinds();
    let mut refused = |start, path: &[u8]| refusal(&mut volume, |v| v.find(start, path));
    assert_eq!(refused(ROOT, b"missing/"), Error::NoSuchEntry);
    assert_eq!(refused(ROOT, b"hood7.csv/x/"), Error::NoSuchEntry);
    assert_eq!(refused(ROOT, b"newest/x/"), Error::NoSuchEntry);
    assert_eq!(refused(MISSING, b"hood7.csv/"), Error::NoSuchEntry);
    let long = [&[b'a'; 256][..], b"/"].concat();
    assert_eq!(refused(ROOT, &long), Error::BadName);
    assert_eq!(refused(ROOT, b"/hood7.csv/"), Error::PathNotPermitted);
    let long = [&b"hood7.csv"[..], &[b'/'; 4088]].concat();
    assert_eq!(refused(ROOT, &long), Error::InvalidArgument);
    assert_eq!(refused(ROOT, &long[..4096]), Error::NotDirectory);
}

#[test]
fn a_path_with_no_part_left_leads_to_any_start() {
    let (volume, nodes) = with_kinds();
    for start in nodes {
        for path in ["", ".", "./", "x/..", "x/../", "x/y/../.."] {
            assert_eq!(volume.find(start, path.as_bytes()), Ok(start), "{}", path);
        }
    }
}

#[test]
fn unlink_is_refused() {
    let (mut volume, folder) = with_folder();
    let mut refused = |start, path: &[u8], expected, opens| {
        refusal(&mut volume, |v| v.unlink(start, path, expected, opens))
    };
    assert_eq!(
        refused(MISSING, &[b'/'; 4097], Expected::Any, 0),
        Error::InvalidArgument
    );
    for path in [&b"/"[..], b"a/../..", b"", ".".as_bytes(), b"a/.."] {
        assert_eq!(
            refused(MISSING, path, Expected::Any, 0),
            Error::PathNotPermitted
        );
    }
    assert_eq!(
        refused(MISSING, b"traces", Expected::Any, 0),
        Error::NoSuchEntry
    );
    assert_eq!(
        refused(ROOT, &[b'a'; 256], Expected::Any, 0),
        Error::BadName
    );
    assert_eq!(
        refused(folder, b"hood-9", Expected::Any, 0),
        Error::NoSuchEntry
    );
    assert_eq!(
        refused(ROOT, b"traces", Expected::File, 1),
        Error::IsDirectory
    );
    assert_eq!(
        refused(ROOT, b"traces", Expected::Any, 1),
        Error::DirectoryNotEmpty
    );
    assert_eq!(
        refused(ROOT, b"traces", Expected::Directory, 1),
        Error::DirectoryNotEmpty
    );
    assert_eq!(
        refused(folder, b"hood-7", Expected::Directory, 1),
        Error::NotDirectory
    );
    assert_eq!(refused(folder, b"hood-7", Expected::File, 1), Error::Busy);
}

#[test]
fn a_path_that_means_a_directory_unlinks_no_file() {
    let (mut volume, [_, file, _]) = with_kinds();
    for expected in [Expected::Any, Expected::File, Expected::Directory] {
        for path in with_ends("hood7.csv") {
            // That it is open, and has no other name, is asked behind that.
            for opens in [0, 1] {
                let path = path.as_bytes();
                let error = refusal(&mut volume, |v| v.unlink(ROOT, path, expected, opens));
                assert_eq!(error, Error::NotDirectory);
            }
        }
    }
    for path in [&b"missing/"[..], b"hood7.csv/x/"] {
        let error = refusal(&mut volume, |v| v.unlink(ROOT, path, Expected::Any, 0));
        assert_eq!(error, Error::NoSuchEntry);
    }
    let error = refusal(&mut volume, |v| v.unlink(file, b"x/../", Expected::Any, 0));
    assert_eq!(error, Error::PathNotPermitted);
}

#[test]
fn a_path_that_means_a_directory_unlinks_directories_and_symbolic_links() {
    for (name, kind) in [KINDS[0], KINDS[2]] {
        for path in with_ends(name) {
            let mut volume = new_volume(ChunkSize::K4);
            let node = volume.create(ROOT, name.as_bytes(), kind).unwrap();
            let unlinked = volume.unlink(ROOT, path.as_bytes(), Expected::Any, 0);
            assert_eq!(unlinked, Ok(node), "{}", path);
            assert!(names(&volume, ROOT).is_empty());
        }
    }
}

#[test]
fn unlink_asks_of_what_it_expects_behind_the_path() {
    let (mut volume, [folder, _, _]) = with_kinds();
    volume.create(folder, b"x", Kind::File).unwrap();
    let mut refused =
        |path: &[u8], expected| refusal(&mut volume, |v| v.unlink(ROOT, path, expected, 1));
    assert_eq!(refused(b"traces/", Expected::File), Error::IsDirectory);
    assert_eq!(refused(b"traces/", Expected::Any), Error::DirectoryNotEmpty);
    assert_eq!(
        refused(b"newest/", Expected::Directory),
        Error::NotDirectory
    );
    assert_eq!(refused(b"newest/", Expected::File), Error::Busy);
}

#[test]
fn an_open_file_keeps_its_last_name_only() {
    let (mut volume, file) = with_file();
    volume.link(ROOT, b"latest", file).unwrap();
    assert_eq!(volume.unlink(ROOT, b"latest", Expected::File, 3), Ok(file));
    assert_eq!(
        refusal(&mut volume, |v| v.unlink(
            ROOT,
            b"hood-7",
            Expected::File,
            3
        )),
        Error::Busy
    );
    assert_eq!(volume.unlink(ROOT, b"hood-7", Expected::File, 0), Ok(file));
}

#[test]
fn a_nameless_file_is_named_again() {
    let (mut volume, file) = with_file();
    volume.write(file, 0, b"0.52").unwrap();
    volume.unlink(ROOT, b"hood-7", Expected::File, 0).unwrap();
    assert_eq!(volume.link(ROOT, b"found", file), Ok(()));
    assert_eq!(content(&volume, file, 0, 4), b"0.52");
}

#[test]
fn remove_takes_a_node_away() {
    let (mut volume, file) = with_file();
    volume.write(file, 0, b"0.52").unwrap();
    volume.unlink(ROOT, b"hood-7", Expected::File, 0).unwrap();
    assert_eq!(volume.remove(file), Ok(()));
    assert_eq!(volume.geometry().unwrap().used.chunks, 0);
    assert_eq!(
        refusal(&mut volume, |v| v.read(file, 0, &mut [0])),
        Error::NoSuchEntry
    );
}

#[test]
fn a_nameless_folder_is_removed() {
    let (mut volume, folder) = with_nameless_folder();
    assert_eq!(volume.remove(folder), Ok(()));
}

#[test]
fn remove_is_refused() {
    let (mut volume, file) = with_file();
    assert_eq!(
        refusal(&mut volume, |v| v.remove(MISSING)),
        Error::NoSuchEntry
    );
    assert_eq!(refusal(&mut volume, |v| v.remove(file)), Error::Busy);
    assert_eq!(refusal(&mut volume, |v| v.remove(ROOT)), Error::Busy);
}

#[test]
fn next_entry_gives_the_least_index_from_one_on() {
    let (volume, folder) = with_folder();
    let second = Entry {
        index: 2,
        node: Node(3),
        name: b"hood-8",
    };
    assert_eq!(volume.next_entry(folder, 0).unwrap().index, 1);
    assert_eq!(volume.next_entry(folder, 1).unwrap().name, b"hood-7");
    assert_eq!(volume.next_entry(folder, 2), Ok(second));
}

#[test]
fn a_name_given_is_a_part_of_the_volume() {
    let (volume, folder) = with_folder();
    let name = volume.next_entry(folder, 0).unwrap().name.as_ptr_range();
    let bytes = volume.bytes().as_ptr_range();
    assert!(bytes.start <= name.start && name.end <= bytes.end);
}

#[test]
fn next_entry_is_refused() {
    let (mut volume, folder) = with_folder();
    let mut refused =
        |directory, from| refusal(&mut volume, |v| v.next_entry(directory, from).map(drop));
    assert_eq!(refused(MISSING, 0), Error::NoSuchEntry);
    assert_eq!(refused(Node(2), 0), Error::NotDirectory);
    assert_eq!(refused(folder, 3), Error::NoSuchEntry);
    assert_eq!(refused(folder, u32::MAX), Error::NoSuchEntry);
}

#[test]
fn entries_come_in_the_order_of_their_indexes() {
    let (mut volume, folder) = with_folder();
    volume.unlink(folder, b"hood-7", Expected::File, 0).unwrap();
    volume.link(folder, b"again", Node(2)).unwrap();
    volume.create(ROOT, b"between", Kind::File).unwrap();
    assert_eq!(names(&volume, folder), [&b"hood-8"[..], b"again"]);
    assert_eq!(names(&volume, ROOT), [&b"traces"[..], b"between"]);
}

#[test]
fn an_empty_directory_has_no_entries() {
    let volume = new_volume(ChunkSize::K4);
    assert_eq!(volume.entries(ROOT).count(), 0);
    let (volume, folder) = with_nameless_folder();
    assert_eq!(volume.entries(folder).count(), 0);
}

#[test]
fn entries_end_behind_the_last_index() {
    let (volume, file) = with_last_index();
    let mut entries = volume.entries(ROOT);
    let only = Entry {
        index: u32::MAX,
        node: file,
        name: b"hood-7",
    };
    assert_eq!(entries.next(), Some(Ok(only)));
    assert_eq!(entries.next(), None);
    assert_eq!(entries.next(), None);
}

#[test]
fn entries_give_a_refusal_once() {
    let (volume, file) = with_file();
    let refused = |directory| volume.entries(directory).take(2).collect::<Vec<_>>();
    assert_eq!(refused(MISSING), [Err(Error::NoSuchEntry)]);
    assert_eq!(refused(file), [Err(Error::NotDirectory)]);
    let broken = Volume::over(&[0; 100][..]);
    assert_eq!(
        broken.entries(ROOT).take(2).collect::<Vec<_>>(),
        [Err(Error::UnsoundMemory)]
    );
}
