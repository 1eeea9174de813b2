//! Search: a name in a directory, from an index on, a part of the entries at a time.

use lentilraft::{ChunkSize, Entry, Error, Expected, Kind, Node, Rooms, Search, Volume, ROOT};

use crate::helpers::{new_volume, refusal, with_bytes, with_file, Owned, ENTRY_INDEX, ENTRY_ROWS};
use crate::helpers::{MISSING, ROOMS};

const NO_LIMIT: u64 = u64::MAX;

/// The indexes of the folder below: two entries between them are gone.
const INDEXES: [u32; 5] = [1, 3, 4, 6, 7];

/// Names to search for: those of the folder, two that only its neighbours have, and others that are
/// nearly one of its own.
const NAMES: [&[u8]; 10] = [
    b"hood-1", b"hood-3", b"hood-4", b"hood-6", b"hood-7", b"hood-2", b"hood-5", b"hood-",
    b"hood-77", b"Hood-7",
];

/// A folder with five files, which have the numbers of their indexes in their names. The folders
/// before it and behind it have names of their own.
fn with_folder() -> (Owned, Node) {
    let rooms = Rooms {
        nodes: 16,
        entries: 16,
        chunks: 1,
    };
    let bytes = vec![0; rooms.least_length() as usize];
    let mut volume = Volume::new(bytes, rooms, ChunkSize::K4).unwrap();
    let folders = [b"a", b"b", b"c"].map(|name| volume.create(ROOT, name, Kind::Directory));
    let [before, folder, behind] = folders.map(|node| node.unwrap());
    for number in 1..=7 {
        let name = format!("hood-{}", number);
        volume.create(folder, name.as_bytes(), Kind::File).unwrap();
    }
    for name in [b"hood-2", b"hood-5"] {
        let file = volume.unlink(folder, name, Expected::File, 0).unwrap();
        volume.link(before, name, file).unwrap();
        volume.link(behind, name, file).unwrap();
    }
    let entries = volume.entries(folder).map(|entry| entry.unwrap().index);
    assert_eq!(entries.collect::<Vec<_>>(), INDEXES);
    (volume, folder)
}

fn searched(volume: &Owned, directory: Node, name: &[u8], from: u32, most: u64) -> Search {
    volume.search(directory, name, from, most).unwrap()
}

fn found(volume: &Owned, folder: Node, index: u32, looked: u64) -> Search {
    let node = volume.next_entry(folder, index).unwrap().node;
    Search::Found {
        index,
        node,
        looked,
    }
}

/// What a search is to give, by the entries that are there.
fn expected(volume: &Owned, directory: Node, name: &[u8], from: u32, most: u64) -> Search {
    let entries = volume.entries(directory).map(|entry| entry.unwrap());
    let entries: Vec<Entry> = entries.filter(|entry| entry.index >= from).collect();
    let end = entries.len().min(most.try_into().unwrap_or(usize::MAX));
    let (seen, left) = entries.split_at(end);
    let looked = end as u64;
    match (seen.iter().position(|entry| entry.name == name), left) {
        (Some(place), _) => Search::Found {
            index: seen[place].index,
            node: seen[place].node,
            looked: place as u64 + 1,
        },
        (None, []) => Search::Absent { looked },
        (None, [first, ..]) => Search::Stopped {
            index: first.index,
            looked,
        },
    }
}

#[test]
fn a_name_is_found_where_it_stands() {
    let (volume, folder) = with_folder();
    for (name, (index, looked)) in NAMES.into_iter().zip(INDEXES.into_iter().zip(1..)) {
        let entry = found(&volume, folder, index, looked);
        assert_eq!(searched(&volume, folder, name, 0, NO_LIMIT), entry);
    }
}

#[test]
fn a_limit_stops_a_search_before_the_name_only() {
    let (volume, folder) = with_folder();
    // It is the fourth of five.
    for (most, index) in (0..4).zip(INDEXES) {
        let stopped = Search::Stopped {
            index,
            looked: most,
        };
        assert_eq!(searched(&volume, folder, b"hood-6", 0, most), stopped);
    }
    let entry = found(&volume, folder, 6, 4);
    for most in [4, 5, 6, u64::from(u32::MAX) + 1, NO_LIMIT] {
        assert_eq!(searched(&volume, folder, b"hood-6", 0, most), entry);
    }
}

#[test]
fn a_limit_stops_a_search_before_the_end_only() {
    let (volume, folder) = with_folder();
    let stopped = Search::Stopped {
        index: 7,
        looked: 4,
    };
    assert_eq!(searched(&volume, folder, b"hood-2", 0, 4), stopped);
    for most in [5, 6, u64::from(u32::MAX) + 1, NO_LIMIT] {
        let absent = Search::Absent { looked: 5 };
        assert_eq!(searched(&volume, folder, b"hood-2", 0, most), absent);
    }
}

#[test]
fn every_search_is_what_the_entries_say() {
    let (volume, folder) = with_folder();
    for name in NAMES {
        for from in (0..=9).chain([u32::MAX]) {
            for most in (0..=7).chain([NO_LIMIT]) {
                assert_eq!(
                    searched(&volume, folder, name, from, most),
                    expected(&volume, folder, name, from, most),
                    "{} from {}, at most {}",
                    String::from_utf8_lossy(name),
                    from,
                    most
                );
            }
        }
    }
}

#[test]
fn a_search_begins_at_its_index() {
    let (volume, folder) = with_folder();
    let entry = found(&volume, folder, 3, 1);
    for from in [2, 3] {
        assert_eq!(searched(&volume, folder, b"hood-3", from, 1), entry);
    }
    let absent = Search::Absent { looked: 3 };
    assert_eq!(searched(&volume, folder, b"hood-3", 4, NO_LIMIT), absent);
}

#[test]
fn above_the_greatest_index_nothing_is_looked_at() {
    let (volume, folder) = with_folder();
    for from in [8, 9, u32::MAX] {
        for most in [0, 1, NO_LIMIT] {
            let absent = Search::Absent { looked: 0 };
            assert_eq!(searched(&volume, folder, b"hood-7", from, most), absent);
        }
    }
}

#[test]
fn a_limit_of_0_tells_the_first_entry() {
    let (volume, folder) = with_folder();
    for (from, index) in [(0, 1), (1, 1), (2, 3), (5, 6), (7, 7)] {
        let stopped = Search::Stopped { index, looked: 0 };
        assert_eq!(searched(&volume, folder, b"hood-1", from, 0), stopped);
    }
}

/// Goes on from where a search has stopped until it stops no more; what it has looked at in all.
fn to_the_end(volume: &Owned, folder: Node, name: &[u8], most: u64) -> Search {
    let (mut from, mut before) = (0, 0);
    loop {
        match searched(volume, folder, name, from, most) {
            Search::Stopped { index, looked } => {
                assert_eq!(looked, most);
                from = index;
                before += looked;
            }
            Search::Absent { looked } => {
                return Search::Absent {
                    looked: before + looked,
                }
            }
            Search::Found {
                index,
                node,
                looked,
            } => {
                return Search::Found {
                    index,
                    node,
                    looked: before + looked,
                }
            }
        }
    }
}

#[test]
fn parts_of_a_search_are_one_search() {
    let (volume, folder) = with_folder();
    for name in NAMES {
        for most in 1..=6 {
            assert_eq!(
                to_the_end(&volume, folder, name, most),
                searched(&volume, folder, name, 0, NO_LIMIT),
                "{}, {} at a time",
                String::from_utf8_lossy(name),
                most
            );
        }
    }
}

#[test]
fn an_empty_directory_has_no_name() {
    let mut volume = new_volume(ChunkSize::K4);
    let absent = Search::Absent { looked: 0 };
    for most in [0, 1, NO_LIMIT] {
        assert_eq!(searched(&volume, ROOT, b"hood-7", 0, most), absent);
    }
    let folder = volume.create(ROOT, b"old", Kind::Directory).unwrap();
    volume.unlink(ROOT, b"old", Expected::Directory, 0).unwrap();
    assert_eq!(searched(&volume, folder, b"hood-7", 0, 1), absent);
}

#[test]
fn the_last_index_is_searched_and_gone_on_from() {
    let (volume, file) = with_file();
    let index = u32::MAX;
    let volume = with_bytes(volume, ENTRY_ROWS + ENTRY_INDEX, &index.to_le_bytes());
    let stopped = Search::Stopped { index, looked: 0 };
    let found = Search::Found {
        index,
        node: file,
        looked: 1,
    };
    for from in [0, index] {
        assert_eq!(searched(&volume, ROOT, b"hood-7", from, 0), stopped);
        assert_eq!(searched(&volume, ROOT, b"hood-7", from, 1), found);
        let absent = Search::Absent { looked: 1 };
        assert_eq!(searched(&volume, ROOT, b"hood-8", from, 1), absent);
    }
}

#[test]
fn any_name_that_create_takes_is_searched_for() {
    let mut volume = new_volume(ChunkSize::K4);
    let longest = [0xff; 255];
    let names = [&b"..."[..], b".a", b" ", b"\0", b"\xc3\x28", &longest];
    for (name, index) in names.into_iter().zip(1..) {
        let absent = Search::Absent {
            looked: u64::from(index) - 1,
        };
        assert_eq!(searched(&volume, ROOT, name, 0, NO_LIMIT), absent);
        let found = Search::Found {
            index,
            node: volume.create(ROOT, name, Kind::File).unwrap(),
            looked: u64::from(index),
        };
        assert_eq!(searched(&volume, ROOT, name, 0, NO_LIMIT), found);
    }
}

#[test]
fn search_is_refused() {
    let (mut volume, file) = with_file();
    for (from, most) in [(0, 0), (0, 1), (u32::MAX, NO_LIMIT)] {
        let mut refused = |directory, name: &[u8]| {
            refusal(&mut volume, |v| v.search(directory, name, from, most))
        };
        assert_eq!(refused(MISSING, b""), Error::NoSuchEntry);
        assert_eq!(refused(file, b""), Error::NotDirectory);
        for name in [
            &b""[..],
            b".",
            b"..",
            b"a/b",
            b"/",
            b"hood-7/",
            &[b'a'; 256],
        ] {
            assert_eq!(refused(ROOT, name), Error::BadName);
        }
    }
    let mut broken = Volume::over(vec![0; ROOMS.least_length() as usize]);
    let error = refusal(&mut broken, |v| v.search(MISSING, b"", 0, 0));
    assert_eq!(error, Error::UnsoundMemory);
}
