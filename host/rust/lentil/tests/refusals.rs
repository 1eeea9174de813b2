//! Every refusal that a command can meet: its message, exit code 1, and the volume's file left as it
//! was, byte for byte and in its times.

mod common;

use std::fs;
use std::os::unix::fs::symlink;

use common::{noise, Place};

/// Where things stand in the small volume, which has 16 rows of each kind.
const NEXT_NODE: usize = 56;
const ENTRY_ROWS: usize = 64 + 128 + 8 * 16 + 40 * 16;
const INDEX: usize = ENTRY_ROWS + 16;
const NAME: usize = ENTRY_ROWS + 24;

/// A folder `d`, a file `d/f` in it, a second one `g`, and files of the host.
fn place(test: &str) -> Place {
    let place = Place::with_volume(test);
    place.run(["mkdir", "v", "d"]).done();
    place.feed(&["put", "v", "d/f"], b"0123456789").done();
    place.feed(&["put", "v", "g"], b"g").done();
    place.make_file("one", b"1");
    place
}

#[test]
fn what_is_no_volume_is_refused_by_each_command_and_stays() {
    let place = place("unsound");
    let sound = place.bytes("v");
    fs::create_dir(place.path("folder")).unwrap();
    let mut broken = sound.clone();
    broken[0] ^= 1;
    let cases: [&[u8]; 4] = [b"", b"a letter\n", &broken, &sound[..sound.len() - 65536]];
    let commands: [&[&str]; 16] = [
        &["check", "v"],
        &["report", "v"],
        &["ls", "v"],
        &["ls", "-l", "v", "d"],
        &["tree", "v"],
        &["search", "v", "d", "f"],
        &["map", "v", "--svg", "picture"],
        &["get", "v", "g", "out"],
        &["export", "v", "out"],
        &["mkdir", "v", "e"],
        &["put", "v", "g", "one"],
        &["cut", "v", "g", "0"],
        &["limit", "v", "g", "5"],
        &["ln", "v", "g", "h"],
        &["rm", "-r", "v", "d"],
        &["import", "v", "folder"],
    ];
    for bytes in cases {
        place.make_file("v", bytes);
        commands
            .iter()
            .for_each(|words| place.refuses(words, "v: unsound memory (1)"));
    }
    place.refuses(
        &["new", "v"],
        "v: is there already, and --force would replace it",
    );
}

#[test]
fn a_long_file_that_is_no_volume_is_not_read() {
    let place = Place::new("long_file");
    let file = fs::File::create(place.path("long")).unwrap();
    file.set_len(1 << 40).unwrap();
    place
        .run(["ls", "long"])
        .refused("long: unsound memory (1)");
    place
        .run(["mkdir", "long", "a"])
        .refused("long: unsound memory (1)");
    assert_eq!(file.metadata().unwrap().len(), 1 << 40);
}

#[test]
fn nodes_and_entries_that_are_not_there() {
    let place = place("no_such");
    for command in ["ls", "tree", "map", "get", "rm", "export"] {
        let out: &[&str] = if command == "export" { &["out"] } else { &[] };
        let words = [&[command, "v", "traces/hood7"], out].concat();
        place.refuses(&words, "traces/hood7: no such node or entry (2)");
    }
    place.refuses(&["search", "v", "x", "f"], "x: no such node or entry (2)");
    place.refuses(&["cut", "v", "x", "1"], "x: no such node or entry (2)");
    place.refuses(&["limit", "v", "x", "1"], "x: no such node or entry (2)");
    place.refuses(&["ln", "v", "x", "y"], "x: no such node or entry (2)");
    place.refuses(&["ln", "v", "g", "x/y"], "x/y: no such node or entry (2)");
    place.refuses(&["mkdir", "v", "x/y"], "x/y: no such node or entry (2)");
    place.refuses(
        &["put", "v", "x/y", "one"],
        "x/y: no such node or entry (2)",
    );
    place.refuses(
        &["get", "v", "g/below"],
        "g/below: no such node or entry (2)",
    );
    place.refuses(&["rm", "-r", "v", "x"], "x: no such node or entry (2)");
}

#[test]
fn directories_and_files_in_each_others_place() {
    let place = place("kinds");
    place.refuses(&["get", "v", "d", "out"], "d: is a directory (3)");
    place.refuses(&["get", "v", ""], "'': is a directory (3)");
    place.refuses(&["put", "v", "d", "one"], "d: is a directory (3)");
    place.refuses(
        &["put", "v", "d", "one", "--at", "5"],
        "d: is a directory (3)",
    );
    place.refuses(&["cut", "v", "d", "0"], "d: is a directory (3)");
    place.refuses(&["limit", "v", ".", "9"], ".: is a directory (3)");
    place.refuses(&["ln", "v", "d", "e"], "e: is a directory (3)");
    place.refuses(&["tree", "v", "g"], "g: not a directory (4)");
    place.refuses(&["search", "v", "g", "/"], "g: not a directory (4)");
    place.refuses(&["export", "v", "g", "out"], "g: not a directory (4)");
    place.refuses(&["mkdir", "v", "g/x"], "g/x: not a directory (4)");
    place.refuses(&["put", "v", "g/x", "one"], "g/x: not a directory (4)");
    place.refuses(&["ln", "v", "d/f", "g/x"], "g/x: not a directory (4)");
}

#[test]
fn a_path_that_means_a_folder_leads_to_no_file() {
    let place = place("folder_path");
    for path in ["g/", "g//", "g/.", "g/x/..", "./d/../g/x/../"] {
        let message = format!("{}: not a directory (4)", path);
        let refused = |words: &[&str]| place.refuses(words, &message);
        for command in ["ls", "tree", "map", "get", "rm"] {
            refused(&[command, "v", path]);
        }
        refused(&["ls", "-l", "v", path]);
        refused(&["search", "v", path, "f"]);
        refused(&["map", "v", path, "--svg", "picture"]);
        refused(&["get", "v", path, "out"]);
        refused(&["put", "v", path, "one"]);
        refused(&["put", "v", path, "one", "--at", "5"]);
        refused(&["cut", "v", path, "0"]);
        refused(&["limit", "v", path, "9"]);
        refused(&["limit", "v", path, "none"]);
        refused(&["ln", "v", path, "h"]);
        refused(&["ln", "v", "d/f", path]);
        refused(&["rm", "-r", "v", path]);
        refused(&["export", "v", path, "out"]);
    }
}

#[test]
fn a_path_that_means_a_folder_makes_no_file() {
    let place = place("folder_path_new");
    for path in ["x/", "x//", "x/.", "x/y/..", "d/x/", "x/y/", "g/x/"] {
        let reason = "no such folder, and a file's path ends with its name";
        let message = format!("{}: {}", path, reason);
        place.refuses(&["put", "v", path, "one"], &message);
        place.refuses(&["put", "v", path, "one", "--at", "5"], &message);
        place.refuses(&["put", "v", path, "one", "--sparse"], &message);
        place.refuses(&["ln", "v", "g", path], &message);
    }
    for path in ["d/", "d/.", "x/.."] {
        let message = format!("{}: is a directory (3)", path);
        place.refuses(&["put", "v", path, "one"], &message);
    }
    place.refuses(&["ln", "v", "g", "d/"], "d/: name exists (10)");
}

#[test]
fn a_folder_is_not_made_where_a_file_is() {
    let place = place("folder_on_file");
    fs::create_dir(place.path("in")).unwrap();
    for path in ["g", "g/", "g//"] {
        let message = format!("{}: name exists (10)", path);
        place.refuses(&["mkdir", "v", path], &message);
        place.refuses(&["mkdir", "-p", "v", path], &message);
        place.refuses(&["import", "v", "in", path], &message);
    }
    place.refuses(&["mkdir", "v", "g/."], "g/.: not a directory (4)");
    place.refuses(&["mkdir", "v", "g/x/"], "g/x/: not a directory (4)");
    place.refuses(&["mkdir", "v", "x/."], "x/.: no such node or entry (2)");
    place.refuses(&["mkdir", "v", "x/y/"], "x/y/: no such node or entry (2)");
}

#[test]
fn files_that_would_be_too_large() {
    let place = place("too_large");
    place.run(["limit", "v", "g", "10"]).done();
    place.make_file("many", &noise(1, 11));
    place.refuses(&["put", "v", "g", "many"], "g: file too large (5)");
    place.refuses(
        &["put", "v", "g", "one", "--at", "10"],
        "g: file too large (5)",
    );
    place.refuses(&["cut", "v", "g", "11"], "g: file too large (5)");
    place.refuses(&["limit", "v", "g", "0"], "g: file too large (5)");
    place.refuses(
        &["put", "v", "x", "one", "--at", "1024G"],
        "x: file too large (5)",
    );
    let last = "18446744073709551615";
    place.refuses(
        &["put", "v", "x", "one", "--at", last],
        "x: file too large (5)",
    );
    place.refuses(&["cut", "v", "d/f", last], "d/f: file too large (5)");
}

#[test]
fn no_room_for_chunks() {
    let place = place("no_room");
    place.make_file("many", &noise(1, 15 * 4096));
    fs::create_dir(place.path("in")).unwrap();
    fs::rename(place.path("many"), place.path("in/many")).unwrap();
    place.refuses(&["put", "v", "x", "in/many"], "x: no chunk room (6)");
    place.refuses(
        &["put", "v", "d/f", "in/many", "--at", "4095"],
        "d/f: no chunk room (6)",
    );
    place.refuses(&["import", "v", "in"], "many: no chunk room (6)");
    place.refuses(
        &["import", "v", "in", "d", "--sparse"],
        "d/many: no chunk room (6)",
    );
    // An input without an end.
    place.refuses(&["put", "v", "x", "/dev/zero"], "x: no chunk room (6)");
}

const NO_ROWS: &str = "node or entry rows used up, or next node is u64::MAX (7)";

#[test]
fn no_room_for_rows() {
    let place = place("no_rows");
    for name in "0123456789ab".chars() {
        place.run(["mkdir", "v", &format!("d/{}", name)]).done();
    }
    place.run(["ln", "v", "g", "last"]).done();
    let full = |path: &str| format!("{}: {}", path, NO_ROWS);
    place.refuses(&["mkdir", "v", "x"], &full("x"));
    place.refuses(&["put", "v", "x", "one"], &full("x"));
    place.refuses(&["ln", "v", "g", "x"], &full("x"));
    place.refuses(&["mkdir", "-p", "v", "x/y"], &full("x/y"));
    fs::create_dir_all(place.path("in/sub")).unwrap();
    place.refuses(&["import", "v", "in"], &full("sub"));
}

#[test]
fn no_node_number_and_no_index_left() {
    let place = place("no_number");
    place.patch("v", NEXT_NODE, &[0xff; 8]);
    place.refuses(&["mkdir", "v", "x"], &format!("x: {}", NO_ROWS));
    let place = Place::with_volume("no_index");
    place.run(["mkdir", "v", "d"]).done();
    place.feed(&["put", "v", "d/f"], b"").done();
    place.patch("v", INDEX, &[0xff; 4]);
    place.refuses(
        &["mkdir", "v", "x"],
        "x: directory's greatest index is u32::MAX (14)",
    );
    place.refuses(
        &["ln", "v", "d/f", "x"],
        "x: directory's greatest index is u32::MAX (14)",
    );
    place.run(["mkdir", "v", "d/x"]).done();
}

#[test]
fn paths_and_names_that_are_not_allowed() {
    let place = place("paths");
    for path in ["/", "/d/f", "..", "d/../.."] {
        let message = format!("{}: path not permitted (8)", path);
        for command in ["ls", "tree", "map", "get", "rm", "mkdir"] {
            place.refuses(&[command, "v", path], &message);
        }
        place.refuses(&["mkdir", "-p", "v", path], &message);
        place.refuses(&["put", "v", path, "one"], &message);
        place.refuses(&["ln", "v", "g", path], &message);
        place.refuses(&["search", "v", path, "f"], &message);
        place.refuses(&["import", "v", ".", path], &message);
        place.refuses(&["export", "v", path, "out"], &message);
    }
    for path in ["", ".", "d/.."] {
        let shown = if path.is_empty() { "''" } else { path };
        place.refuses(
            &["rm", "-r", "v", path],
            &format!("{}: path not permitted (8)", shown),
        );
    }
    let long = "n".repeat(256);
    for name in [".", "d/..", long.as_str()] {
        place.refuses(&["mkdir", "v", name], &format!("{}: bad name (9)", name));
    }
    for name in [".", "..", "d/f", "f/", long.as_str()] {
        let message = format!("{}: bad name (9)", name);
        place.refuses(&["search", "v", "d", name], &message);
    }
    place.refuses(&["search", "v", "d", ""], "'': bad name (9)");
    place.refuses(
        &["put", "v", &long, "one"],
        &format!("{}: bad name (9)", long),
    );
    let longer = "d/".repeat(2049);
    place.refuses(
        &["put", "v", &longer, "one"],
        &format!("{}: invalid argument (13)", longer),
    );
    place.refuses(
        &["mkdir", "v", &longer],
        &format!("{}: invalid argument (13)", longer),
    );
    place.refuses(&["get", "v", "a\tb"], "$'a\\tb': no such node or entry (2)");
}

#[test]
fn names_that_exist_folders_that_are_full_and_limits_too_high() {
    let place = place("others");
    place.refuses(&["mkdir", "v", "d"], "d: name exists (10)");
    place.refuses(&["mkdir", "-p", "v", "g/x"], "g/x: name exists (10)");
    place.refuses(&["ln", "v", "g", "d/f"], "d/f: name exists (10)");
    place.refuses(&["rm", "v", "d"], "d: directory not empty (11)");
    place.refuses(
        &["limit", "v", "g", "1099511627777"],
        "g: invalid argument (13)",
    );
    fs::create_dir_all(place.path("in/g")).unwrap();
    place.refuses(&["import", "v", "in"], "g: name exists (10)");
    place.make_file("in/f", b"new");
    place.refuses(&["import", "v", "in", "d"], "d/f: name exists (10)");
}

#[test]
fn files_of_the_host_that_are_not_what_they_should_be() {
    let place = place("host");
    let no_file = "No such file or directory";
    place.refuses(&["put", "v", "x", "none"], &format!("none: {}", no_file));
    place.refuses(&["put", "v", "x", "."], ".: is a folder");
    place.refuses(&["import", "v", "none"], &format!("none: {}", no_file));
    place.refuses(&["import", "v", "one"], "one: Not a directory");
    place.refuses(
        &["get", "v", "g", "none/out"],
        &format!("none/out: {}", no_file),
    );
    place.refuses(&["get", "v", "g", "."], ".: Is a directory");
    place.refuses(&["get", "v", "g", "v"], "v: is the volume itself");
    symlink("v", place.path("link")).unwrap();
    place.refuses(&["map", "v", "--svg", "link"], "link: is the volume itself");
    place.refuses(&["export", "v", "."], ".: is not empty");
    place.refuses(&["export", "v", "one"], "one: Not a directory");
    place.refuses(
        &["export", "v", "none/out"],
        &format!("none/out: {}", no_file),
    );
    place.refuses(&["check", "none"], &format!("none: {}", no_file));
    place.refuses(&["mkdir", "none", "x"], &format!("none: {}", no_file));
    place.refuses(&["new", "none/w"], &format!("none/w: {}", no_file));
    place.refuses(&["check", "."], ".: is not an ordinary file");
    place.refuses(
        &["mkdir", "/dev/null", "x"],
        "/dev/null: is not an ordinary file",
    );
    place.refuses(&["new", ".", "--force"], ".: is not an ordinary file");
}

#[test]
fn an_import_of_something_else_than_files() {
    let place = place("import_pipe");
    fs::create_dir(place.path("in")).unwrap();
    place.make_file("in/a", b"a");
    place.shell("mkfifo in/b").done();
    place.refuses(
        &["import", "v", "in"],
        "in/b: is no file, folder or symbolic link",
    );
}

#[test]
fn an_export_that_fails_leaves_nothing() {
    let place = place("export_fails");
    // The host has no names with a zero byte in them; the volume may.
    place.run(["mkdir", "v", "last"]).done();
    place.run(["mkdir", "v", "last/in"]).done();
    let name = place
        .bytes("v")
        .windows(2)
        .rposition(|bytes| bytes == b"in")
        .unwrap();
    assert!(name > NAME);
    place.patch("v", name, b"\0n");
    let state = place.state("v");
    let answer = place.run(["export", "v", "out"]);
    assert_eq!(answer.code, Some(1));
    assert!(
        answer.err.starts_with("lentil: $'out/last/\\x00n': "),
        "{}",
        answer.err
    );
    assert!(state == place.state("v"));
    assert_eq!(place.names(), ["one", "v"]);
}
