//! Each command, carried out.

mod common;

use std::ffi::OsStr;
use std::fs;
use std::os::unix::ffi::OsStrExt;
use std::os::unix::fs::{symlink, MetadataExt};
use std::path::Path;

use common::{noise, Place};

#[test]
fn new_makes_a_sound_volume_that_takes_little_room() {
    let place = Place::new("new");
    place.run(["new", "v"]).done();
    let metadata = fs::metadata(place.path("v")).unwrap();
    assert_eq!(metadata.len(), 64 << 20);
    assert!(
        metadata.blocks() * 512 < 1 << 20,
        "{} blocks",
        metadata.blocks()
    );
    assert_eq!(place.run(["check", "v"]).text(), "sound\n");
    assert_eq!(place.names(), ["v"]);
}

#[test]
fn new_takes_rooms_and_chunk_size() {
    let place = Place::with_volume("new_rooms");
    let expected = 192 + 16 * (40 + 280 + 32) + 16 * 4096;
    assert_eq!(place.bytes("v").len(), expected);
    let report = "format=1\nchunk_size=4096\nchunk_shift=12\nnodes=1\nentries=0\nchunks=0\n\
                  free=0\nnext_ptr=0\nnext_node=1\n";
    assert_eq!(place.run(["report", "v"]).text(), report);
    place
        .run(["new", "w", "--size=100k", "--chunk-size", "64k"])
        .done();
    assert_eq!(place.bytes("w").len(), 100 << 10);
}

#[test]
fn each_chunk_size_keeps_what_was_put() {
    let place = Place::new("chunk_sizes");
    for shift in 12..=16 {
        keeps_what_was_put(&place, shift);
    }
}

/// Bytes behind a gap, on a volume with chunks of 2^shift bytes, read back; cut and extended again.
fn keeps_what_was_put(place: &Place, shift: u64) {
    let span = 1 << shift;
    let (volume, gap) = (&format!("{}k", span >> 10), 3 * span + 777);
    let mut bytes = vec![0; gap];
    bytes.extend(noise(shift, span));
    place
        .run(["new", volume, "--chunks", "8", "--chunk-size", volume])
        .done();
    let at = gap.to_string();
    place
        .feed(&["put", volume, "a", "--at", &at], &bytes[gap..])
        .done();
    assert!(place.run(["get", volume, "a"]).done() == bytes);
    for size in [gap + 5, bytes.len()] {
        place.run(["cut", volume, "a", &size.to_string()]).done();
    }
    bytes[gap + 5..].fill(0);
    assert!(place.run(["get", volume, "a"]).done() == bytes);
    assert_eq!(place.run(["check", volume]).text(), "sound\n");
    let report = format!(
        "format=1\nchunk_size={}\nchunk_shift={}\nnodes=2\nentries=1\nchunks=1\n\
         free=1\nnext_ptr={}\nnext_node=2\n",
        span,
        shift,
        2 * span
    );
    assert_eq!(place.run(["report", volume]).text(), report);
}

#[test]
fn new_replaces_with_force_alone() {
    let place = Place::new("new_force");
    place.make_file("v", b"a letter");
    place.refuses(
        &["new", "v"],
        "v: is there already, and --force would replace it",
    );
    place.run(["new", "v", "--force"]).done();
    place.run(["check", "v"]).done();
    place.run(["mkdir", "v", "a"]).done();
    place.run(["new", "--force", "v"]).done();
    assert_eq!(place.run(["ls", "v"]).text(), "");
}

#[test]
fn put_and_get_give_back_what_was_put() {
    let place = Place::with_volume("put_get");
    let bytes = noise(1, 10_000);
    place.make_file("run1", &bytes);
    place.run(["put", "v", "a", "run1"]).done();
    assert_eq!(place.run(["get", "v", "a"]).done(), bytes);
    place.feed(&["put", "v", "b", "-"], b"hello").done();
    assert_eq!(place.run(["get", "v", "b", "-"]).text(), "hello");
    place.feed(&["put", "v", "b"], b"ab").done();
    assert_eq!(place.run(["get", "v", "b"]).text(), "ab");
    place.run(["put", "v", "b", "/dev/null"]).done();
    assert_eq!(place.run(["ls", "-l", "v", "b"]).text(), "- 1 0 - b\n");
}

#[test]
fn put_at_an_offset_keeps_the_other_bytes() {
    let place = Place::with_volume("put_at");
    place.feed(&["put", "v", "a"], b"0123456789").done();
    place
        .feed(&["put", "v", "a", "-", "--at", "3"], b"xyz")
        .done();
    assert_eq!(place.run(["get", "v", "a"]).text(), "012xyz6789");
    place.feed(&["put", "--at=1M", "v", "a"], b"end").done();
    let all = place.run(["get", "v", "a"]).done();
    assert_eq!(all.len(), (1 << 20) + 3);
    assert!(all[10..1 << 20].iter().all(|byte| *byte == 0));
    assert_eq!(place.run(["get", "v", "a", "--at", "1M"]).text(), "end");
    assert!(place.run(["report", "v"]).text().contains("chunks=2\n"));
    place
        .run(["put", "v", "a", "/dev/null", "--at", "18446744073709551615"])
        .done();
}

#[test]
fn get_takes_a_stretch() {
    let place = Place::with_volume("get_stretch");
    place.feed(&["put", "v", "a"], b"0123456789").done();
    let get = |words: &[&str]| place.run(["get", "v", "a"].iter().chain(words)).text();
    assert_eq!(get(&["--at", "3", "--count", "4"]), "3456");
    assert_eq!(get(&["--at", "8", "--count", "4"]), "89");
    assert_eq!(get(&["--count", "18446744073709551615", "--at", "9"]), "9");
    assert_eq!(get(&["--at", "10"]), "");
    assert_eq!(get(&["--at", "18446744073709551615"]), "");
    assert_eq!(get(&["--count", "0"]), "");
}

#[test]
fn get_writes_files_and_pipes() {
    let place = Place::with_volume("get_file");
    place.feed(&["put", "v", "a"], b"abc").done();
    place.run(["get", "v", "a", "out"]).done();
    assert_eq!(place.bytes("out"), b"abc");
    place.make_file("old", b"a longer text");
    symlink("old", place.path("link")).unwrap();
    place.run(["get", "v", "a", "link"]).done();
    assert_eq!(place.bytes("old"), b"abc");
    place.run(["get", "v", "a", "/dev/null"]).done();
    assert_eq!(
        place.shell("\"$@\" get v a /dev/stdout | cat").text(),
        "abc"
    );
    assert_eq!(place.names(), ["link", "old", "out", "v"]);
}

#[test]
fn sparse_files_go_in_and_out_with_their_gaps() {
    let place = Place::with_volume("put_sparse");
    let mut bytes = vec![0; 20_000];
    bytes[9000] = 1;
    place.make_file("in", &bytes);
    place.run(["put", "--sparse", "v", "a", "in"]).done();
    place.feed(&["put", "--sparse", "v", "b"], &bytes).done();
    assert!(place.run(["report", "v"]).text().contains("chunks=2\n"));
    assert_eq!(place.run(["get", "v", "a"]).done(), bytes);
    assert_eq!(place.run(["get", "v", "b"]).done(), bytes);
    place
        .run(["get", "v", "a", "out", "--sparse", "--at", "100"])
        .done();
    assert_eq!(place.bytes("out"), bytes[100..]);
    place
        .run(["get", "v", "a", "out", "--sparse", "--count", "0"])
        .done();
    assert_eq!(place.bytes("out"), b"");
}

#[test]
fn cut_cuts_and_extends() {
    let place = Place::with_volume("cut");
    place.feed(&["put", "v", "a"], b"0123456789").done();
    place.run(["cut", "v", "a", "4"]).done();
    place.run(["cut", "v", "a", "6"]).done();
    assert_eq!(place.run(["get", "v", "a"]).done(), b"0123\0\0");
    place.run(["cut", "v", "a", "1024G"]).done();
    assert_eq!(
        place.run(["ls", "-l", "v"]).text(),
        "- 1 1099511627776 - a\n"
    );
}

#[test]
fn cut_needs_no_room() {
    let place = Place::with_volume("cut_full");
    place.make_file("all", &noise(1, 16 * 4096));
    place.run(["put", "v", "full", "all"]).done();
    place.feed(&["put", "v", "sparse"], b"").done();
    for size in ["40000", "20000", "40000"] {
        place.run(["cut", "v", "sparse", size]).done();
    }
    assert_eq!(place.run(["get", "v", "sparse"]).done(), [0; 40_000]);
    assert!(place.run(["report", "v"]).text().contains("chunks=16\n"));
}

#[test]
fn limits_are_set_and_taken_back() {
    let place = Place::with_volume("limit");
    place.feed(&["put", "v", "a"], b"0123").done();
    place.run(["limit", "v", "a", "1k"]).done();
    assert_eq!(place.run(["ls", "-l", "v"]).text(), "- 1 4 1024 a\n");
    place.refuses(&["cut", "v", "a", "1025"], "a: file too large (5)");
    place.run(["limit", "v", "a", "none"]).done();
    place.run(["cut", "v", "a", "1025"]).done();
}

#[test]
fn names_are_made_listed_and_taken_away() {
    let place = Place::with_volume("names");
    place.run(["mkdir", "v", "traces"]).done();
    place.run(["mkdir", "-p", "v", "traces/old/2023/"]).done();
    place.run(["mkdir", "-p", "v", "traces/old"]).done();
    place
        .feed(&["put", "v", "traces/hood7"], b"0123456789")
        .done();
    place.run(["ln", "v", "traces/hood7", "./same"]).done();
    assert_eq!(place.run(["ls", "v"]).text(), "traces\nsame\n");
    assert_eq!(
        place.run(["ls", "v", "traces/../same"]).text(),
        "traces/../same\n"
    );
    let long = "d 1  1 - old\n- 2 10 - hood7\n";
    assert_eq!(place.run(["ls", "v", "traces", "-l"]).text(), long);
    let tree = ".\n|-- traces/\n|   |-- old/\n|   |   `-- 2023/\n|   `-- hood7\n`-- same\n";
    assert_eq!(place.run(["tree", "v"]).text(), tree);
    assert_eq!(
        place.run(["tree", "v", "traces/old"]).text(),
        "traces/old\n`-- 2023/\n"
    );
    place.run(["rm", "v", "traces/hood7"]).done();
    assert_eq!(place.run(["get", "v", "same"]).text(), "0123456789");
    place.run(["rm", "v", "traces/old/2023"]).done();
    place.run(["rm", "v", "same"]).done();
    let report = place.run(["report", "v"]).text();
    assert!(
        report.contains("nodes=3\nentries=2\nchunks=0\nfree=1\n"),
        "{}",
        report
    );
}

#[test]
fn a_path_that_means_a_folder_leads_to_one() {
    let place = Place::with_volume("folder_slash");
    place.run(["mkdir", "v", "d/"]).done();
    place.run(["mkdir", "v", "d/e//"]).done();
    place.run(["mkdir", "-p", "v", "x/y/."]).done();
    place.feed(&["put", "v", "d//e/f"], b"f").done();
    for path in ["d/e/", "d/e//", "d/e/.", "d/e/x/.."] {
        assert_eq!(place.run(["ls", "v", path]).text(), "f\n");
        assert_eq!(place.run(["ls", "-l", "v", path]).text(), "- 1 1 - f\n");
        let tree = format!("{}\n`-- f\n", path);
        assert_eq!(place.run(["tree", "v", path]).text(), tree);
        let map = place.run(["map", "v", path]).text();
        assert!(map.starts_with("f  #"), "{}", map);
        place
            .run(["search", "v", path, "f"])
            .ended(0, "found: node 5, index 1, looked at 1\n");
    }
    place.run(["rm", "v", "x/y/"]).done();
    place.run(["rm", "-r", "v", "d/"]).done();
    assert_eq!(place.run(["tree", "v"]).text(), ".\n`-- x/\n");
}

#[test]
fn folders_go_in_and_out_by_a_path_with_a_slash() {
    let place = Place::with_volume("folders_slash");
    fs::create_dir_all(place.path("in/deep")).unwrap();
    place.make_file("in/deep/a", b"a");
    for path in ["new/", "new/deeper/."] {
        place.run(["import", "v", "in/", path]).done();
        place.run(["export", "v", path, "out/"]).done();
        assert_eq!(place.bytes("out/deep/a"), b"a");
        fs::remove_dir_all(place.path("out")).unwrap();
    }
    let tree = ".\n`-- new/\n    |-- deep/\n    |   `-- a\n    `-- deeper/\n        `-- deep/\n            `-- a\n";
    assert_eq!(place.run(["tree", "v"]).text(), tree);
}

#[test]
fn a_symbolic_link_is_not_followed_by_a_slash() {
    let place = Place::with_volume("link_slash");
    fs::create_dir(place.path("in")).unwrap();
    symlink("d", place.path("in/link")).unwrap();
    place.run(["import", "v", "in"]).done();
    place.run(["mkdir", "v", "d"]).done();
    for path in ["link", "link/", "link/."] {
        assert_eq!(place.run(["get", "v", path]).text(), "d");
        let line = format!("l 1 1 - {} -> d\n", path);
        assert_eq!(place.run(["ls", "-l", "v", path]).text(), line);
    }
    place.run(["rm", "v", "link/"]).done();
    assert_eq!(place.run(["ls", "v"]).text(), "d\n");
}

/// A folder `d` with the files a to e, of which c was taken away: their indexes are 1, 2, 4 and 5.
fn place_to_search(test: &str) -> Place {
    let place = Place::with_volume(test);
    place.run(["mkdir", "v", "d"]).done();
    for path in ["d/a", "d/b", "d/c", "d/d", "d/e"] {
        place.feed(&["put", "v", path], b"").done();
    }
    place.run(["rm", "v", "d/c"]).done();
    place
}

#[test]
fn search_tells_where_a_name_stands() {
    let place = place_to_search("search");
    let search = |words: &[&str]| place.run(["search", "v"].iter().chain(words));
    let state = place.state("v");
    search(&["d", "a"]).ended(0, "found: node 2, index 1, looked at 1\n");
    search(&["d", "d"]).ended(0, "found: node 5, index 4, looked at 3\n");
    search(&["d", "c"]).ended(3, "absent: looked at 4\n");
    search(&[".", "d"]).ended(0, "found: node 1, index 1, looked at 1\n");
    search(&["", "a"]).ended(3, "absent: looked at 1\n");
    search(&["./d//", "e"]).ended(0, "found: node 6, index 5, looked at 4\n");
    assert!(state == place.state("v"));
    assert_eq!(place.names(), ["v"]);
}

#[test]
fn search_begins_at_an_index() {
    let place = place_to_search("search_from");
    let search = |name, from| place.run(["search", "v", "d", name, "--from", from]);
    for from in ["3", "4"] {
        search("d", from).ended(0, "found: node 5, index 4, looked at 1\n");
    }
    search("a", "2").ended(3, "absent: looked at 3\n");
    for from in ["6", "4294967295"] {
        search("a", from).ended(3, "absent: looked at 0\n");
    }
}

#[test]
fn search_stops_at_its_limit() {
    let place = place_to_search("search_most");
    let search = |name, most| place.run(["search", "v", "d", name, "--most", most]);
    search("d", "0").ended(4, "stopped: looked at 0, go on with --from 1\n");
    search("d", "1").ended(4, "stopped: looked at 1, go on with --from 2\n");
    search("d", "2").ended(4, "stopped: looked at 2, go on with --from 4\n");
    for most in ["3", "4", "18446744073709551615"] {
        search("d", most).ended(0, "found: node 5, index 4, looked at 3\n");
    }
    search("c", "3").ended(4, "stopped: looked at 3, go on with --from 5\n");
    search("c", "4").ended(3, "absent: looked at 4\n");
    let last = place.run(["search", "v", "d", "c", "--from=5", "--most=1"]);
    last.ended(3, "absent: looked at 1\n");
}

#[test]
fn search_goes_on_by_the_last_word_that_it_wrote() {
    let place = place_to_search("search_on");
    let script = "from=0
        while
            answer=$(\"$@\" search v d e --most 1 --from $from)
            code=$?
            echo \"$code $answer\"
            [ $code -eq 4 ]
        do
            from=${answer##* }
        done";
    let expected = "\
4 stopped: looked at 1, go on with --from 2
4 stopped: looked at 1, go on with --from 4
4 stopped: looked at 1, go on with --from 5
0 found: node 6, index 5, looked at 1
";
    assert_eq!(place.shell(script).text(), expected);
}

#[test]
fn search_takes_any_name() {
    let place = Place::with_volume("search_any");
    place.run(["mkdir", "v", "--", "-p"]).done();
    place
        .run(["search", "v", ".", "--", "-p"])
        .ended(0, "found: node 1, index 1, looked at 1\n");
    let odd = OsStr::from_bytes(b"\xff\n'");
    place
        .run([OsStr::new("mkdir"), OsStr::new("v"), odd])
        .done();
    place
        .run(["search", "v", "."].map(OsStr::new).iter().chain(&[odd]))
        .ended(0, "found: node 2, index 2, looked at 2\n");
}

#[test]
fn rm_takes_a_folder_with_all_below_it() {
    let place = Place::with_volume("rm_all");
    place.run(["mkdir", "-p", "v", "a/b/c"]).done();
    place.feed(&["put", "v", "a/b/x"], b"x").done();
    place.run(["ln", "v", "a/b/x", "a/y"]).done();
    place.run(["ln", "v", "a/b/x", "z"]).done();
    place.run(["rm", "-r", "v", "a"]).done();
    assert_eq!(place.run(["ls", "-l", "v"]).text(), "- 1 1 - z\n");
    place.run(["rm", "-r", "v", "z"]).done();
    assert!(place
        .run(["report", "v"])
        .text()
        .contains("nodes=1\nentries=0\n"));
}

#[test]
fn folders_go_in_and_out_as_they_were() {
    let place = Place::with_volume("folders");
    fs::create_dir_all(place.path("in/deep/er")).unwrap();
    place.make_file("in/b", &noise(2, 9000));
    place.make_file("in/deep/empty", b"");
    let odd = OsStr::from_bytes(b"\xff\n'");
    place.make_file(Path::new("in/deep").join(odd), b"odd");
    symlink("../b", place.path("in/deep/link")).unwrap();
    fs::hard_link(place.path("in/b"), place.path("in/deep/er/b")).unwrap();
    place.run(["import", "v", "in", "host/x"]).done();
    assert_eq!(place.run(["ls", "v", "host/x"]).text(), "b\ndeep\n");
    place.run(["export", "v", "host/x", "out"]).done();
    assert!(place
        .shell("diff -r --no-dereference in out")
        .done()
        .is_empty());
    let (one, other) = (place.path("out/b"), place.path("out/deep/er/b"));
    assert_eq!(
        fs::metadata(one).unwrap().ino(),
        fs::metadata(other).unwrap().ino()
    );
    let long = place.run(["ls", "-l", "v", "host/x/deep"]).done();
    let expected = b"- 1 0 - empty\nd 1 1 - er\nl 1 4 - link -> ../b\n- 1 3 - \xff\n'\n";
    assert_eq!(long, expected);
}

#[test]
fn import_adds_to_folders_that_are_there() {
    let place = Place::with_volume("import_more");
    fs::create_dir_all(place.path("in/d")).unwrap();
    place.make_file("in/d/x", b"x");
    place.run(["mkdir", "v", "d"]).done();
    place.feed(&["put", "v", "d/y"], b"y").done();
    place.run(["import", "v", "in"]).done();
    assert_eq!(place.run(["ls", "v", "d"]).text(), "y\nx\n");
    fs::create_dir(place.path("empty")).unwrap();
    place.run(["export", "v", "empty"]).done();
    assert_eq!(place.bytes("empty/d/x"), b"x");
}

#[test]
fn gaps_become_holes_and_holes_become_gaps() {
    let place = Place::with_volume("holes");
    place.new_volume("w", 16);
    place.feed(&["put", "v", "a", "--at", "1G"], b"far").done();
    place.run(["cut", "v", "a", "2G"]).done();
    place.run(["export", "v", "out", "--sparse"]).done();
    let metadata = fs::metadata(place.path("out/a")).unwrap();
    assert_eq!(metadata.len(), 2 << 30);
    assert!(
        metadata.blocks() * 512 <= 1 << 20,
        "{} blocks",
        metadata.blocks()
    );
    place.run(["import", "w", "out", "--sparse"]).done();
    assert_eq!(place.run(["ls", "-l", "w"]).text(), "- 1 2147483648 - a\n");
    assert!(place.run(["report", "w"]).text().contains("chunks=1\n"));
    assert_eq!(
        place
            .run(["get", "w", "a", "--at", "1G", "--count", "4"])
            .done(),
        b"far\0"
    );
}

#[test]
fn map_shows_what_was_written() {
    let place = Place::with_volume("map");
    place.run(["mkdir", "v", "d"]).done();
    place
        .feed(&["put", "v", "d/a", "--at", "8k"], &noise(3, 8192))
        .done();
    place.run(["limit", "v", "d/a", "32k"]).done();
    place.feed(&["put", "v", "b"], b"x").done();
    let mut command = place.command(["map", "v"]);
    let answer = common::Answer::of(command.env("COLUMNS", "60").output().unwrap());
    let map = answer.text();
    let expected = "\
d/a  ........########|               ]  8k of 16k, limit 32k
b    #|                                 1 of 1
";
    let front: String = map
        .lines()
        .take(2)
        .map(|line| line.to_string() + "\n")
        .collect();
    assert_eq!(front, expected);
    assert!(
        map.contains("# written") && map.contains("] limit"),
        "{}",
        map
    );
    assert_eq!(place.run(["map", "v", "b"]).text().lines().count(), 5);
    place.run(["mkdir", "v", "none"]).done();
    assert_eq!(place.run(["map", "v", "none"]).text(), "no files\n");
}

#[test]
fn map_draws_a_picture() {
    let place = Place::with_volume("map_svg");
    place
        .feed(&["put", "v", "a<b>&", "--at", "8k"], &noise(3, 8192))
        .done();
    place.run(["map", "v", "--svg", "v.svg"]).done();
    let picture = String::from_utf8(place.bytes("v.svg")).unwrap();
    assert!(picture.starts_with("<svg ") && picture.ends_with("</svg>\n"));
    assert!(picture.contains(">a&lt;b&gt;&amp;</text>"));
    assert!(picture.contains(">8,192 of 16,384</text>"));
    assert_eq!(
        picture.matches("class=\"written\"").count(),
        2,
        "one, and that of the legend"
    );
    assert_eq!(place.run(["map", "v", "--svg", "-"]).text(), picture);
    assert_eq!(place.names(), ["v", "v.svg"]);
}

#[test]
fn a_terminal_gets_names_that_do_it_no_harm() {
    let place = Place::with_volume("terminal");
    place.run(["mkdir", "v", "a\x1b[31mb"]).done();
    assert_eq!(place.run(["ls", "v"]).done(), b"a\x1b[31mb\n");
    if place.shell("script -qec true /dev/null").code != Some(0) {
        eprintln!("skipped: there is no program `script` that gives a terminal");
        return;
    }
    let seen = place.shell("script -qec \"$* ls v\" /dev/null").text();
    assert_eq!(seen.trim_end(), "$'a\\x1b[31mb'");
}
