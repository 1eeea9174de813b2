//! Nothing is lost: two at once, files and folders that cannot be written, full disks, and commands
//! killed at any moment.

mod common;

use std::fs::{self, Permissions};
use std::os::unix::fs::{symlink, MetadataExt, PermissionsExt};
use std::process::{Child, Command, Stdio};
use std::thread::sleep;
use std::time::{Duration, Instant, SystemTime};

use common::{noise, Answer, Place};

const IN_USE: &str = "lentil: v: in use: another command changes it\n";

/// Waits until a command holds the volume, without trying to hold it.
fn wait_until_held(place: &Place) {
    let file = format!(":{} ", fs::metadata(place.path("v")).unwrap().ino());
    for _ in 0..500 {
        let locks = fs::read_to_string("/proc/locks").unwrap();
        if locks
            .lines()
            .any(|lock| lock.contains("FLOCK") && lock.contains(&file))
        {
            return;
        }
        sleep(Duration::from_millis(20));
    }
    panic!("the volume was never in use");
}

fn finish(child: Child) -> Answer {
    Answer::of(child.wait_with_output().unwrap())
}

#[test]
fn a_second_command_finds_the_volume_in_use() {
    let place = Place::with_volume("in_use");
    place.run(["mkdir", "v", "old"]).done();
    let mut first = place.start(&["put", "v", "a", "-"]);
    wait_until_held(&place);
    place.make_file("one", b"1");
    fs::create_dir(place.path("in")).unwrap();
    let changing: [&[&str]; 8] = [
        &["mkdir", "v", "b"],
        &["put", "v", "b", "one"],
        &["cut", "v", "a", "0"],
        &["limit", "v", "a", "5"],
        &["ln", "v", "a", "b"],
        &["rm", "v", "old"],
        &["import", "v", "in"],
        &["new", "v", "--force"],
    ];
    for words in changing {
        place.refuses(words, IN_USE.trim_end().trim_start_matches("lentil: "));
    }
    // Who only looks sees the volume as it was.
    assert_eq!(place.run(["ls", "v"]).text(), "old\n");
    place.run(["export", "v", "out"]).done();
    drop(first.stdin.take());
    finish(first).done();
    place.run(["mkdir", "v", "b"]).done();
    assert_eq!(place.run(["ls", "v"]).text(), "old\na\nb\n");
}

#[test]
fn of_many_at_once_none_is_lost() {
    let place = Place::with_volume("many_at_once");
    let mut expected: Vec<String> = Vec::new();
    for round in 0..3 {
        let names: Vec<String> = (0..5)
            .map(|number| format!("{}-{}", round, number))
            .collect();
        let start = |name: &String| place.start(&["mkdir", "v", name]);
        let running: Vec<Child> = names.iter().map(start).collect();
        for (name, child) in names.iter().zip(running) {
            let answer = finish(child);
            match answer.code {
                Some(0) => expected.push(name.clone()),
                _ => assert_eq!((answer.code, answer.err.as_str()), (Some(1), IN_USE)),
            }
        }
    }
    let mut listed: Vec<String> = place
        .run(["ls", "v"])
        .text()
        .lines()
        .map(str::to_string)
        .collect();
    listed.sort();
    expected.sort();
    assert_eq!(listed, expected);
    assert_eq!(place.names(), ["v"]);
}

#[test]
fn of_two_new_volumes_one_is_made() {
    let place = Place::new("two_new");
    let running: Vec<Child> = (0..4)
        .map(|_| place.start(&["new", "v", "--size", "128M"]))
        .collect();
    let answers: Vec<Answer> = running.into_iter().map(finish).collect();
    let made = answers
        .iter()
        .filter(|answer| answer.code == Some(0))
        .count();
    assert_eq!(made, 1);
    place.run(["check", "v"]).done();
    assert_eq!(place.names(), ["v"]);
}

#[test]
fn a_volume_that_another_program_replaces_stays_as_that_left_it() {
    let place = Place::with_volume("replaced");
    place.new_volume("w", 20);
    let mut first = place.start(&["put", "v", "a", "-"]);
    wait_until_held(&place);
    fs::rename(place.path("w"), place.path("v")).unwrap();
    let state = place.state("v");
    drop(first.stdin.take());
    finish(first).refused("v: was replaced by another program, and stays as that left it");
    assert!(state == place.state("v"));
    assert_eq!(place.names(), ["v"]);
}

#[test]
fn a_changed_volume_keeps_its_rights_and_its_holes() {
    let place = Place::new("rights");
    place.run(["new", "v", "--size", "16M"]).done();
    // Only the administrator can give a file to someone else.
    place.shell("chown 1234:4321 v");
    fs::set_permissions(place.path("v"), Permissions::from_mode(0o640)).unwrap();
    let old = fs::metadata(place.path("v")).unwrap();
    place.feed(&["put", "v", "a"], b"a").done();
    let metadata = fs::metadata(place.path("v")).unwrap();
    assert_ne!(metadata.ino(), old.ino());
    assert_eq!(metadata.mode(), old.mode());
    assert_eq!((metadata.uid(), metadata.gid()), (old.uid(), old.gid()));
    assert!(
        metadata.blocks() * 512 < 1 << 20,
        "{} blocks",
        metadata.blocks()
    );
}

#[test]
fn a_symbolic_link_is_followed_and_stays() {
    let place = Place::new("link");
    fs::create_dir(place.path("real")).unwrap();
    symlink("real/v", place.path("v")).unwrap();
    place.run(["new", "real/v", "--size", "1M"]).done();
    place.run(["mkdir", "v", "a"]).done();
    assert!(place
        .path("v")
        .symlink_metadata()
        .unwrap()
        .file_type()
        .is_symlink());
    assert_eq!(place.run(["ls", "real/v"]).text(), "a\n");
    let inside: Vec<_> = fs::read_dir(place.path("real")).unwrap().collect();
    assert_eq!(inside.len(), 1);
}

#[test]
fn left_over_files_go_and_files_in_work_stay() {
    let place = Place::with_volume("left_over");
    let names = [
        ".v.lentil-1",
        ".v.lentil-22",
        ".v.lentil-",
        ".v.lentil-3x",
        ".w.lentil-1",
        "v",
    ];
    names[..5]
        .iter()
        .for_each(|name| place.make_file(name, b"half"));
    let words = [".v.lentil-22", "-c", "echo held; read line"];
    let mut holder = Command::new("flock");
    holder
        .args(words)
        .current_dir(&place.folder)
        .stdin(Stdio::piped())
        .stdout(Stdio::piped());
    let mut holder = holder.spawn().unwrap();
    let mut said = [0; 5];
    std::io::Read::read_exact(holder.stdout.as_mut().unwrap(), &mut said).unwrap();
    place.run(["check", "v"]).done();
    place.refuses(&["rm", "v", "none"], "none: no such node or entry (2)");
    assert_eq!(
        place.names().len(),
        6,
        "who changes nothing removes nothing"
    );
    place.run(["mkdir", "v", "a"]).done();
    let mut left = names[1..].to_vec();
    left.sort();
    assert_eq!(place.names(), left);
    drop(holder.stdin.take());
    holder.wait().unwrap();
}

#[test]
fn a_read_only_file_is_not_replaced() {
    let place = Place::with_volume("read_only_file");
    fs::set_permissions(place.path("v"), Permissions::from_mode(0o444)).unwrap();
    let state = place.state("v");
    for words in [["mkdir", "v", "a"], ["new", "v", "--force"]] {
        let answer = place.run(words);
        assert_eq!(answer.code, Some(1));
        // The administrator may open it; others may not.
        let reasons = [
            "lentil: v: is read-only\n",
            "lentil: v: Permission denied\n",
        ];
        assert!(reasons.contains(&answer.err.as_str()), "{}", answer.err);
    }
    assert!(state == place.state("v"));
    place.run(["check", "v"]).done();
}

/// A prefix under which the administrator has no rights that others have not; none if there is no
/// way, and an empty one if we are not the administrator.
fn as_anyone(place: &Place) -> Option<String> {
    if place.shell("touch locked/probe").code != Some(0) {
        return Some(String::new());
    }
    fs::remove_file(place.path("locked/probe")).unwrap();
    let prefix = "setpriv --inh-caps=-all --bounding-set=-all";
    let usable = place.shell(&format!("{} true", prefix)).code == Some(0);
    usable.then(|| prefix.to_string())
}

#[test]
fn in_a_read_only_folder_nothing_is_changed() {
    let place = Place::new("read_only_folder");
    fs::create_dir(place.path("locked")).unwrap();
    place.run(["new", "locked/v", "--size", "1M"]).done();
    fs::set_permissions(place.path("locked"), Permissions::from_mode(0o555)).unwrap();
    let prefix = match as_anyone(&place) {
        Some(prefix) => prefix,
        None => return eprintln!("skipped: the administrator may write everywhere"),
    };
    let state = place.state("locked/v");
    let folder = fs::canonicalize(place.path("locked")).unwrap();
    let message = format!("{}: Permission denied", folder.display());
    place
        .shell(&format!("{} \"$@\" mkdir locked/v a", prefix))
        .refused(&message);
    let message = "locked/w: Permission denied";
    place
        .shell(&format!("{} \"$@\" new locked/w --size 1M", prefix))
        .refused(message);
    place
        .shell(&format!("{} \"$@\" check locked/v", prefix))
        .done();
    assert!(state == place.state("locked/v"));
    assert_eq!(fs::read_dir(place.path("locked")).unwrap().count(), 1);
    fs::set_permissions(place.path("locked"), Permissions::from_mode(0o755)).unwrap();
}

#[test]
fn a_file_that_may_not_grow_leaves_the_old_one() {
    let place = Place::with_volume("file_limit");
    let state = place.state("v");
    place
        .shell("ulimit -f 20; exec \"$@\" mkdir v a")
        .refused("v: File too large");
    assert!(state == place.state("v"));
    assert_eq!(place.names(), ["v"]);
}

/// In a disk of its own, of 3 MiB, that no one else sees and that goes with the script.
const ON_A_SMALL_DISK: &str = "\
mount -t tmpfs -o size=3m none disk || exit 77
cp v many disk && cd disk || exit 77
\"$@\" put v a many
code=$?
cmp v ../v >&2 || exit 99
ls -A
exit $code";

#[test]
fn a_full_disk_leaves_the_old_volume() {
    let place = Place::new("full_disk");
    place.run(["new", "v", "--size", "4M"]).done();
    place.make_file("many", &noise(5, 1 << 16).repeat(32));
    fs::create_dir(place.path("disk")).unwrap();
    place.make_file("script", ON_A_SMALL_DISK.as_bytes());
    let answer = place.shell("unshare -m sh script \"$@\"");
    if matches!(answer.code, Some(77) | Some(127)) || answer.err.starts_with("unshare") {
        return eprintln!("skipped: no disk can be mounted here");
    }
    assert_eq!(answer.err, "lentil: v: No space left on device\n");
    assert_eq!(String::from_utf8(answer.out).unwrap(), "many\nv\n");
    assert_eq!(answer.code, Some(1));
}

const KILLS: u32 = 20;

#[test]
fn a_put_that_is_killed_leaves_the_old_volume_or_the_new_one() {
    let place = Place::new("killed_put");
    place.run(["new", "v", "--size", "8M"]).done();
    place.make_file("old", &noise(1, 1 << 16).repeat(16));
    place.make_file("new", &noise(2, 1 << 16).repeat(96));
    place.run(["put", "v", "a", "old"]).done();
    survives_kills(&place, &["put", "v", "a", "new"]);
}

#[test]
fn an_import_that_is_killed_leaves_the_old_volume_or_the_new_one() {
    let place = Place::new("killed_import");
    place.run(["new", "v", "--size", "8M"]).done();
    fs::create_dir(place.path("in")).unwrap();
    for number in 0..10 {
        place.make_file(format!("in/{}", number), &noise(number, 10_000).repeat(25));
    }
    place.run(["mkdir", "v", "old"]).done();
    survives_kills(&place, &["import", "v", "in", "new"]);
}

/// Kills a command at random moments of the time that it takes.
fn survives_kills(place: &Place, words: &[&str]) {
    let old = place.bytes("v");
    let names = place.names();
    let start = Instant::now();
    place.run(words).done();
    let whole = start.elapsed();
    let new = place.bytes("v");
    let seed = SystemTime::now()
        .duration_since(SystemTime::UNIX_EPOCH)
        .unwrap()
        .as_nanos();
    let moments = noise(seed as u64, KILLS as usize);
    let mut counts = [0, 0];
    for moment in moments {
        place.make_file("v", &old);
        let pause = whole * u32::from(moment) / 255;
        kill_after(place, words, pause);
        let now = place.bytes("v");
        assert!(
            now == old || now == new,
            "killed after {:?} of {:?}",
            pause,
            whole
        );
        assert_eq!(place.run(["check", "v"]).text(), "sound\n");
        counts[usize::from(now == new)] += 1;
    }
    eprintln!("{:?} within {:?}: {:?} old and new", words, whole, counts);
    place.make_file("v", &old);
    place.run(words).done();
    assert!(place.bytes("v") == new);
    assert_eq!(place.names(), names, "what killed commands left is gone");
}

fn kill_after(place: &Place, words: &[&str], pause: Duration) {
    let mut child = place.start(words);
    sleep(pause);
    // It may have ended already.
    let _ = child.kill();
    child.wait().unwrap();
}
