//! Runs the built program in a folder of its own, and looks at what it leaves there.

// Each file of tests uses some of this.
#![allow(dead_code)]

use std::env;
use std::ffi::{OsStr, OsString};
use std::fs;
use std::io::Write;
use std::os::unix::fs::MetadataExt;
use std::path::{Path, PathBuf};
use std::process::{Child, Command, Output, Stdio};

/// The program, and what runs it where the machine does not itself: a command in LENTIL_RUN, or
/// else the one that cargo was told.
pub fn program() -> Vec<String> {
    let set = ["LENTIL_RUN", "CARGO_TARGET_X86_64_UNKNOWN_LINUX_GNU_RUNNER"];
    let runner = set.iter().find_map(|name| env::var(name).ok());
    let words = runner.iter().flat_map(|runner| runner.split_whitespace());
    let mut program: Vec<String> = words.map(str::to_string).collect();
    program.push(env!("CARGO_BIN_EXE_lentil").to_string());
    program
}

/// A folder for one test, empty at its start; it goes at the end, unless the test has failed.
pub struct Place {
    pub folder: PathBuf,
}

impl Drop for Place {
    fn drop(&mut self) {
        if !std::thread::panicking() {
            let _ = fs::remove_dir_all(&self.folder);
        }
    }
}

impl Place {
    pub fn new(test: &str) -> Place {
        let folder = Path::new(env!("CARGO_TARGET_TMPDIR")).join(test);
        let _ = fs::remove_dir_all(&folder);
        fs::create_dir_all(&folder).unwrap();
        Place { folder }
    }

    /// A place with a small volume `v`: 16 rows of each kind, and chunks of 4,096 bytes.
    pub fn with_volume(test: &str) -> Place {
        let place = Place::new(test);
        place.new_volume("v", 16);
        place
    }

    pub fn new_volume(&self, name: &str, rows: u32) {
        let rows = rows.to_string();
        let rooms = ["--nodes", &rows, "--entries", &rows, "--chunks", &rows];
        self.run(["new", name, "--chunk-size", "4k"].iter().chain(&rooms))
            .done();
    }

    pub fn path(&self, name: impl AsRef<Path>) -> PathBuf {
        self.folder.join(name)
    }

    pub fn make_file(&self, name: impl AsRef<Path>, bytes: &[u8]) {
        fs::write(self.path(name), bytes).unwrap();
    }

    pub fn bytes(&self, name: impl AsRef<Path>) -> Vec<u8> {
        fs::read(self.path(name)).unwrap()
    }

    /// Changes bytes of a file where it stands.
    pub fn patch(&self, name: &str, at: usize, bytes: &[u8]) {
        let mut all = self.bytes(name);
        all[at..at + bytes.len()].copy_from_slice(bytes);
        self.make_file(name, &all);
    }

    /// All names in the folder, sorted.
    pub fn names(&self) -> Vec<OsString> {
        let entries = fs::read_dir(&self.folder).unwrap();
        let mut names: Vec<_> = entries.map(|entry| entry.unwrap().file_name()).collect();
        names.sort();
        names
    }

    pub fn command(&self, words: impl IntoIterator<Item = impl AsRef<OsStr>>) -> Command {
        let program = program();
        let mut command = Command::new(&program[0]);
        command
            .args(&program[1..])
            .args(words)
            .current_dir(&self.folder);
        command
            .stdin(Stdio::null())
            .stdout(Stdio::piped())
            .stderr(Stdio::piped());
        command.env("LC_ALL", "C");
        command
    }

    pub fn run(&self, words: impl IntoIterator<Item = impl AsRef<OsStr>>) -> Answer {
        Answer::of(self.command(words).output().unwrap())
    }

    /// Runs it with bytes on standard input.
    pub fn feed(&self, words: &[&str], bytes: &[u8]) -> Answer {
        let mut child = self.start(words);
        // A program that refuses may not read it all.
        let _ = child.stdin.take().unwrap().write_all(bytes);
        Answer::of(child.wait_with_output().unwrap())
    }

    /// Starts it with an open standard input.
    pub fn start(&self, words: &[&str]) -> Child {
        self.command(words).stdin(Stdio::piped()).spawn().unwrap()
    }

    /// Runs a script of the shell, in which "$@" is the program.
    pub fn shell(&self, script: &str) -> Answer {
        let mut command = Command::new("sh");
        command.args(["-c", script, "sh"]).args(program());
        command.current_dir(&self.folder).env("LC_ALL", "C");
        Answer::of(command.output().unwrap())
    }

    /// Everything about a file that a refused command must leave as it was.
    pub fn state(&self, name: &str) -> State {
        let metadata = fs::metadata(self.path(name)).unwrap();
        State {
            bytes: self.bytes(name),
            file: (metadata.dev(), metadata.ino(), metadata.mode()),
            changed: (metadata.mtime(), metadata.mtime_nsec()),
            touched: (metadata.ctime(), metadata.ctime_nsec()),
        }
    }

    /// Runs a command that must be refused with a message, and leave the volume and the folder.
    pub fn refuses(&self, words: &[&str], message: &str) {
        let (state, names) = (self.state("v"), self.names());
        self.run(words).refused(message);
        assert!(
            state == self.state("v"),
            "{:?} has changed the volume",
            words
        );
        assert_eq!(names, self.names(), "{:?} has changed the folder", words);
    }
}

#[derive(PartialEq)]
pub struct State {
    pub bytes: Vec<u8>,
    file: (u64, u64, u32),
    changed: (i64, i64),
    touched: (i64, i64),
}

/// What a run gave.
pub struct Answer {
    pub code: Option<i32>,
    pub out: Vec<u8>,
    pub err: String,
}

impl Answer {
    pub fn of(output: Output) -> Answer {
        Answer {
            code: output.status.code(),
            out: output.stdout,
            err: String::from_utf8(output.stderr).unwrap(),
        }
    }

    /// What it wrote, if all went well.
    #[track_caller]
    pub fn done(self) -> Vec<u8> {
        assert_eq!((self.code, self.err.as_str()), (Some(0), ""));
        self.out
    }

    #[track_caller]
    pub fn text(self) -> String {
        String::from_utf8(self.done()).unwrap()
    }

    /// An exit code that is not for failures, and this text.
    #[track_caller]
    pub fn ended(self, code: i32, text: &str) {
        assert_eq!((self.code, self.err.as_str()), (Some(code), ""));
        assert_eq!(String::from_utf8(self.out).unwrap(), text);
    }

    /// Exit code 1, and this message.
    #[track_caller]
    pub fn refused(self, message: &str) {
        let expected = format!("lentil: {}\n", message);
        assert_eq!((self.code, self.err), (Some(1), expected));
        assert!(self.out.is_empty());
    }

    /// Exit code 2, and a message with these words.
    #[track_caller]
    pub fn misused(self, words: &str) {
        assert_eq!(self.code, Some(2), "{}", self.err);
        assert!(
            self.err.starts_with("lentil: ") && self.err.contains(words),
            "{}",
            self.err
        );
        assert!(self.out.is_empty());
    }
}

/// Bytes without a pattern, the same for the same seed, and none of them zero.
pub fn noise(seed: u64, count: usize) -> Vec<u8> {
    let mut state = seed.wrapping_mul(2) + 1;
    let mut next = || {
        state = state
            .wrapping_mul(6364136223846793005)
            .wrapping_add(1442695040888963407);
        (state >> 33) as u8 | 1
    };
    (0..count).map(|_| next()).collect()
}
