//! Lists of items as files: an input that ends with `0`, and the output of a program that agrees.

use std::{fs, io, path::Path};

/// The proved programs read no longer input.
const MAX_FILE_BYTES: usize = 700_000;
const END: &str = "0\n";

/// One run or one path.
#[derive(Default)]
pub struct Item {
    pub lines: String,
    /// What the program prints for it, where that is more than a sum of counts.
    pub answers: String,
    /// The steps of a run; 1 for a refused path, 0 for another.
    pub count: usize,
}

/// What the program prints for the items of one file.
pub type Summary = fn(&[Item]) -> String;

/// Numbers as they stand in the files: hexadecimal, with single spaces between them.
pub fn spelled(numbers: impl IntoIterator<Item = u64>) -> String {
    let words: Vec<String> = numbers.into_iter().map(|n| format!("{n:x}")).collect();
    words.join(" ")
}

/// FOLDER/stdin and FOLDER/stdout, in one piece.
pub fn write_one(folder: &Path, items: &[Item], summary: Summary) -> io::Result<()> {
    assert_eq!(fitting(items), items.len(), "too long for one file");
    fs::create_dir_all(folder)?;
    let (stdin, stdout) = (folder.join("stdin"), folder.join("stdout"));
    write(&stdin, &stdout, items, summary)
}

/// FOLDER/NAME-001.stdin, FOLDER/NAME-001.stdout and so on.
pub fn write_many(folder: &Path, name: &str, items: &[Item], summary: Summary) -> io::Result<()> {
    fs::create_dir_all(folder)?;
    let mut rest = items;
    for file in 1.. {
        let (now, later) = rest.split_at(fitting(rest));
        let stdin = folder.join(format!("{name}-{file:03}.stdin"));
        write(&stdin, &stdin.with_extension("stdout"), now, summary)?;
        rest = later;
        if rest.is_empty() {
            println!("{name}: {file} files");
            break;
        }
    }
    Ok(())
}

/// How many of the items fit one file, counted from the first.
fn fitting(items: &[Item]) -> usize {
    let mut bytes = END.len();
    let fits = |item: &&Item| {
        bytes += item.lines.len();
        bytes <= MAX_FILE_BYTES
    };
    items.iter().take_while(fits).count()
}

fn write(stdin: &Path, stdout: &Path, items: &[Item], summary: Summary) -> io::Result<()> {
    let lines: String = items.iter().map(|item| item.lines.as_str()).collect();
    fs::write(stdin, lines + END)?;
    fs::write(stdout, summary(items))
}
