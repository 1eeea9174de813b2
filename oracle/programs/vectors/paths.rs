//! Paths, cut by `get_path_parts`.

use super::{
    generator::Generator,
    lists::{Item, spelled},
};
use oracle::{runtime::structure_helpers, scope};

const MAX_PATH: usize = 4096;

pub fn summary(items: &[Item]) -> String {
    let refused: usize = items.iter().map(|item| item.count).sum();
    format!("paths {}, refused {refused}\n", items.len())
}

pub fn fixed(generator: &mut Generator) -> Vec<Item> {
    let mut paths = every_path(6);
    paths.extend(chosen_paths());
    for i in 0..40 {
        paths.push(long_names(generator, 254 + i % 4));
    }
    for _ in 0..700 {
        let length = 1 + generator.below(60) as usize;
        paths.push(random_path(generator, length));
    }
    for length in [600, 1200, 2400, MAX_PATH] {
        paths.push(random_path(generator, length));
    }
    items(paths)
}

pub fn bulk(generator: &mut Generator) -> Vec<Item> {
    let mut paths = every_path(8);
    for i in 0..20_000 {
        // as many of each order of magnitude
        let most = MAX_PATH >> generator.below(12);
        let length = 1 + generator.below(most as u64) as usize;
        paths.push(match i % 10 {
            0 => long_names(generator, 254 + i / 10 % 4),
            _ => random_path(generator, length),
        });
    }
    items(paths)
}

/// Only paths where the Rust and the scope agree; another one would be a new difference.
fn items(paths: Vec<String>) -> Vec<Item> {
    let items: Vec<Item> = paths.iter().filter_map(|path| item(path)).collect();
    let left_out = paths.len() - items.len();
    print!("{left_out} paths left out, {}", summary(&items));
    items
}

fn item(path: &str) -> Option<Item> {
    assert!(path.len() <= MAX_PATH);
    let rust = structure_helpers::path_parts(path);
    let agrees = match (&rust, scope::path_parts(path.as_bytes())) {
        (Ok((parts, _must_be_dir)), Ok(names)) => parts.iter().map(String::as_bytes).eq(names),
        (Err(error), Err(refusal)) => scope::number(*error) == Some(refusal),
        _ => false,
    };
    if !agrees {
        println!("the Rust differs: {path:?} gives {rust:?}");
        return None;
    }
    let mut numbers = vec![1];
    push_bytes(&mut numbers, path.as_bytes());
    match &rust {
        Ok((parts, _must_be_dir)) => {
            numbers.extend([0, parts.len() as u64]);
            for part in parts {
                push_bytes(&mut numbers, part.as_bytes());
            }
        }
        Err(_) => numbers.push(scope::PATH_NOT_PERMITTED),
    }
    Some(Item {
        lines: spelled(numbers) + "\n",
        count: rust.is_err() as usize,
        ..Item::default()
    })
}

fn push_bytes(numbers: &mut Vec<u64>, bytes: &[u8]) {
    numbers.push(bytes.len() as u64);
    numbers.extend(bytes.iter().map(|&byte| byte as u64));
}

/// Every string over `a`, `.` and `/` up to a length.
fn every_path(length: usize) -> Vec<String> {
    let mut paths = vec![String::new()];
    let mut longest = 0; // where the longest so far begin
    for _ in 0..length {
        let end = paths.len();
        for i in longest..end {
            for character in ['a', '.', '/'] {
                paths.push(format!("{}{character}", paths[i]));
            }
        }
        longest = end;
    }
    paths
}

fn chosen_paths() -> Vec<String> {
    let mut paths: Vec<String> = vec![
        // as many parts as a path can have, without and with a final slash
        vec!["a"; 2048].join("/"),
        vec!["a"; 2048].join("/") + "/",
        // the most pieces, and no part
        "./".repeat(2048),
        "a".to_string() + &"/".repeat(4095),
        // the deepest way down and up again, and one step too many
        "a/".repeat(819) + &"../".repeat(819),
        "a/".repeat(200) + &"../".repeat(201),
        "/".repeat(4096),
        ".".repeat(4096),
        "a".repeat(4096),
    ];
    for name in [
        "a\0b",
        "\0",
        "\n",
        " ",
        "a\\b",
        "..a",
        "a..",
        ". .",
        "é",
        "／",
        "．．",
        "a．/．．",
    ] {
        paths.push(name.to_string());
        paths.push(format!("x/{name}/../{name}"));
    }
    paths
}

/// Names about as long as a name may be, some of them dropped again.
fn long_names(generator: &mut Generator, length: usize) -> String {
    let mut path = String::new();
    for _ in 0..1 + generator.below(2) {
        path += &name(generator, length);
        path += generator.one_of(&["/", "//./", "/../", "/../b/"]);
    }
    path + "c"
}

/// A path of at most `length` bytes.
fn random_path(generator: &mut Generator, length: usize) -> String {
    let deep = generator.once_in(4);
    let mut path = String::new();
    while path.len() < length {
        match generator.below(20) {
            0..=2 => path += "..",
            3..=4 => path += ".",
            5..=6 => {}
            7 => path += "...",
            8 if deep => path += &"../".repeat(generator.below(12) as usize),
            9 if deep => path += &"b/".repeat(generator.below(20) as usize),
            10 => path += &"/".repeat(generator.below(6) as usize),
            _ => {
                let bytes = 1 + generator.below(12) as usize;
                path += &name(generator, bytes);
            }
        }
        path += "/";
    }
    let mut end = length;
    while !path.is_char_boundary(end) {
        end -= 1;
    }
    path.truncate(end);
    path
}

/// Characters of one to four bytes, `length` bytes in all.
pub fn name(generator: &mut Generator, length: usize) -> String {
    let mut name = String::new();
    while name.len() < length {
        let next = character(generator);
        let fits = name.len() + next.len_utf8() <= length;
        name.push(if fits { next } else { 'z' });
    }
    name
}

fn character(generator: &mut Generator) -> char {
    let (first, last) = generator.one_of(&[
        ('a', 'z'),
        ('a', 'z'),
        ('\0', '.'),
        ('0', '\u{7f}'),
        ('\u{80}', '\u{7ff}'),
        ('\u{800}', '\u{d7ff}'),
        ('\u{e000}', '\u{ffff}'),
        ('\u{10000}', '\u{10ffff}'),
    ]);
    let code = first as u64 + generator.below(last as u64 - first as u64 + 1);
    char::from_u32(code as u32).unwrap()
}
