//! Writes lists of inputs with the Rust's answers, for the proved programs to compare with.
//! The formats are in oracle/README.md. Nothing here looks at a clock: the same lists every time.

mod vectors {
    pub mod allocator;
    pub mod files;
    pub mod generator;
    pub mod lists;
    pub mod names;
    pub mod paths;
}

use std::{io, path::Path};
use vectors::{allocator, files, generator::Generator, lists, names, paths};

fn main() -> io::Result<()> {
    oracle::caught::silence();
    let arguments: Vec<String> = std::env::args().skip(1).collect();
    let arguments: Vec<&str> = arguments.iter().map(String::as_str).collect();
    match arguments[..] {
        ["fixed", crates] => fixed(Path::new(crates)),
        ["bulk", folder] => bulk(Path::new(folder)),
        _ => {
            eprintln!("usage: vectors fixed CRATES_FOLDER | vectors bulk FOLDER");
            std::process::exit(2)
        }
    }
}

fn fixed(crates: &Path) -> io::Result<()> {
    let runs = allocator::fixed(&mut Generator::new(1));
    lists::write_one(&crates.join("allocator_vectors"), &runs, allocator::summary)?;
    let paths = paths::fixed(&mut Generator::new(2));
    lists::write_one(&crates.join("path_vectors"), &paths, paths::summary)?;
    let runs = files::fixed(&mut Generator::new(5));
    lists::write_one(&crates.join("file_vectors"), &runs, files::summary)?;
    let runs = names::fixed(&mut Generator::new(9));
    lists::write_one(&crates.join("name_vectors"), &runs, names::summary)
}

fn bulk(folder: &Path) -> io::Result<()> {
    let runs = allocator::bulk(&mut Generator::new(3));
    lists::write_many(folder, "allocator_vectors", &runs, allocator::summary)?;
    let paths = paths::bulk(&mut Generator::new(4));
    lists::write_many(folder, "path_vectors", &paths, paths::summary)?;
    let runs = files::bulk(&mut Generator::new(6));
    lists::write_many(folder, "file_vectors", &runs, files::summary)?;
    let runs = names::bulk(&mut Generator::new(8));
    lists::write_many(folder, "name_vectors", &runs, names::summary)
}
