include!(concat!(
    env!("RUST_FOLDER"),
    "/stable-fs/src/runtime/structure_helpers.rs"
));

/// `get_path_parts` is private in the file.
pub fn path_parts(path: &str) -> Result<(Vec<String>, bool), Error> {
    get_path_parts(path)
}
