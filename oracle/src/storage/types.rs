include!(concat!(
    env!("RUST_FOLDER"),
    "/stable-fs/src/storage/types.rs"
));
