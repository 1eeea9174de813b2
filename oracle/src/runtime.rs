#[allow(private_interfaces)] // of the Rust file, which stays as it is
pub mod structure_helpers;
pub mod types;
