//! Stand-in, inert: names and signatures only, never called.

pub struct Bytes;

impl Bytes {
    pub fn new(_bytes: &[u8]) -> &'static Bytes {
        &Bytes
    }
}

impl serde::Serialize for Bytes {}

pub fn deserialize<'de, T, D: serde::Deserializer<'de>>(_deserializer: D) -> Result<T, D::Error> {
    unreachable!("nothing is decoded")
}
