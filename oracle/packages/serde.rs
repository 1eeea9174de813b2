//! Stand-in, inert: names and signatures only, never called.

pub use serde_derive::{Deserialize, Serialize};

pub trait Serializer: Sized {
    type Ok;
    type Error;
}

pub trait Deserializer<'de>: Sized {
    type Error: de::Error;
}

pub trait Serialize {
    fn serialize<S: Serializer>(&self, _serializer: S) -> Result<S::Ok, S::Error> {
        unreachable!("nothing is encoded")
    }
}

pub trait Deserialize<'de>: Sized {}

pub mod de {
    pub trait Error: Sized + std::fmt::Debug {
        fn invalid_length(len: usize, expected: &dyn std::fmt::Display) -> Self;
    }
}
