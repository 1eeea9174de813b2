//! Stand-in, inert: the maps keep values, so no value is ever encoded.

pub mod ser {
    pub fn into_writer<T: ?Sized, W>(_value: &T, _writer: W) -> Result<(), String> {
        unreachable!("nothing is encoded")
    }
}

pub mod de {
    pub fn from_reader<T, R>(_reader: R) -> Result<T, String> {
        unreachable!("nothing is decoded")
    }
}
