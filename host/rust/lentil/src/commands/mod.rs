//! The commands, with what their help says.

mod bytes;
mod folders;
mod names;
mod picture;
mod search;
mod volumes;

use crate::args::{Command, Switch};

pub const ALL: &[Command] = &[
    volumes::NEW,
    volumes::CHECK,
    volumes::REPORT,
    names::LS,
    names::TREE,
    search::SEARCH,
    names::MKDIR,
    bytes::PUT,
    bytes::GET,
    bytes::CUT,
    bytes::LIMIT,
    names::LN,
    names::RM,
    folders::IMPORT,
    folders::EXPORT,
    picture::MAP,
];

const fn flag(name: &'static str, about: &'static str) -> Switch {
    Switch {
        name,
        value: None,
        about,
    }
}

const fn option(name: &'static str, value: &'static str, about: &'static str) -> Switch {
    Switch {
        name,
        value: Some(value),
        about,
    }
}
