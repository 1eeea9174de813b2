//! The scope's calls on a volume, with what each answers. Nodes have the scope's numbers.

use crate::volume::Listed;

#[derive(Clone, Debug, PartialEq)]
pub enum Call {
    /// The buffer is as long as `length`, and the seed fills it before.
    Read {
        node: u64,
        offset: u64,
        length: u64,
        seed: u64,
    },
    Write {
        node: u64,
        offset: u64,
        length: u64,
        seed: u64,
    },
    Resize {
        node: u64,
        size: u64,
    },
    SetLimit {
        node: u64,
        limit: Option<u64>,
    },
    /// The kind is a type byte.
    Create {
        parent: u64,
        kind: u8,
        name: String,
    },
    Link {
        parent: u64,
        target: u64,
        name: String,
    },
    /// Whether a directory is expected, or anything.
    Unlink {
        start: u64,
        path: String,
        expect_dir: Option<bool>,
        opens: u64,
    },
    Remove {
        node: u64,
    },
    Find {
        start: u64,
        path: String,
    },
    NextEntry {
        directory: u64,
        from: u32,
    },
}

/// The number, 0 where the call was carried out, and what is told besides: zeros for a refusal.
#[derive(Clone, Debug, PartialEq)]
pub struct Answer {
    pub number: u64,
    pub told: Told,
}

#[derive(Clone, Debug, PartialEq)]
pub enum Told {
    /// A count, a node, or 0 where there is nothing to tell.
    Value(u64),
    /// The count, and the whole buffer afterwards.
    Read(u64, Vec<u8>),
    Entry(Listed),
}
