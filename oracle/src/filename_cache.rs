//! Stand-in, inert: a cache that never holds anything.

use crate::storage::types::Node;

#[derive(Default)]
pub struct FilenameCache;

impl FilenameCache {
    pub fn get(&self, _key: &(Node, String)) -> Option<Node> {
        None
    }

    pub fn add(&mut self, _key: (Node, String), _node: Node) {}

    pub fn clear(&mut self) {}
}
