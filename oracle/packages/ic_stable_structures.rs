//! Stand-in for the memories and maps. It decides three things: new pages are zero, access past
//! the end panics, and a range whose start lies past its end is empty.

use std::{borrow::Cow, cell::RefCell, marker::PhantomData, ops::RangeBounds, rc::Rc};

pub mod storable {
    pub enum Bound {
        Bounded { max_size: u32, is_fixed_size: bool },
        Unbounded,
    }
}

/// Inert: the maps keep values as they are.
pub trait Storable: Sized {
    const BOUND: storable::Bound;
    fn to_bytes(&self) -> Cow<'_, [u8]>;
    fn into_bytes(self) -> Vec<u8>;
    fn from_bytes(bytes: Cow<[u8]>) -> Self;
}

/// Sizes and growth count pages.
pub trait Memory {
    fn size(&self) -> u64;
    fn grow(&self, pages: u64) -> i64;
    fn read(&self, offset: u64, dst: &mut [u8]);
    fn write(&self, offset: u64, src: &[u8]);
}

const PAGE: u64 = 65536;

pub type VectorMemory = Rc<RefCell<Vec<u8>>>;

impl Memory for VectorMemory {
    fn size(&self) -> u64 {
        self.borrow().len() as u64 / PAGE
    }

    fn grow(&self, pages: u64) -> i64 {
        let before = Memory::size(self);
        self.borrow_mut()
            .resize(((before + pages) * PAGE) as usize, 0);
        before as i64
    }

    fn read(&self, offset: u64, dst: &mut [u8]) {
        let bytes = self.borrow();
        dst.copy_from_slice(&bytes[offset as usize..][..dst.len()]);
    }

    fn write(&self, offset: u64, src: &[u8]) {
        let mut bytes = self.borrow_mut();
        bytes[offset as usize..][..src.len()].copy_from_slice(src);
    }
}

pub mod memory_manager {
    use super::{Memory, VectorMemory};
    use std::{cell::RefCell, collections::HashMap, marker::PhantomData};

    #[derive(Clone, Copy)]
    pub struct MemoryId(u8);

    impl MemoryId {
        pub fn new(id: u8) -> Self {
            MemoryId(id)
        }
    }

    /// A vector of its own for each id; the manager's own memory is not used.
    pub struct VirtualMemory<M: Memory>(VectorMemory, PhantomData<M>);

    impl<M: Memory> VirtualMemory<M> {
        /// The oracle's way to lend bytes of its own.
        pub fn over(memory: VectorMemory) -> Self {
            VirtualMemory(memory, PhantomData)
        }
    }

    impl<M: Memory> Memory for VirtualMemory<M> {
        fn size(&self) -> u64 {
            Memory::size(&self.0)
        }

        fn grow(&self, pages: u64) -> i64 {
            self.0.grow(pages)
        }

        fn read(&self, offset: u64, dst: &mut [u8]) {
            self.0.read(offset, dst)
        }

        fn write(&self, offset: u64, src: &[u8]) {
            Memory::write(&self.0, offset, src)
        }
    }

    pub struct MemoryManager<M: Memory>(RefCell<HashMap<u8, VectorMemory>>, PhantomData<M>);

    impl<M: Memory> MemoryManager<M> {
        pub fn init(_memory: M) -> Self {
            MemoryManager(RefCell::default(), PhantomData)
        }

        pub fn get(&self, id: MemoryId) -> VirtualMemory<M> {
            VirtualMemory::over(self.0.borrow_mut().entry(id.0).or_default().clone())
        }
    }
}

pub struct Cell<T, M>(T, PhantomData<M>);

impl<T, M> Cell<T, M> {
    pub fn init(_memory: M, default: T) -> Self {
        Cell(default, PhantomData)
    }

    pub fn get(&self) -> &T {
        &self.0
    }

    pub fn set(&mut self, value: T) -> T {
        std::mem::replace(&mut self.0, value)
    }
}

pub struct BTreeMap<K, V, M>(std::collections::BTreeMap<K, V>, PhantomData<M>);

pub struct Entry<'a, K, V>(&'a K, &'a V);

impl<K, V: Clone> Entry<'_, K, V> {
    pub fn key(&self) -> &K {
        self.0
    }

    pub fn value(&self) -> V {
        self.1.clone()
    }
}

impl<K: Ord + Clone, V: Clone, M> BTreeMap<K, V, M> {
    pub fn init(_memory: M) -> Self {
        BTreeMap(Default::default(), PhantomData)
    }

    pub fn get(&self, key: &K) -> Option<V> {
        self.0.get(key).cloned()
    }

    pub fn insert(&mut self, key: K, value: V) -> Option<V> {
        self.0.insert(key, value)
    }

    pub fn remove(&mut self, key: &K) -> Option<V> {
        self.0.remove(key)
    }

    pub fn range(
        &self,
        keys: impl RangeBounds<K>,
    ) -> impl DoubleEndedIterator<Item = Entry<'_, K, V>> {
        // std panics where the start lies past the end
        let found = (!is_backward(&keys)).then(|| self.0.range(keys));
        found.into_iter().flatten().map(|(k, v)| Entry(k, v))
    }

    pub fn keys_range(&self, keys: impl RangeBounds<K>) -> impl DoubleEndedIterator<Item = K> {
        self.range(keys).map(|entry| entry.key().clone())
    }
}

fn is_backward<K: Ord>(keys: &impl RangeBounds<K>) -> bool {
    use std::ops::Bound::{Excluded, Included};
    match (keys.start_bound(), keys.end_bound()) {
        (Excluded(start), Excluded(end)) => start >= end,
        (Included(start) | Excluded(start), Included(end) | Excluded(end)) => start > end,
        _ => false,
    }
}
