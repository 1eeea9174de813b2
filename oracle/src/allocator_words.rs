//! Level 1: allocator.rs alone, over words that the caller gives.

use crate::{caught::caught, error::Error, storage::allocator::ChunkPtrAllocator};
use ic_stable_structures::{Memory, VectorMemory, memory_manager::VirtualMemory};

#[derive(Debug, PartialEq)]
pub enum Opened {
    Accepted,
    Refused(Error),
    Panicked(String),
}

/// The words stand at the start of one page, the rest of which is zero; no words, no page.
pub struct AllocatorWords {
    memory: VectorMemory,
    count: usize,
    allocator: Option<ChunkPtrAllocator<VectorMemory>>,
}

impl AllocatorWords {
    pub fn new(words: &[u64]) -> Self {
        let memory = VectorMemory::default();
        memory.grow(!words.is_empty() as u64);
        for (i, word) in words.iter().enumerate() {
            Memory::write(&memory, 8 * i as u64, &word.to_le_bytes());
        }
        AllocatorWords {
            memory,
            count: words.len(),
            allocator: None,
        }
    }

    /// May stand between other calls too: it then reads the words as they are.
    pub fn open(&mut self) -> Opened {
        let lent = VirtualMemory::over(self.memory.clone());
        match caught(|| ChunkPtrAllocator::new(lent)) {
            Ok(Ok(allocator)) => {
                self.allocator = Some(allocator);
                Opened::Accepted
            }
            Ok(Err(error)) => Opened::Refused(error),
            Err(message) => Opened::Panicked(message),
        }
    }

    pub fn set_chunk_size(&mut self, size: u64) -> Result<(), Error> {
        self.opened().set_chunk_size(size as usize)
    }

    pub fn allocate(&mut self) -> u64 {
        self.opened().allocate()
    }

    pub fn free(&mut self, pointer: u64) {
        self.opened().free(pointer)
    }

    pub fn words(&self) -> Vec<u64> {
        let bytes = self.memory.borrow();
        let words = bytes.chunks(8).take(self.count);
        words
            .map(|word| u64::from_le_bytes(word.try_into().unwrap()))
            .collect()
    }

    fn opened(&mut self) -> &mut ChunkPtrAllocator<VectorMemory> {
        self.allocator.as_mut().expect("open was accepted")
    }
}
