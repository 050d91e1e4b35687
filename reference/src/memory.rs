//! Memories: fixed lists of 64-bit words that know only load and swap.

use crate::refusal::Refusal;

pub trait Memory {
    /// How many words there are; it never changes.
    fn length(&self) -> usize;

    /// The word at a location.
    fn load(&self, location: usize) -> Result<u64, Refusal>;

    /// Puts `new` where `old` is found and answers yes; otherwise answers no
    /// and alters nothing.
    fn swap(&mut self, location: usize, old: u64, new: u64) -> Result<bool, Refusal>;
}

/// All words in one piece.
#[derive(Clone, Debug)]
pub struct FlatMemory {
    words: Vec<u64>,
}

impl FlatMemory {
    pub const WORDS: usize = 465;
    pub const SHORT_WORDS: usize = 400;

    pub fn new() -> Self {
        FlatMemory { words: vec![0; Self::WORDS] }
    }

    /// Too short for any container; there to be refused at set-up.
    pub fn short() -> Self {
        FlatMemory { words: vec![0; Self::SHORT_WORDS] }
    }
}

impl Default for FlatMemory {
    fn default() -> Self {
        Self::new()
    }
}

impl Memory for FlatMemory {
    fn length(&self) -> usize {
        self.words.len()
    }

    fn load(&self, location: usize) -> Result<u64, Refusal> {
        self.words.get(location).copied().ok_or(Refusal::Location)
    }

    fn swap(&mut self, location: usize, old: u64, new: u64) -> Result<bool, Refusal> {
        let word = self.words.get_mut(location).ok_or(Refusal::Location)?;
        Ok(exchange(word, old, new))
    }
}

/// Words in buckets, each twice as large as the one before it. A bucket is
/// opened by the first swap in it that answers yes; until then its words are 0.
#[derive(Clone, Debug, Default)]
pub struct BucketedMemory {
    buckets: [Option<Vec<u64>>; Self::BUCKETS],
}

impl BucketedMemory {
    pub const BUCKETS: usize = 6;
    pub const FIRST: usize = 8;
    pub const WORDS: usize = Self::FIRST * ((1 << Self::BUCKETS) - 1);

    pub fn new() -> Self {
        Self::default()
    }

    /// The bucket of a location: bucket b starts at 8 * (2^b - 1).
    pub fn bucket_of(location: usize) -> usize {
        (location / Self::FIRST + 1).ilog2() as usize
    }

    /// How many buckets are open.
    pub fn open_buckets(&self) -> usize {
        self.buckets.iter().flatten().count()
    }

    /// Bucket and place in it.
    fn place(location: usize) -> Result<(usize, usize), Refusal> {
        if location >= Self::WORDS {
            return Err(Refusal::Location);
        }
        let bucket = Self::bucket_of(location);
        Ok((bucket, location - Self::FIRST * ((1 << bucket) - 1)))
    }
}

impl Memory for BucketedMemory {
    fn length(&self) -> usize {
        Self::WORDS
    }

    fn load(&self, location: usize) -> Result<u64, Refusal> {
        let (bucket, place) = Self::place(location)?;
        Ok(self.buckets[bucket].as_ref().map_or(0, |words| words[place]))
    }

    fn swap(&mut self, location: usize, old: u64, new: u64) -> Result<bool, Refusal> {
        let (bucket, place) = Self::place(location)?;
        let bucket_slot = &mut self.buckets[bucket];
        // A swap that answers no must leave its bucket closed.
        if bucket_slot.is_none() && old != 0 {
            return Ok(false);
        }
        let words = bucket_slot.get_or_insert_with(|| vec![0; Self::FIRST << bucket]);
        Ok(exchange(&mut words[place], old, new))
    }
}

fn exchange(word: &mut u64, old: u64, new: u64) -> bool {
    let found = *word == old;
    if found {
        *word = new;
    }
    found
}
