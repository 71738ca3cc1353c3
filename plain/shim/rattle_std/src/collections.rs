//! A map with an allocator of its own: a `Vec` in the order of keys, since Rust's map ends the process where an
//! allocation fails.
use crate::alloc::{AllocError, AllocFailed, Allocator, Global};
use crate::vec::Vec;
use ::std::{iter, mem, slice};

/// A map. Finding a key takes logarithmic time, inserting one linear time.
#[derive(Debug)]
pub struct BTreeMap<K, V, A: Allocator = Global> {
    entries: Vec<(K, V), A>,
}

impl<K: PartialEq, V: PartialEq, A: Allocator> PartialEq for BTreeMap<K, V, A> {
    fn eq(&self, other: &Self) -> bool {
        self.entries == other.entries
    }
}

impl<K: Ord, V, A: Allocator> BTreeMap<K, V, A> {
    pub fn new(alloc: A) -> Self {
        BTreeMap {
            entries: Vec::new(alloc),
        }
    }

    pub fn clear(&mut self) {
        self.entries.clear();
    }

    pub fn len(&self) -> usize {
        self.entries.len()
    }

    pub fn is_empty(&self) -> bool {
        self.entries.is_empty()
    }

    fn place(&self, key: &K) -> Result<usize, usize> {
        self.entries.binary_search_by(|entry| entry.0.cmp(key))
    }

    pub fn get(&self, key: &K) -> Option<&V> {
        self.place(key).ok().map(|at| &self.entries[at].1)
    }

    pub fn remove(&mut self, key: &K) -> Option<V> {
        self.place(key).ok().map(|at| self.entries.remove(at).1)
    }

    pub fn insert(&mut self, key: K, value: V) -> Result<Option<V>, AllocFailed<(K, V)>> {
        match self.place(&key) {
            Ok(at) => Ok(Some(mem::replace(&mut self.entries[at].1, value))),
            Err(at) => self.entries.insert(at, (key, value)).map(|()| None),
        }
    }

    pub fn extend(&mut self, other: &BTreeMap<K, V, A>) -> Result<(), AllocError>
    where
        K: Copy,
        V: Copy,
    {
        for (key, value) in other {
            self.insert(*key, *value)?;
        }
        Ok(())
    }
}

/// The entries of a map by reference.
type Entries<'a, K, V> = iter::Map<slice::Iter<'a, (K, V)>, fn(&'a (K, V)) -> (&'a K, &'a V)>;

impl<'a, K, V, A: Allocator> IntoIterator for &'a BTreeMap<K, V, A> {
    type Item = (&'a K, &'a V);
    type IntoIter = Entries<'a, K, V>;

    fn into_iter(self) -> Self::IntoIter {
        self.entries.iter().map(|entry| (&entry.0, &entry.1))
    }
}
