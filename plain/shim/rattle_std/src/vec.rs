//! `Vec` with an allocator of its own. Growth is refused by an error, never by the end of the process.
use crate::alloc::{AllocError, AllocFailed, Allocator, CloneWith, Global};
use crate::iter_with::FromIteratorWith;
use ::std::ops::{Deref, DerefMut};
use ::std::{io, mem, slice, vec};

/// A list of items. Its bytes are reserved with `alloc` before Rust's own allocator gives them.
#[derive(Debug)]
pub struct Vec<T, A: Allocator = Global> {
    items: vec::Vec<T>,
    alloc: A,
}

impl<T, A: Allocator> Vec<T, A> {
    #[inline]
    pub fn new(alloc: A) -> Vec<T, A> {
        Vec {
            items: vec::Vec::new(),
            alloc,
        }
    }

    pub fn with_capacity(alloc: A, count: usize) -> Result<Vec<T, A>, AllocError> {
        let mut all = Vec::new(alloc);
        all.reserve(count)?;
        Ok(all)
    }

    pub fn from_elem(alloc: A, item: T, count: usize) -> Result<Vec<T, A>, AllocError>
    where
        T: Clone,
    {
        let mut all = Vec::with_capacity(alloc, count)?;
        all.items.resize(count, item);
        Ok(all)
    }

    /// Makes room for `count` items in all.
    #[cold]
    fn reserve(&mut self, count: usize) -> Result<(), AllocError> {
        let more = count - self.items.capacity();
        self.alloc.reserve(more * size_of::<T>())?;
        let length = self.items.len();
        self.items.try_reserve_exact(count - length).map_err(|_| {
            self.alloc.release(more * size_of::<T>());
            AllocError
        })
    }

    /// Makes room for `more` items, at least twice the room of before.
    #[inline]
    fn grow(&mut self, more: usize) -> Result<(), AllocError> {
        let count = self.items.len() + more;
        if count <= self.items.capacity() {
            return Ok(());
        }
        self.reserve(count.max(2 * self.items.capacity()))
    }

    #[inline]
    pub fn push(&mut self, item: T) -> Result<(), AllocFailed<T>> {
        if self.grow(1).is_err() {
            return Err(AllocFailed { value: item });
        }
        self.items.push(item);
        Ok(())
    }

    #[inline]
    pub fn pop(&mut self) -> Option<T> {
        self.items.pop()
    }

    pub fn remove(&mut self, at: usize) -> T {
        self.items.remove(at)
    }

    pub fn insert(&mut self, at: usize, item: T) -> Result<(), AllocFailed<T>> {
        if self.grow(1).is_err() {
            return Err(AllocFailed { value: item });
        }
        self.items.insert(at, item);
        Ok(())
    }

    pub fn resize(&mut self, count: usize, item: T) -> Result<(), AllocError>
    where
        T: Clone,
    {
        self.grow(count.saturating_sub(self.items.len()))?;
        self.items.resize(count, item);
        Ok(())
    }

    pub fn truncate(&mut self, count: usize) {
        self.items.truncate(count);
    }

    #[inline]
    pub fn clear(&mut self) {
        self.items.clear();
    }

    #[inline]
    pub fn as_slice(&self) -> &[T] {
        &self.items
    }

    #[inline]
    pub fn as_mut_slice(&mut self) -> &mut [T] {
        &mut self.items
    }

    pub fn allocator(&self) -> &A {
        &self.alloc
    }

    pub fn extend_from_slice(&mut self, items: &[T]) -> Result<(), AllocError>
    where
        T: Copy,
    {
        self.grow(items.len())?;
        self.items.extend_from_slice(items);
        Ok(())
    }
}

impl<T, A: Allocator> Drop for Vec<T, A> {
    fn drop(&mut self) {
        self.alloc.release(self.items.capacity() * size_of::<T>());
    }
}

impl<T: Clone, A: Allocator + Copy> CloneWith for Vec<T, A> {
    fn clone_with(&self) -> Result<Self, AllocError> {
        self.to_vec_with(self.alloc)
    }
}

impl<T: PartialEq, A: Allocator> PartialEq for Vec<T, A> {
    fn eq(&self, other: &Self) -> bool {
        self.items == other.items
    }
}

impl<T: Eq, A: Allocator> Eq for Vec<T, A> {}

impl<T, A: Allocator> Deref for Vec<T, A> {
    type Target = [T];

    #[inline]
    fn deref(&self) -> &[T] {
        &self.items
    }
}

impl<T, A: Allocator> DerefMut for Vec<T, A> {
    #[inline]
    fn deref_mut(&mut self) -> &mut [T] {
        &mut self.items
    }
}

impl<T, A: Allocator> IntoIterator for Vec<T, A> {
    type Item = T;
    type IntoIter = vec::IntoIter<T>;

    fn into_iter(mut self) -> vec::IntoIter<T> {
        self.alloc.release(self.items.capacity() * size_of::<T>());
        mem::take(&mut self.items).into_iter()
    }
}

impl<'a, T, A: Allocator> IntoIterator for &'a Vec<T, A> {
    type Item = &'a T;
    type IntoIter = slice::Iter<'a, T>;

    fn into_iter(self) -> slice::Iter<'a, T> {
        self.items.iter()
    }
}

impl<'a, T, A: Allocator> IntoIterator for &'a mut Vec<T, A> {
    type Item = &'a mut T;
    type IntoIter = slice::IterMut<'a, T>;

    fn into_iter(self) -> slice::IterMut<'a, T> {
        self.items.iter_mut()
    }
}

impl<T, A: Allocator> FromIteratorWith<T, A> for Vec<T, A> {
    fn from_iter_with<I: Iterator<Item = T>>(alloc: A, items: I) -> Result<Self, AllocError> {
        let mut all = Vec::new(alloc);
        for item in items {
            all.push(item)?;
        }
        Ok(all)
    }
}

impl<A: Allocator> io::Write for Vec<u8, A> {
    fn write(&mut self, bytes: &[u8]) -> io::Result<usize> {
        match self.extend_from_slice(bytes) {
            Ok(()) => Ok(bytes.len()),
            Err(AllocError) => Err(io::Error::from(io::ErrorKind::OutOfMemory)),
        }
    }

    fn flush(&mut self) -> io::Result<()> {
        Ok(())
    }
}

/// Copies of a slice by an allocator.
pub trait SliceWith<T> {
    fn to_vec_with<A: Allocator>(&self, alloc: A) -> Result<Vec<T, A>, AllocError>
    where
        T: Clone;
}

impl<T> SliceWith<T> for [T] {
    fn to_vec_with<A: Allocator>(&self, alloc: A) -> Result<Vec<T, A>, AllocError>
    where
        T: Clone,
    {
        FromIteratorWith::from_iter_with(alloc, self.iter().cloned())
    }
}
