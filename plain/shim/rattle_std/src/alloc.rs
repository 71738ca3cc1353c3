//! An allocator that is passed, and what comes where it has no memory.
use ::std::alloc::{GlobalAlloc, Layout, System};
use ::std::fmt;
use ::std::io::Write;
use ::std::sync::atomic::{AtomicBool, Ordering};

#[derive(Clone, Copy, Debug, Default, PartialEq, Eq)]
pub struct Global;

/// An allocator that may refuse bytes before Rust's own is called.
pub trait Allocator {
    fn reserve(&self, _bytes: usize) -> Result<(), AllocError> {
        Ok(())
    }
    fn release(&self, _bytes: usize) {}
}
impl Allocator for Global {}

#[derive(Clone, Copy, Debug, PartialEq, Eq)]
pub struct AllocError;

impl fmt::Display for AllocError {
    fn fmt(&self, f: &mut fmt::Formatter<'_>) -> fmt::Result {
        f.write_str("memory allocation failed")
    }
}
impl ::std::error::Error for AllocError {}
impl From<AllocError> for fmt::Error {
    fn from(_: AllocError) -> fmt::Error {
        fmt::Error
    }
}

/// What could not be stored.
#[derive(Debug)]
pub struct AllocFailed<T> {
    pub value: T,
}
impl<T> From<AllocFailed<T>> for AllocError {
    fn from(_: AllocFailed<T>) -> AllocError {
        AllocError
    }
}

impl<T> fmt::Display for AllocFailed<T> {
    fn fmt(&self, f: &mut fmt::Formatter<'_>) -> fmt::Result {
        AllocError.fmt(f)
    }
}
impl<T: fmt::Debug> ::std::error::Error for AllocFailed<T> {}

/// A copy, for which there may be no memory.
pub trait CloneWith: Sized {
    fn clone_with(&self) -> Result<Self, AllocError>;
}
impl<T: Clone> CloneWith for T {
    fn clone_with(&self) -> Result<Self, AllocError> {
        Ok(self.clone())
    }
}

/// `to_string(alloc)`.
pub trait ToStringWith: fmt::Display {
    fn to_string_with(&self, alloc: Global) -> Result<crate::string::String, AllocError> {
        crate::string::String::formatted(alloc, format_args!("{self}"))
    }
}
impl<T: fmt::Display + ?Sized> ToStringWith for T {}

/// Whether the work in hand would abort without memory.
static IS_INFALLIBLE: AtomicBool = AtomicBool::new(false);

/// Does work of a crate that aborts without memory: under a `Heap` the process ends with status 3 instead.
pub fn infallibly<R>(work: impl FnOnce() -> R) -> R {
    let outer = IS_INFALLIBLE.swap(true, Ordering::Relaxed);
    let result = work();
    IS_INFALLIBLE.store(outer, Ordering::Relaxed);
    result
}

/// Rust's own allocator, and what a program prints where it ends the process.
pub struct Heap(pub &'static str);

impl Heap {
    fn require(&self, found: *mut u8) -> *mut u8 {
        if found.is_null() && IS_INFALLIBLE.swap(false, Ordering::Relaxed) {
            let _ = ::std::io::stderr().write_all(self.0.as_bytes());
            ::std::process::exit(3);
        }
        found
    }
}

// Each call is one of Rust's own allocator, with the same obligations.
unsafe impl GlobalAlloc for Heap {
    unsafe fn alloc(&self, layout: Layout) -> *mut u8 {
        self.require(unsafe { System.alloc(layout) })
    }
    unsafe fn alloc_zeroed(&self, layout: Layout) -> *mut u8 {
        self.require(unsafe { System.alloc_zeroed(layout) })
    }
    unsafe fn realloc(&self, old: *mut u8, layout: Layout, bytes: usize) -> *mut u8 {
        self.require(unsafe { System.realloc(old, layout, bytes) })
    }
    unsafe fn dealloc(&self, old: *mut u8, layout: Layout) {
        unsafe { System.dealloc(old, layout) }
    }
}
