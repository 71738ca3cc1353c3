//! The process's arguments.
use crate::alloc::{AllocError, Global};
use crate::rt::HostRuntime;
use crate::string::String;
use crate::vec::Vec;
use ::std::io;

#[cfg(unix)]
mod words {
    use ::std::ffi::{CStr, c_char};
    use ::std::sync::atomic::{AtomicPtr, AtomicUsize, Ordering};

    static COUNT: AtomicUsize = AtomicUsize::new(0);
    static WORDS: AtomicPtr<*const c_char> = AtomicPtr::new(::std::ptr::null_mut());

    /// Keeps what C's `main` was given.
    pub fn keep(count: i32, words: *mut *const c_char) {
        COUNT.store(count as usize, Ordering::Relaxed);
        WORDS.store(words, Ordering::Relaxed);
    }

    pub fn count() -> usize {
        COUNT.load(Ordering::Relaxed)
    }

    /// The word, where it is UTF-8.
    pub fn word(at: usize) -> Option<&'static str> {
        assert!(at < count());
        // C's `main` has so many words, which stay as long as the process.
        unsafe { CStr::from_ptr(*WORDS.load(Ordering::Relaxed).add(at)) }.to_str().ok()
    }
}

#[cfg(unix)]
pub use words::keep;

pub struct Args(());

/// The process's arguments; an error where one is not UTF-8.
#[cfg(unix)]
pub fn args(_rt: &HostRuntime) -> io::Result<Args> {
    if (0..words::count()).any(|at| words::word(at).is_none()) {
        return Err(io::Error::from(io::ErrorKind::InvalidData));
    }
    Ok(Args(()))
}

#[cfg(not(unix))]
pub fn args(_rt: &HostRuntime) -> io::Result<Args> {
    if ::std::env::args_os().any(|word| word.to_str().is_none()) {
        return Err(io::Error::from(io::ErrorKind::InvalidData));
    }
    Ok(Args(()))
}

impl Args {
    #[cfg(unix)]
    pub fn collect_with(self, alloc: Global) -> Result<Vec<String>, AllocError> {
        let mut all = Vec::new(alloc);
        for word in (0..words::count()).filter_map(words::word) {
            all.push(String::from_str(alloc, word)?)?;
        }
        Ok(all)
    }

    #[cfg(not(unix))]
    pub fn collect_with(self, alloc: Global) -> Result<Vec<String>, AllocError> {
        let mut all = Vec::new(alloc);
        for word in ::std::env::args() {
            all.push(String::from_str(alloc, &word)?)?;
        }
        Ok(all)
    }
}
