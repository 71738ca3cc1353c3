//! What Rattle's `std` has where Rust's differs: allocators that are passed, errors in place of panics, and the
//! runtime that `main` is given. Everything else is Rust's own `std`.

pub use ::std::{
    any, array, ascii, borrow, cell, char, clone, cmp, default, error, f32, f64, fmt, hash, hint, io, iter,
    mem, ops, option, path, pin, ptr, result, slice, str, u8, u16, u32, u64, usize, i64,
};
#[cfg(unix)]
pub use ::std::os;
pub use ::std::{debug_assert, matches, todo, unreachable, write, writeln};

#[cfg(not(unix))]
pub mod os;

pub mod alloc;
pub mod boxed;
pub mod collections;
pub mod convert;
pub mod env;
pub mod fs;
#[macro_use]
pub mod macros;
pub mod num;
pub mod rt;
pub mod simd;
pub mod string;
pub mod time;
pub mod vec;

pub mod marker {
    pub use ::std::marker::*;

    /// A type that its clauses see as a value of another.
    pub trait Model {}

    /// Every value may be let go.
    pub trait Drop {}
    impl<T: ?Sized> Drop for T {}
}

pub mod test {
    use ::std::fmt::{Debug, Display};

    /// Why a test failed. It has no `Debug`, so that each error that has can become one.
    pub struct Fail(::std::string::String);

    impl Fail {
        pub fn new(why: impl Display) -> Fail {
            Fail(::std::format!("{why}"))
        }
    }
    impl<E: Debug> From<E> for Fail {
        fn from(error: E) -> Fail {
            Fail(::std::format!("error: {error:?}"))
        }
    }

    /// What a test may give back.
    pub trait End {
        fn end(self);
    }
    impl End for () {
        fn end(self) {}
    }
    impl End for Result<(), Fail> {
        fn end(self) {
            if let Err(Fail(why)) = self {
                ::std::panic!("{why}");
            }
        }
    }

    pub fn end(result: impl End) {
        result.end();
    }
}

/// Slices from C.
pub mod ffi {
    /// # Safety
    ///
    /// Unless `count` is 0, `count` bytes from `first` on are readable and stay unchanged meanwhile.
    pub unsafe fn bytes<'a>(first: *const u8, count: usize) -> &'a [u8] {
        match count {
            0 => &[],
            _ => unsafe { ::std::slice::from_raw_parts(first, count) },
        }
    }

    /// # Safety
    ///
    /// Unless `count` is 0, `count` bytes from `first` on are writable, and nobody else uses them meanwhile.
    pub unsafe fn bytes_mut<'a>(first: *mut u8, count: usize) -> &'a mut [u8] {
        match count {
            0 => &mut [],
            _ => unsafe { ::std::slice::from_raw_parts_mut(first, count) },
        }
    }
}

pub mod process {
    /// The leave to stop.
    pub trait Abort {}
    impl Abort for crate::rt::HostRuntime {}

    /// The exit status, which `main` needs as a number.
    #[derive(Clone, Copy, Debug, PartialEq, Eq)]
    pub struct ExitCode(pub u8);

    impl ExitCode {
        pub const SUCCESS: ExitCode = ExitCode(0);
        pub const FAILURE: ExitCode = ExitCode(1);
    }
    impl From<u8> for ExitCode {
        fn from(status: u8) -> ExitCode {
            ExitCode(status)
        }
    }
    impl ::std::process::Termination for ExitCode {
        fn report(self) -> ::std::process::ExitCode {
            ::std::process::ExitCode::from(self.0)
        }
    }
}

pub mod prelude {
    pub use crate::ExpectWith;
    pub use crate::rt::AllocGlobal;
    pub use crate::alloc::{CloneWith, ToStringWith};
    pub use crate::iter_with::{CollectWith, ExtendIn};
    pub use crate::marker::Drop;
    pub use crate::rt::{Eprint, HostRuntime, Print};
    pub use crate::string::{StrWith, String};
    pub use crate::vec::{SliceWith, Vec};
    pub use crate::boxed::Box;
}

/// `expect(rt, ..)`.
pub trait ExpectWith<T> {
    fn expect_with<R>(self, rt: R, why: &str) -> T;
}
impl<T> ExpectWith<T> for Option<T> {
    fn expect_with<R>(self, _rt: R, why: &str) -> T {
        self.expect(why)
    }
}
impl<T, E> ExpectWith<T> for Result<T, E> {
    fn expect_with<R>(self, _rt: R, why: &str) -> T {
        match self {
            Ok(value) => value,
            Err(_) => panic!("{why}"),
        }
    }
}

pub mod iter_with {
    use crate::alloc::AllocError;

    /// What an iterator's items can be collected into with an allocator.
    pub trait FromIteratorWith<T, A>: Sized {
        fn from_iter_with<I: Iterator<Item = T>>(alloc: A, items: I) -> Result<Self, AllocError>;
    }

    pub trait CollectWith: Iterator + Sized {
        fn collect_with<A, C: FromIteratorWith<Self::Item, A>>(self, alloc: A) -> Result<C, AllocError> {
            C::from_iter_with(alloc, self)
        }
    }
    impl<I: Iterator> CollectWith for I {}

    pub trait ExtendIn {}
}
