#[macro_export]
macro_rules! vec {
    (in $alloc:expr) => { Ok::<_, $crate::alloc::AllocError>($crate::vec::Vec::new($alloc)) };
    (in $alloc:expr; $item:expr; $count:expr) => { $crate::vec::Vec::from_elem($alloc, $item, $count) };
    (in $alloc:expr; $($item:expr),+ $(,)?) => {
        $crate::iter_with::FromIteratorWith::from_iter_with($alloc, [$($item),+].into_iter())
    };
}

#[macro_export]
macro_rules! format {
    (in $alloc:expr; $($rest:tt)*) => { $crate::string::String::formatted($alloc, ::core::format_args!($($rest)*)) };
}

#[macro_export]
macro_rules! print {
    ($rt:expr; $($rest:tt)*) => { $rt.print(::core::format_args!($($rest)*)) };
}

#[macro_export]
macro_rules! println {
    ($rt:expr; $($rest:tt)*) => { $rt.println(::core::format_args!($($rest)*)) };
}

#[macro_export]
macro_rules! eprint {
    ($rt:expr; $($rest:tt)*) => { $rt.eprint(::core::format_args!($($rest)*)) };
}

#[macro_export]
macro_rules! eprintln {
    ($rt:expr; $($rest:tt)*) => { $rt.eprintln(::core::format_args!($($rest)*)) };
}

/// Proved, so there is nothing to do.
#[macro_export]
macro_rules! prove {
    ($($rest:tt)*) => {};
}

/// The program's `main`. On Unix it is C's: Rust's own opens /dev/null for a stream that is closed, and then no
/// read or write of it fails.
#[macro_export]
macro_rules! main {
    ($begin:ident) => {
        #[global_allocator]
        static HEAP: $crate::alloc::Heap =
            $crate::alloc::Heap(::core::concat!(::core::env!("CARGO_CRATE_NAME"), ": out of memory\n"));

        #[cfg(all(unix, not(test)))]
        #[unsafe(no_mangle)]
        pub extern "C" fn main(count: i32, words: *mut *const ::core::ffi::c_char) -> i32 {
            $crate::env::keep(count, words);
            $crate::rt::ignore_sigpipe();
            i32::from($begin($crate::rt::HostRuntime).0)
        }

        #[cfg(any(not(unix), test))]
        fn main() -> $crate::process::ExitCode {
            $begin($crate::rt::HostRuntime)
        }
    };
}

#[macro_export]
macro_rules! panic {
    ($rt:ident; $($rest:tt)*) => { ::core::panic!($($rest)*) };
    ($($rest:tt)*) => { ::core::panic!($($rest)*) };
}

#[macro_export]
macro_rules! assert {
    ($rt:ident; $($rest:tt)*) => { ::core::assert!($($rest)*) };
    ($($rest:tt)*) => { ::core::assert!($($rest)*) };
}

#[macro_export]
macro_rules! assert_eq {
    ($rt:ident; $($rest:tt)*) => { ::core::assert_eq!($($rest)*) };
    ($($rest:tt)*) => { ::core::assert_eq!($($rest)*) };
}

#[macro_export]
macro_rules! assert_ne {
    ($rt:ident; $($rest:tt)*) => { ::core::assert_ne!($($rest)*) };
    ($($rest:tt)*) => { ::core::assert_ne!($($rest)*) };
}
