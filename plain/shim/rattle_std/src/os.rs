//! What the programs ask of Unix, where there is no Unix: no file is a device.
pub mod unix {
    pub mod fs {
        use ::std::fs::{FileType, Metadata};

        pub trait FileTypeExt {
            fn is_char_device(&self) -> bool;
        }
        impl FileTypeExt for FileType {
            fn is_char_device(&self) -> bool {
                false
            }
        }

        pub trait MetadataExt {
            fn rdev(&self) -> u64;
        }
        impl MetadataExt for Metadata {
            fn rdev(&self) -> u64 {
                0
            }
        }
    }
}
