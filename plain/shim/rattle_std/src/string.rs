//! `String` with an allocator that is passed.
use crate::alloc::{AllocError, Global};
use ::std::ops::Deref;
use ::std::{fmt, string};

#[derive(Clone, Debug, PartialEq, Eq, PartialOrd, Ord, Hash)]
#[repr(transparent)]
pub struct String(string::String);

impl String {
    pub fn new(_alloc: Global) -> String {
        String(string::String::new())
    }

    pub fn from_str(_alloc: Global, text: &str) -> Result<String, AllocError> {
        let mut all = String(string::String::new());
        all.push_str(text)?;
        Ok(all)
    }

    pub fn push_str(&mut self, text: &str) -> Result<(), AllocError> {
        self.0.try_reserve(text.len()).map_err(|_| AllocError)?;
        self.0.push_str(text);
        Ok(())
    }

    pub fn push(&mut self, letter: char) -> Result<(), AllocError> {
        self.push_str(letter.encode_utf8(&mut [0; 4]))
    }

    pub fn as_str(&self) -> &str {
        &self.0
    }

    /// For `write!`, whose error is here that of memory.
    pub fn write_fmt(&mut self, text: fmt::Arguments<'_>) -> Result<(), AllocError> {
        fmt::Write::write_fmt(self, text).map_err(|_| AllocError)
    }

    /// `format!(in alloc; ..)`.
    pub fn formatted(alloc: Global, text: fmt::Arguments<'_>) -> Result<String, AllocError> {
        let mut all = String::new(alloc);
        all.write_fmt(text)?;
        Ok(all)
    }
}

impl Deref for String {
    type Target = str;

    fn deref(&self) -> &str {
        &self.0
    }
}

impl fmt::Display for String {
    fn fmt(&self, f: &mut fmt::Formatter<'_>) -> fmt::Result {
        self.0.fmt(f)
    }
}

impl fmt::Write for String {
    fn write_str(&mut self, text: &str) -> fmt::Result {
        Ok(self.push_str(text)?)
    }
}

pub trait StrWith {
    fn replace_with(&self, alloc: Global, from: &str, to: &str) -> Result<String, AllocError>;
}
impl StrWith for str {
    fn replace_with(&self, alloc: Global, from: &str, to: &str) -> Result<String, AllocError> {
        let mut all = String::new(alloc);
        for (place, piece) in self.split(from).enumerate() {
            if place > 0 {
                all.push_str(to)?;
            }
            all.push_str(piece)?;
        }
        Ok(all)
    }
}
