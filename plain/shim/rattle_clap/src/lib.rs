//! The kit's `clap` over the registry's: the allocator of each call is not used, and names are copied.
//!
//! clap would abort without memory, so its work is done infallibly: the process ends with status 3 then.
use registry_clap as registry;
use rattle_std::alloc::{AllocError, Global, infallibly};
use rattle_std::string::String;
use std::fmt::{self, Display};
use std::marker::PhantomData;

pub use registry::ArgAction;

/// Kinds of errors, with the kit's own for an allocation failure, never met here.
pub mod error {
    use crate::registry;

    /// The kind of an error.
    #[derive(Clone, Copy, Debug, PartialEq, Eq)]
    pub enum ErrorKind {
        /// An allocation failed.
        OutOfMemory,
        /// Help was requested.
        DisplayHelp,
        /// The version was requested.
        DisplayVersion,
        /// The words are no command line.
        Words,
    }

    impl From<registry::error::ErrorKind> for ErrorKind {
        fn from(kind: registry::error::ErrorKind) -> ErrorKind {
            match kind {
                registry::error::ErrorKind::DisplayHelp => ErrorKind::DisplayHelp,
                registry::error::ErrorKind::DisplayVersion => ErrorKind::DisplayVersion,
                _ => ErrorKind::Words,
            }
        }
    }
}

/// A program or a command.
#[derive(Debug)]
pub struct Command<'a>(registry::Command, PhantomData<&'a str>);

impl<'a> Command<'a> {
    pub fn new(_alloc: Global, name: &'a str) -> Self {
        Command(infallibly(|| registry::Command::new(name.to_owned())), PhantomData)
    }

    fn map(self, change: impl FnOnce(registry::Command) -> registry::Command) -> Self {
        Command(infallibly(|| change(self.0)), PhantomData)
    }

    pub fn about(self, text: &'a str) -> Self {
        self.map(|command| command.about(text.to_owned()))
    }

    pub fn after_help(self, text: &'a str) -> Self {
        self.map(|command| command.after_help(text.to_owned()))
    }

    pub fn version(self, text: &'a str) -> Self {
        self.map(|command| command.version(text.to_owned()))
    }

    pub fn disable_help_subcommand(self, is_off: bool) -> Self {
        self.map(|command| command.disable_help_subcommand(is_off))
    }

    pub fn subcommand_required(self, is_on: bool) -> Self {
        self.map(|command| command.subcommand_required(is_on))
    }

    pub fn subcommand(self, command: Command<'a>) -> Result<Self, AllocError> {
        Ok(self.map(|program| program.subcommand(command.0)))
    }

    pub fn arg(self, arg: Arg<'a>) -> Result<Self, AllocError> {
        Ok(self.map(|command| command.arg(arg.0)))
    }

    pub fn try_get_matches_from(self, words: &[&str]) -> Result<ArgMatches<'a>, Error> {
        let found = infallibly(|| self.0.try_get_matches_from(words.iter().copied()));
        found.map(|matches| ArgMatches(matches, PhantomData)).map_err(Error)
    }
}

/// An option or an argument.
#[derive(Debug)]
pub struct Arg<'a>(registry::Arg, PhantomData<&'a str>);

impl<'a> Arg<'a> {
    pub fn new(_alloc: Global, name: &'a str) -> Self {
        Arg(infallibly(|| registry::Arg::new(name.to_owned())), PhantomData)
    }

    fn map(self, change: impl FnOnce(registry::Arg) -> registry::Arg) -> Self {
        Arg(infallibly(|| change(self.0)), PhantomData)
    }

    pub fn long(self, name: &'a str) -> Self {
        self.map(|arg| arg.long(name.to_owned()))
    }

    pub fn value_name(self, name: &'a str) -> Self {
        self.map(|arg| arg.value_name(name.to_owned()))
    }

    pub fn help(self, text: &'a str) -> Self {
        self.map(|arg| arg.help(text.to_owned()))
    }

    pub fn value_parser(self, parser: registry::builder::ValueParser) -> Self {
        self.map(|arg| arg.value_parser(parser))
    }

    pub fn action(self, action: ArgAction) -> Self {
        self.map(|arg| arg.action(action))
    }

    pub fn default_value(self, text: &'a str) -> Self {
        self.map(|arg| arg.default_value(text.to_owned()))
    }

    pub fn required(self, is_on: bool) -> Self {
        self.map(|arg| arg.required(is_on))
    }
}

/// The values of a command line.
#[derive(Debug)]
#[repr(transparent)]
pub struct ArgMatches<'a>(registry::ArgMatches, PhantomData<&'a str>);

impl<'a> ArgMatches<'a> {
    pub fn subcommand(&self) -> Option<(&str, &ArgMatches<'a>)> {
        let (name, values) = self.0.subcommand()?;
        // `ArgMatches` has the layout of the registry's.
        Some((name, unsafe { &*std::ptr::from_ref(values).cast::<ArgMatches<'a>>() }))
    }

    pub fn get_str(&self, name: &str) -> Option<&str> {
        self.0.get_one::<std::string::String>(name).map(|text| text.as_str())
    }

    pub fn get_one<T: Copy + Send + Sync + 'static>(&self, name: &str) -> Option<T> {
        self.0.get_one::<T>(name).copied()
    }
}

/// A wrong command line, or a request for help or the version.
#[derive(Debug)]
pub struct Error(registry::Error);

impl Error {
    pub fn kind(&self) -> error::ErrorKind {
        self.0.kind().into()
    }

    pub fn to_string_with(&self, alloc: Global) -> Result<String, AllocError> {
        String::formatted(alloc, format_args!("{self}"))
    }
}

impl Display for Error {
    fn fmt(&self, f: &mut fmt::Formatter<'_>) -> fmt::Result {
        infallibly(|| self.0.fmt(f))
    }
}

/// The parser of a type's values.
#[macro_export]
macro_rules! value_parser {
    ($kind:ty) => {
        $crate::parser_of::<$kind>()
    };
}

/// The parser of numbers in the range of `u64`.
pub fn parser_of<T>() -> registry::builder::ValueParser {
    infallibly(|| registry::value_parser!(u64).into())
}
