//! Command lines, in the place of the kit's `clap`: as much of it as the program asks for, and the same texts. The original's
//! texts change from version to version, so it serves less well than this page.

mod matching;
mod similar;
mod texts;

use super::alloc::{AllocError, AllocFailed, Global};
use super::convert::AsStr;
use super::{Box, String, Vec};
use std::str::FromStr;

pub mod builder {
    //! The kit's `clap::builder`.

    /// What a value may be.
    #[derive(Clone, Copy)]
    pub enum ValueParser {
        /// Any text.
        Text,
        /// A number from the first to the second.
        Unsigned(u64, u64),
    }

    impl ValueParser {
        /// `unsigned`: a number in this range.
        pub fn unsigned(least: u64, most: u64) -> ValueParser {
            ValueParser::Unsigned(least, most)
        }
    }
}

pub mod error {
    //! The kit's `clap::error`.

    /// Why there are no matches.
    #[derive(Clone, Copy, Debug, PartialEq, Eq)]
    pub enum ErrorKind {
        /// Help was asked for.
        DisplayHelp,
        /// The version was asked for.
        DisplayVersion,
        /// An allocation failed.
        OutOfMemory,
        /// The words are refused.
        Refused,
    }
}

use builder::ValueParser;
use error::ErrorKind;

/// What is done with an argument.
#[derive(Clone, Copy, PartialEq, Eq)]
pub enum ArgAction {
    /// Its value is kept.
    Set,
    /// It is true where it is given.
    SetTrue,
    /// It asks for help.
    Help,
    /// It asks for the version.
    Version,
}

/// An option or a flag.
#[derive(Clone, Copy)]
pub struct Arg<'a> {
    name: &'a str,
    short: Option<char>,
    long: &'a str,
    action: ArgAction,
    value_name: &'a str,
    help: &'a str,
    default: Option<&'a str>,
    is_required: bool,
    parser: ValueParser,
}

impl<'a> Arg<'a> {
    /// `new`: an argument of this name.
    pub fn new(_alloc: Global, name: &'a str) -> Arg<'a> {
        Arg {
            name,
            short: None,
            long: name,
            action: ArgAction::Set,
            value_name: "",
            help: "",
            default: None,
            is_required: false,
            parser: ValueParser::Text,
        }
    }

    /// `long`: what stands behind two hyphens.
    pub fn long(self, long: &'a str) -> Arg<'a> {
        Arg { long, ..self }
    }

    /// `action`: what is done with it.
    pub fn action(self, action: ArgAction) -> Arg<'a> {
        Arg { action, ..self }
    }

    /// `value_name`: what the help calls its value.
    pub fn value_name(self, value_name: &'a str) -> Arg<'a> {
        Arg { value_name, ..self }
    }

    /// `help`: what the help says of it.
    pub fn help(self, help: &'a str) -> Arg<'a> {
        Arg { help, ..self }
    }

    /// `default_value`: its value where none is given.
    pub fn default_value(self, value: &'a str) -> Arg<'a> {
        Arg {
            default: Some(value),
            ..self
        }
    }

    /// `required`: whether it has to be given.
    pub fn required(self, is_required: bool) -> Arg<'a> {
        Arg {
            is_required,
            ..self
        }
    }

    /// `value_parser`: what its value may be.
    pub fn value_parser(self, parser: ValueParser) -> Arg<'a> {
        Arg { parser, ..self }
    }

    fn takes_value(&self) -> bool {
        self.action == ArgAction::Set
    }
}

/// A program or a subcommand.
pub struct Command<'a> {
    alloc: Global,
    name: &'a str,
    version: Option<&'a str>,
    about: &'a str,
    after_help: &'a str,
    subcommand_required: bool,
    args: Vec<Arg<'a>>,
    subcommands: Vec<Command<'a>>,
    // What its usage begins with.
    full_name: String,
    // Whether it is `help`, which takes the names of subcommands.
    is_help: bool,
}

impl<'a> Command<'a> {
    /// `new`: a command of this name.
    pub fn new(alloc: Global, name: &'a str) -> Command<'a> {
        Command {
            alloc,
            name,
            version: None,
            about: "",
            after_help: "",
            subcommand_required: false,
            args: Vec::new(alloc),
            subcommands: Vec::new(alloc),
            full_name: String::new(alloc),
            is_help: false,
        }
    }

    /// `version`: what stands behind the name where the version is asked for.
    pub fn version(self, version: &'a str) -> Command<'a> {
        Command {
            version: Some(version),
            ..self
        }
    }

    /// `about`: what the help says of it.
    pub fn about(self, about: &'a str) -> Command<'a> {
        Command { about, ..self }
    }

    /// `after_help`: what the help ends with.
    pub fn after_help(self, after_help: &'a str) -> Command<'a> {
        Command { after_help, ..self }
    }

    /// `subcommand_required`: whether a subcommand has to be given.
    pub fn subcommand_required(self, subcommand_required: bool) -> Command<'a> {
        Command {
            subcommand_required,
            ..self
        }
    }

    /// `arg`: takes an argument more.
    ///
    /// # Errors
    ///
    /// `AllocError` where an allocation failed.
    pub fn arg(mut self, arg: Arg<'a>) -> Result<Command<'a>, AllocError> {
        self.args.push(arg)?;
        Ok(self)
    }

    /// `subcommand`: has a subcommand more.
    ///
    /// # Errors
    ///
    /// `AllocError` where an allocation failed.
    pub fn subcommand(mut self, command: Command<'a>) -> Result<Command<'a>, AllocError> {
        self.subcommands.push(command)?;
        Ok(self)
    }

    /// `try_get_matches_from`: what the words give, of which the first names the program.
    ///
    /// # Errors
    ///
    /// The help or the version that was asked for, why the words are refused, or `OutOfMemory`.
    pub fn try_get_matches_from<S: AsStr>(
        mut self,
        words: &'a [S],
    ) -> Result<ArgMatches<'a>, Error> {
        let mut texts = Vec::with_capacity(self.alloc, words.len())?;
        for word in words {
            texts.push_reserved(word.as_str());
        }
        let program = match texts.first() {
            Some(word) => word.rsplit('/').next().unwrap_or(self.name),
            None => self.name,
        };
        self.build(program)?;
        matching::parse(&self, texts.get(1..).unwrap_or(&[]))
    }

    /// Adds what each command has by itself, and names the subcommands.
    fn build(&mut self, program: &str) -> Result<(), AllocError> {
        self.full_name.push_str(program)?;
        if !self.subcommands.is_empty() {
            let mut help = Command::new(self.alloc, "help")
                .about("Print this message or the help of the given subcommand(s)");
            help.is_help = true;
            self.subcommands.push(help)?;
        }
        for command in &mut self.subcommands {
            command.full_name.push_str(program)?;
            command.full_name.push_str(" ")?;
            command.full_name.push_str(command.name)?;
            if !command.is_help {
                command.args.push(help_flag(command.alloc))?;
            }
        }
        self.args.push(help_flag(self.alloc))?;
        if self.version.is_some() {
            self.args.push(version_flag(self.alloc))?;
        }
        Ok(())
    }

    fn arg_named(&self, long: &str) -> Option<&Arg<'a>> {
        self.args.iter().find(|arg| arg.long == long)
    }

    fn subcommand_named(&self, name: &str) -> Option<&Command<'a>> {
        self.subcommands.iter().find(|command| command.name == name)
    }
}

fn help_flag<'a>(alloc: Global) -> Arg<'a> {
    Arg {
        short: Some('h'),
        ..Arg::new(alloc, "help")
            .action(ArgAction::Help)
            .help("Print help")
    }
}

fn version_flag<'a>(alloc: Global) -> Arg<'a> {
    Arg {
        short: Some('V'),
        ..Arg::new(alloc, "version")
            .action(ArgAction::Version)
            .help("Print version")
    }
}

/// An argument that has a value.
#[derive(Clone, Copy)]
struct Entry<'a> {
    name: &'a str,
    value: &'a str,
    is_explicit: bool,
}

/// What words give.
pub struct ArgMatches<'a> {
    entries: Vec<Entry<'a>>,
    subcommand: Option<Box<(&'a str, ArgMatches<'a>)>>,
}

impl<'a> ArgMatches<'a> {
    /// `get_str`: the value of an argument.
    pub fn get_str(&self, name: &str) -> Option<&'a str> {
        let entry = self.entries.iter().find(|entry| entry.name == name)?;
        Some(entry.value)
    }

    /// `get_one`: the value of an argument, where it is such a text.
    pub fn get_one<T: FromStr>(&self, name: &str) -> Option<T> {
        self.get_str(name)?.parse().ok()
    }

    /// `subcommand`: the subcommand that was given, and what its words give.
    pub fn subcommand(&self) -> Option<(&'a str, &ArgMatches<'a>)> {
        let (name, matches) = &**self.subcommand.as_ref()?;
        Some((name, matches))
    }

    fn remove(&mut self, name: &str) -> bool {
        let before = self.entries.len();
        self.entries.retain(|entry| entry.name != name);
        self.entries.len() < before
    }
}

/// Why there are no matches.
#[derive(Debug)]
pub struct Error {
    kind: ErrorKind,
    text: Option<String>,
}

impl Error {
    fn new(kind: ErrorKind, text: String) -> Error {
        Error {
            kind,
            text: Some(text),
        }
    }

    /// `kind`: of what kind it is.
    pub fn kind(&self) -> ErrorKind {
        self.kind
    }

    /// `to_string`: its text.
    ///
    /// # Errors
    ///
    /// `AllocError` where an allocation failed.
    pub fn to_string(&self, alloc: Global) -> Result<String, AllocError> {
        match &self.text {
            Some(text) => String::from_str(alloc, text.as_str()),
            None => String::from_str(alloc, "error: out of memory\n"),
        }
    }
}

impl From<AllocError> for Error {
    fn from(_: AllocError) -> Error {
        Error {
            kind: ErrorKind::OutOfMemory,
            text: None,
        }
    }
}

impl<T> From<AllocFailed<T>> for Error {
    fn from(_: AllocFailed<T>) -> Error {
        AllocError.into()
    }
}
