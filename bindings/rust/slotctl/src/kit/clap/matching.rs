//! From words to matches, in the order in which the kit's `clap` takes them.

use super::super::alloc::AllocError;
use super::super::{Box, Vec};
use super::builder::ValueParser;
use super::similar::{similar, similar_flag};
use super::texts::{help, misused, refused, version, Listed, Missing, Shown};
use super::{Arg, ArgAction, ArgMatches, Command, Entry, Error};

/// An argument that was named, and the value that was given for it so far.
#[derive(Clone, Copy)]
struct Pending<'c, 'a> {
    arg: &'c Arg<'a>,
    value: Option<&'a str>,
}

/// What was read of the words of one command.
struct Reading<'c, 'a> {
    of: &'c Command<'a>,
    matches: ArgMatches<'a>,
    pending: Option<Pending<'c, 'a>>,
}

/// What the words after a command's name give.
pub fn parse<'a>(of: &Command<'a>, words: &[&'a str]) -> Result<ArgMatches<'a>, Error> {
    let mut reading = Reading {
        of,
        matches: ArgMatches {
            entries: Vec::new(of.alloc),
            subcommand: None,
        },
        pending: None,
    };
    reading.take_words(words)?;
    reading.settle()?;
    reading.add_defaults()?;
    reading.validate()?;
    Ok(reading.matches)
}

/// The help of a command, or of the subcommand that names lead to.
fn help_of(of: &Command<'_>, names: &[&str]) -> Result<Error, AllocError> {
    let Some((name, rest)) = names.split_first() else {
        return help(of);
    };
    match of.subcommand_named(name) {
        Some(subcommand) => help_of(subcommand, rest),
        None => misused(of, format_args!("unrecognized subcommand '{name}'"), &[]),
    }
}

fn is_long(word: &str) -> bool {
    word.len() > 2 && word.starts_with("--")
}

fn is_short(word: &str) -> bool {
    word.len() > 1 && word.starts_with('-') && !word.starts_with("--")
}

impl<'c, 'a> Reading<'c, 'a> {
    /// Takes the words, up to a subcommand, which takes the rest.
    fn take_words(&mut self, words: &[&'a str]) -> Result<(), Error> {
        let mut are_values = false;
        // Whether the word before is an option that still wants its value.
        let mut wants = false;
        for (at, word) in words.iter().enumerate() {
            let rest = &words[at + 1..];
            if are_values {
                return Err(self.stray(word, true)?);
            }
            if !wants {
                if let Some(subcommand) = self.of.subcommand_named(word) {
                    return self.enter(subcommand, rest);
                }
            }
            if *word == "--" {
                are_values = true;
            } else if is_long(word) {
                wants = self.take_long(&word[2..], rest)?;
            } else if is_short(word) {
                self.take_short(&word[1..])?;
                wants = false;
            } else if wants {
                self.give(word);
                wants = false;
            } else {
                return Err(self.stray(word, false)?);
            }
        }
        Ok(())
    }

    /// A subcommand takes the rest of the words.
    fn enter(&mut self, subcommand: &Command<'a>, rest: &[&'a str]) -> Result<(), Error> {
        if subcommand.is_help {
            return Err(help_of(self.of, rest)?);
        }
        let matches = parse(subcommand, rest)?;
        let found = Box::new(self.of.alloc, (subcommand.name, matches))?;
        self.matches.subcommand = Some(found);
        Ok(())
    }

    /// The option that was named last has this value.
    fn give(&mut self, value: &'a str) {
        if let Some(pending) = &mut self.pending {
            pending.value = Some(value);
        }
    }

    /// Takes `--name` or `--name=value`, and returns whether the next word is its value.
    fn take_long(&mut self, text: &'a str, rest: &[&'a str]) -> Result<bool, Error> {
        let (name, value) = match text.split_once('=') {
            Some((name, value)) => (name, Some(value)),
            None => (text, None),
        };
        let Some(arg) = self.of.arg_named(name) else {
            self.settle_anyhow()?;
            return Err(self.unknown(name, rest)?);
        };
        if arg.takes_value() {
            self.settle()?;
            let pending = Pending { arg, value };
            if value.is_some() {
                self.act(pending)?;
            } else {
                self.pending = Some(pending);
            }
            return Ok(value.is_none());
        }
        match value {
            Some(value) => Err(self.unneeded(arg, value)?),
            None => {
                self.settle()?;
                self.act(Pending { arg, value })?;
                Ok(false)
            }
        }
    }

    /// Takes `-abc`.
    fn take_short(&mut self, text: &'a str) -> Result<(), Error> {
        for letter in text.chars() {
            match self.of.args.iter().find(|arg| arg.short == Some(letter)) {
                Some(arg) => {
                    self.settle()?;
                    self.act(Pending { arg, value: None })?;
                }
                None => {
                    self.settle_anyhow()?;
                    let why = format_args!("unexpected argument '-{letter}' found");
                    return Err(misused(self.of, why, &[])?);
                }
            }
        }
        Ok(())
    }

    /// Acts on the option that was named last.
    fn settle(&mut self) -> Result<(), Error> {
        match self.pending.take() {
            Some(pending) => self.act(pending),
            None => Ok(()),
        }
    }

    /// The same, where another fault is told.
    fn settle_anyhow(&mut self) -> Result<(), AllocError> {
        match self.settle() {
            Err(error) if error.kind() == super::error::ErrorKind::OutOfMemory => Err(AllocError),
            _ => Ok(()),
        }
    }

    /// Does what an argument asks for.
    fn act(&mut self, pending: Pending<'c, 'a>) -> Result<(), Error> {
        let Pending { arg, value } = pending;
        let value = match (arg.action, value) {
            (ArgAction::Help, _) => return Err(help(self.of)?),
            (ArgAction::Version, _) => return Err(version(self.of)?),
            (ArgAction::SetTrue, _) => "true",
            (ArgAction::Set, Some(value)) => value,
            (ArgAction::Set, None) => {
                let shown = Shown(arg);
                let why = format_args!("a value is required for '{shown}' but none was supplied");
                return Err(refused(self.of, why)?);
            }
        };
        if self.matches.remove(arg.name) {
            let shown = Shown(arg);
            let why = format_args!("the argument '{shown}' cannot be used multiple times");
            return Err(misused(self.of, why, &[])?);
        }
        self.keep(arg.name, value, true)?;
        self.check(arg, value)
    }

    fn keep(&mut self, name: &'a str, value: &'a str, is_explicit: bool) -> Result<(), AllocError> {
        Ok(self.matches.entries.push(Entry {
            name,
            value,
            is_explicit,
        })?)
    }

    /// Checks a value by what the argument takes.
    fn check(&self, arg: &Arg<'a>, value: &str) -> Result<(), Error> {
        let ValueParser::Unsigned(least, most) = arg.parser else {
            return Ok(());
        };
        let shown = Shown(arg);
        match value.parse::<u64>() {
            Ok(number) if least <= number && number <= most => Ok(()),
            Ok(number) => {
                let dots = if most == u64::MAX { ".." } else { "..=" };
                let why = format_args!(
                    "invalid value '{value}' for '{shown}': {number} is not in {least}{dots}{most}"
                );
                Err(refused(self.of, why)?)
            }
            Err(error) => {
                let why = format_args!("invalid value '{value}' for '{shown}': {error}");
                Err(refused(self.of, why)?)
            }
        }
    }

    fn add_defaults(&mut self) -> Result<(), Error> {
        for arg in &self.of.args {
            let default = match arg.action {
                ArgAction::SetTrue => Some("false"),
                _ => arg.default,
            };
            if let (Some(value), None) = (default, self.matches.get_str(arg.name)) {
                self.keep(arg.name, value, false)?;
            }
        }
        Ok(())
    }

    /// Says what has to be given and is not.
    fn validate(&self) -> Result<(), Error> {
        if self.of.subcommand_required && self.matches.subcommand.is_none() {
            return Err(self.no_subcommand()?);
        }
        let missing = Missing(self.of, &self.matches.entries);
        if !self.of.args.iter().any(|arg| missing.has(arg)) {
            return Ok(());
        }
        let mut used = self.used()?;
        for arg in self.of.args.iter().filter(|arg| missing.has(arg)) {
            used.push(arg.name)?;
        }
        let why = format_args!("the following required arguments were not provided:{missing}");
        Err(misused(self.of, why, &used)?)
    }

    fn no_subcommand(&self) -> Result<Error, AllocError> {
        let mut names = Vec::new(self.of.alloc);
        for command in &self.of.subcommands {
            names.push(command.name)?;
        }
        let why = format_args!(
            "'{}' requires a subcommand but one was not provided\n  [subcommands: {}]",
            self.of.full_name,
            Listed(&names, "")
        );
        misused(self.of, why, &[])
    }

    /// The arguments that were given.
    fn used(&self) -> Result<Vec<&'a str>, AllocError> {
        let mut names = Vec::new(self.of.alloc);
        for entry in self.matches.entries.iter().filter(|it| it.is_explicit) {
            names.push(entry.name)?;
        }
        Ok(names)
    }

    /// A flag has a value.
    fn unneeded(&mut self, arg: &Arg<'a>, value: &str) -> Result<Error, AllocError> {
        let mut used = self.used()?;
        if !used.contains(&arg.name) {
            used.push(arg.name)?;
        }
        self.settle_anyhow()?;
        let shown = Shown(arg);
        let why =
            format_args!("unexpected value '{value}' for '{shown}' found; no more were expected");
        misused(self.of, why, &used)
    }

    /// No argument has this name.
    fn unknown(&mut self, name: &str, rest: &[&'a str]) -> Result<Error, AllocError> {
        let found = similar_flag(self.of, name, rest)?;
        if let Some((flag, None)) = found {
            if self.matches.get_str(flag).is_none() {
                self.keep(flag, "", true)?;
            }
        }
        let used = self.used()?;
        let why = format_args!("unexpected argument '--{name}' found");
        match found {
            Some((flag, None)) => {
                let why = format_args!("{why}\n\n  tip: a similar argument exists: '--{flag}'");
                misused(self.of, why, &used)
            }
            Some((flag, Some(subcommand))) => {
                let why = format_args!("{why}\n\n  tip: '{subcommand} --{flag}' exists");
                misused(self.of, why, &used)
            }
            None => misused(self.of, why, &used),
        }
    }

    /// A word that no argument takes.
    fn stray(&mut self, word: &str, is_behind: bool) -> Result<Error, AllocError> {
        self.settle_anyhow()?;
        let of = self.of;
        if is_behind && of.subcommand_named(word).is_some() {
            let why = format_args!("unexpected argument '{word}' found\n\n  tip: subcommand '{word}' exists; to use it, remove the '--' before it");
            return misused(of, why, &[]);
        }
        if of.subcommands.is_empty() {
            return misused(of, format_args!("unexpected argument '{word}' found"), &[]);
        }
        let names = similar(of.alloc, word, of.subcommands.iter().map(|it| it.name))?;
        let why = format_args!("unrecognized subcommand '{word}'");
        let some = match names.len() {
            0 => return misused(of, why, &[]),
            1 => "a similar subcommand exists",
            _ => "some similar subcommands exist",
        };
        let tip = format_args!("{why}\n\n  tip: {some}: {}", Listed(&names, "'"));
        misused(of, tip, &[])
    }
}
