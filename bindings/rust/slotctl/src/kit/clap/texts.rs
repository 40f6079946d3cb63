//! What is told: help, usage and why words are refused, in the words of the kit's `clap`.

use super::super::alloc::AllocError;
use super::super::String;
use super::error::ErrorKind;
use super::{Arg, Command, Entry, Error};
use std::fmt::{self, Display, Write};

/// How many columns a line of help has.
const COLUMNS: usize = 100;

/// What stands for an argument in a text: its long name, and the name of its value.
pub struct Shown<'c, 'a>(pub &'c Arg<'a>);

impl Display for Shown<'_, '_> {
    fn fmt(&self, f: &mut fmt::Formatter<'_>) -> fmt::Result {
        write!(f, "--{}", self.0.long)?;
        if self.0.takes_value() {
            write!(f, " <{}>", self.0.value_name)?;
        }
        Ok(())
    }
}

fn width_of(arg: &Arg<'_>) -> usize {
    let value = if arg.takes_value() {
        arg.value_name.chars().count() + 3
    } else {
        0
    };
    arg.long.chars().count() + value + 2
}

/// A text that grows by what is written to it.
struct Text<'c, 'a> {
    of: &'c Command<'a>,
    text: String,
}

impl<'c, 'a> Text<'c, 'a> {
    fn new(of: &'c Command<'a>) -> Text<'c, 'a> {
        let text = String::new(of.alloc);
        Text { of, text }
    }

    fn put(&mut self, what: fmt::Arguments<'_>) -> Result<(), AllocError> {
        self.text.write_fmt(what).map_err(|_| AllocError)
    }

    fn put_spaces(&mut self, count: usize) -> Result<(), AllocError> {
        self.put(format_args!("{:count$}", ""))
    }

    /// What the usage says: the name, then the options that have to be given and those that were.
    fn put_usage(&mut self, used: &[&str]) -> Result<(), AllocError> {
        let of = self.of;
        self.put(format_args!("{}", of.full_name))?;
        let is_optional =
            |arg: &Arg<'_>| !arg.is_required && arg.long != "help" && arg.long != "version";
        if used.is_empty() && of.args.iter().any(is_optional) {
            self.put(format_args!(" [OPTIONS]"))?;
        }
        for arg in of.args.iter().filter(|arg| arg.is_required) {
            self.put(format_args!(" {}", Shown(arg)))?;
        }
        for name in used {
            if let Some(arg) = of.arg_named(name).filter(|arg| !arg.is_required) {
                self.put(format_args!(" {}", Shown(arg)))?;
            }
        }
        if of.is_help {
            self.put(format_args!(" [COMMAND]..."))?;
        }
        if of.subcommand_required {
            self.put(format_args!(" <COMMAND>"))?;
        }
        Ok(())
    }

    fn put_subcommands(&mut self) -> Result<(), AllocError> {
        let commands = &self.of.subcommands;
        let widths = commands.iter().map(|command| command.name.chars().count());
        let longest = widths.max().unwrap_or(0).max(2);
        self.put(format_args!("Commands:"))?;
        for command in commands {
            self.put(format_args!(
                "\n  {:longest$}  {}",
                command.name, command.about
            ))?;
        }
        Ok(())
    }

    fn put_arg(&mut self, arg: &Arg<'_>, longest: usize, is_wide: bool) -> Result<(), AllocError> {
        match arg.short {
            Some(short) => self.put(format_args!("\n  -{short}, {}", Shown(arg)))?,
            None => self.put(format_args!("\n      {}", Shown(arg)))?,
        }
        if is_wide {
            self.put(format_args!("\n          "))?;
        } else {
            self.put_spaces(longest - width_of(arg) + 2)?;
        }
        self.put(format_args!("{}", arg.help))?;
        if let Some(value) = arg.default {
            let gap = if arg.help.is_empty() { "" } else { " " };
            self.put(format_args!("{gap}[default: {}]", Escaped(value)))?;
        }
        Ok(())
    }

    fn put_args(&mut self) -> Result<(), AllocError> {
        let args = &self.of.args;
        let longest = args.iter().map(width_of).max().unwrap_or(0);
        let taken = longest + 8;
        let is_wide = |arg: &Arg<'_>| {
            let default = arg.default.map_or(0, |value| value.chars().count() + 11);
            (41..=COLUMNS).contains(&taken) && COLUMNS - taken < arg.help.chars().count() + default
        };
        let is_wide = args.iter().any(is_wide);
        self.put(format_args!("Options:"))?;
        for arg in args {
            self.put_arg(arg, longest, is_wide)?;
        }
        Ok(())
    }

    fn put_help(&mut self) -> Result<(), AllocError> {
        let of = self.of;
        self.put(format_args!("{}\n\nUsage: ", of.about))?;
        self.put_usage(&[])?;
        if !of.subcommands.is_empty() {
            self.put(format_args!("\n\n"))?;
            self.put_subcommands()?;
        }
        if of.is_help {
            self.put(format_args!(
                "\n\nArguments:\n  [COMMAND]...  Print help for the subcommand(s)"
            ))?;
        }
        if !of.args.is_empty() {
            self.put(format_args!("\n\n"))?;
            self.put_args()?;
        }
        if !of.after_help.is_empty() {
            self.put(format_args!("\n\n{}", of.after_help))?;
        }
        self.put(format_args!("\n"))
    }

    fn put_hint(&mut self) -> Result<(), AllocError> {
        if self.of.is_help {
            return self.put(format_args!("\n"));
        }
        self.put(format_args!("\n\nFor more information, try '--help'.\n"))
    }
}

/// A value as it is told: in quotes where it would not be seen.
struct Escaped<'v>(&'v str);

impl Display for Escaped<'_> {
    fn fmt(&self, f: &mut fmt::Formatter<'_>) -> fmt::Result {
        if self.0.is_empty() || self.0.contains(char::is_whitespace) {
            write!(f, "{:?}", self.0)
        } else {
            f.write_str(self.0)
        }
    }
}

/// The help of a command.
pub fn help(of: &Command<'_>) -> Result<Error, AllocError> {
    let mut text = Text::new(of);
    text.put_help()?;
    Ok(Error::new(ErrorKind::DisplayHelp, text.text))
}

/// What the version says beside the source's own text.
const BUILD: &str = "built by cargo, its contracts taken out";

/// The version of the program, and that it is this build of it.
pub fn version(of: &Command<'_>) -> Result<Error, AllocError> {
    let mut text = Text::new(of);
    let version = of.version.unwrap_or("");
    text.put(format_args!("{} {version}; {BUILD}\n", of.name))?;
    Ok(Error::new(ErrorKind::DisplayVersion, text.text))
}

/// Why words are refused, and where help is found.
pub fn refused(of: &Command<'_>, why: fmt::Arguments<'_>) -> Result<Error, AllocError> {
    let mut text = Text::new(of);
    text.put(format_args!("error: {why}"))?;
    text.put_hint()?;
    Ok(Error::new(ErrorKind::Refused, text.text))
}

/// The same, with the usage by the arguments that were used.
pub fn misused(
    of: &Command<'_>,
    why: fmt::Arguments<'_>,
    used: &[&str],
) -> Result<Error, AllocError> {
    let mut text = Text::new(of);
    text.put(format_args!("error: {why}\n\nUsage: "))?;
    text.put_usage(used)?;
    text.put_hint()?;
    Ok(Error::new(ErrorKind::Refused, text.text))
}

/// Some texts between commas.
pub struct Listed<'t>(pub &'t [&'t str], pub &'static str);

impl Display for Listed<'_> {
    fn fmt(&self, f: &mut fmt::Formatter<'_>) -> fmt::Result {
        for (i, text) in self.0.iter().enumerate() {
            let gap = if i == 0 { "" } else { ", " };
            write!(f, "{gap}{0}{text}{0}", self.1)?;
        }
        Ok(())
    }
}

/// The arguments that have to be given and are not, a line for each.
pub struct Missing<'c, 'a>(pub &'c Command<'a>, pub &'c [Entry<'a>]);

impl Missing<'_, '_> {
    /// Whether an argument is missing.
    pub fn has(&self, arg: &Arg<'_>) -> bool {
        arg.is_required && !self.1.iter().any(|entry| entry.name == arg.name)
    }
}

impl Display for Missing<'_, '_> {
    fn fmt(&self, f: &mut fmt::Formatter<'_>) -> fmt::Result {
        for arg in self.0.args.iter().filter(|arg| self.has(arg)) {
            write!(f, "\n  {}", Shown(arg))?;
        }
        Ok(())
    }
}
