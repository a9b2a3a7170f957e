//! What is said of words that ask for nothing.
use super::super::NOT_PROVED;
use super::super::alloc::AllocError;
use super::command::Command;
use std::fmt;

#[derive(Clone, Copy, Debug, PartialEq, Eq)]
pub enum ErrorKind {
    /// There was no memory for the words.
    OutOfMemory,
    /// The words ask for nothing, or for help or the version.
    Words,
}

#[derive(Debug)]
pub struct Error {
    kind: ErrorKind,
    text: String,
}

impl From<AllocError> for Error {
    fn from(_: AllocError) -> Error {
        Error { kind: ErrorKind::OutOfMemory, text: "error: out of memory\n".into() }
    }
}

impl fmt::Display for Error {
    fn fmt(&self, f: &mut fmt::Formatter) -> fmt::Result {
        f.write_str(&self.text)
    }
}

/// How one argument is like another.
pub(super) enum Alike<'a> {
    No,
    /// The command has this one.
    Flag(&'a str),
    /// The subcommand of this name has this one.
    FlagOf(&'a str, &'a str),
}

impl Error {
    pub fn kind(&self) -> ErrorKind {
        self.kind
    }

    fn of(text: String) -> Error {
        Error { kind: ErrorKind::Words, text }
    }

    /// An error, the usage where it is told, and where to find more.
    fn new(command: &Command<'_>, message: &str, usage: Option<String>) -> Error {
        let usage = usage.map_or(String::new(), |usage| format!("\n\nUsage: {usage}"));
        let more = command.arg_of("help").map_or("", |_| "\nFor more information, try '--help'.\n");
        Error::of(format!("error: {message}{usage}\n{more}"))
    }

    pub(super) fn help(command: &Command<'_>) -> Error {
        Error::of(command.help_text())
    }

    pub(super) fn version(command: &Command<'_>) -> Error {
        let version = command.version.unwrap_or("");
        Error::of(format!("{} {version}, {NOT_PROVED}\n", command.name))
    }

    pub(super) fn repeated(command: &Command<'_>, arg: &str) -> Error {
        Error::new(command, &format!("the argument '{arg}' cannot be used multiple times"), Some(command.usage()))
    }

    pub(super) fn no_value(command: &Command<'_>, arg: &str) -> Error {
        Error::new(command, &format!("a value is required for '{arg}' but none was supplied"), None)
    }

    pub(super) fn unwanted_value(command: &Command<'_>, value: &str, arg: &str, usage: String) -> Error {
        Error::new(command, &format!("unexpected value '{value}' for '{arg}' found; no more were expected"), Some(usage))
    }

    pub(super) fn missing(command: &Command<'_>, args: &[String], usage: String) -> Error {
        let lines: String = args.iter().map(|arg| format!("\n  {arg}")).collect();
        Error::new(command, &format!("the following required arguments were not provided:{lines}"), Some(usage))
    }

    /// An argument that the command has not. `passes` says that it could be a value after `--`.
    pub(super) fn unknown(command: &Command<'_>, arg: &str, alike: Alike<'_>, passes: bool, usage: String) -> Error {
        let mut tips = String::new();
        if let Alike::Flag(flag) = alike {
            tips += &format!("\n  tip: a similar argument exists: '--{flag}'");
        }
        if passes {
            tips += &format!("\n  tip: to pass '{arg}' as a value, use '-- {arg}'");
        }
        if let Alike::FlagOf(flag, subcommand) = alike {
            tips += &format!("\n  tip: '{subcommand} --{flag}' exists");
        }
        let gap = if tips.is_empty() { "" } else { "\n" };
        Error::new(command, &format!("unexpected argument '{arg}' found{gap}{tips}"), Some(usage))
    }

    /// A subcommand after `--`.
    pub(super) fn after_dashes(command: &Command<'_>, word: &str) -> Error {
        let tip = format!("tip: subcommand '{word}' exists; to use it, remove the '--' before it");
        Error::new(command, &format!("unexpected argument '{word}' found\n\n  {tip}"), Some(command.usage()))
    }

    pub(super) fn unknown_subcommand(command: &Command<'_>, word: &str, similar: &[&str]) -> Error {
        let names: Vec<String> = similar.iter().map(|name| format!("'{name}'")).collect();
        let names = names.join(", ");
        let tip = match similar.len() {
            0 => String::new(),
            1 => format!("\n\n  tip: a similar subcommand exists: {names}"),
            _ => format!("\n\n  tip: some similar subcommands exist: {names}"),
        };
        Error::new(command, &format!("unrecognized subcommand '{word}'{tip}"), Some(command.usage()))
    }
}
