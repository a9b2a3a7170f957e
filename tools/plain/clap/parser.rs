//! Reads the words of a command line.
use super::super::alloc::Global;
use super::super::strsim::jaro;
use super::arg::{Arg, ArgAction};
use super::command::Command;
use super::errors::{Alike, Error};
use super::matches::{ArgMatches, Entry};

/// A score above which one name is told for another.
const ALIKE: f64 = 0.7;

/// Reads the words of a command, but for those before it.
pub(super) struct Parser<'c, 'a> {
    command: &'c Command<'a>,
    entries: Vec<Entry<'a>>,
    /// The argument whose values are being read.
    pending: Option<Entry<'a>>,
    /// Whether the next word is the value of the option that is pending.
    wants_value: bool,
}

/// The names that are like a word, the best last.
fn names_like<'a>(word: &str, names: impl Iterator<Item = &'a str>) -> Vec<&'a str> {
    let mut alike: Vec<(f64, &str)> = Vec::new();
    for name in names {
        let score = jaro(Global, word, name).unwrap_or(0.0);
        if score > ALIKE {
            let place = alike.iter().filter(|(other, _)| *other <= score).count();
            alike.insert(place, (score, name));
        }
    }
    alike.into_iter().map(|(_, name)| name).collect()
}

fn long_like<'a>(command: &Command<'a>, word: &str) -> Option<&'a str> {
    names_like(word, command.args.iter().filter_map(|arg| arg.long)).pop()
}

/// The long option that is like a word, of the command or of a subcommand among the words that are left.
fn alike<'a>(command: &Command<'a>, word: &str, left: &[&'a str]) -> Alike<'a> {
    if let Some(long) = long_like(command, word) {
        return Alike::Flag(long);
    }
    let found = command.subcommands.iter().filter_map(|subcommand| {
        let place = left.iter().position(|word| *word == subcommand.name)?;
        Some((place, long_like(subcommand, word)?, subcommand.name))
    });
    match found.min_by_key(|(place, ..)| *place) {
        Some((_, long, subcommand)) => Alike::FlagOf(long, subcommand),
        None => Alike::No,
    }
}

/// Help on the subcommand of these names.
fn help_on(command: &Command<'_>, names: &[&str]) -> Error {
    let Some((name, rest)) = names.split_first() else {
        return Error::help(command);
    };
    match command.subcommand_of(name) {
        Some(subcommand) => help_on(subcommand, rest),
        None => Error::unknown_subcommand(command, name, &[]),
    }
}

impl<'c, 'a> Parser<'c, 'a> {
    pub fn new(command: &'c Command<'a>) -> Parser<'c, 'a> {
        Parser { command, entries: Vec::new(), pending: None, wants_value: false }
    }

    /// What the words ask of the command.
    pub fn parse(mut self, words: &[&'a str]) -> Result<ArgMatches<'a>, Error> {
        let mut subcommand = None;
        let mut is_after_dashes = false;
        for (place, word) in words.iter().enumerate() {
            let left = &words[place + 1..];
            if is_after_dashes {
                self.take_word(word, true)?;
                continue;
            }
            if let Some(found) = self.command.subcommand_of(word) {
                if found.name == "help" {
                    return Err(help_on(self.command, left));
                }
                subcommand = Some((found.name, Box::new(Parser::new(found).parse(left)?)));
                break;
            }
            if *word == "--" {
                is_after_dashes = true;
                self.wants_value = false;
            } else if let Some(long) = word.strip_prefix("--") {
                self.take_long(long, left)?;
            } else if word.len() > 1 && word.starts_with('-') {
                self.take_short(&word[1..])?;
            } else {
                self.take_word(word, false)?;
            }
        }
        self.finish(subcommand)
    }

    fn finish(mut self, subcommand: Option<(&'a str, Box<ArgMatches<'a>>)>) -> Result<ArgMatches<'a>, Error> {
        self.resolve()?;
        if subcommand.is_none() && self.command.wants_words && self.entries.is_empty() {
            return Err(Error::help(self.command));
        }
        let missing: Vec<&Arg<'a>> = self.command.args.iter().filter(|arg| arg.required && !self.has(arg.id)).collect();
        if !missing.is_empty() {
            let mut used = self.used();
            used.extend(missing.iter().map(|arg| arg.id));
            let names: Vec<String> = missing.iter().map(|arg| arg.in_usage(true)).collect();
            return Err(Error::missing(self.command, &names, self.command.usage_with(&used)));
        }
        Ok(ArgMatches { entries: self.entries, subcommand })
    }

    fn has(&self, id: &str) -> bool {
        self.entries.iter().any(|entry| entry.id == id)
    }

    /// The arguments that were named so far and that help shows.
    fn used(&self) -> Vec<&'a str> {
        let ids = self.entries.iter().map(|entry| entry.id);
        ids.filter(|id| self.command.arg_of(id).is_some_and(|arg| !arg.hidden)).collect()
    }

    /// Does what a use of an argument with these values asks.
    fn act(&mut self, arg: &Arg<'a>, values: Vec<&'a str>) -> Result<(), Error> {
        if arg.takes_value() && values.is_empty() {
            return Err(Error::no_value(self.command, &arg.shown()));
        }
        let place = self.entries.iter().position(|entry| entry.id == arg.id);
        match (arg.action, place) {
            (ArgAction::Help, _) => return Err(Error::help(self.command)),
            (ArgAction::Version, _) => return Err(Error::version(self.command)),
            (ArgAction::Append, Some(place)) => self.entries[place].values.extend(values),
            (_, Some(place)) => {
                self.entries.remove(place);
                return Err(Error::repeated(self.command, &arg.shown()));
            }
            (_, None) => self.entries.push(Entry { id: arg.id, values }),
        }
        Ok(())
    }

    /// Ends the argument whose values were being read.
    fn resolve(&mut self) -> Result<(), Error> {
        self.wants_value = false;
        match self.pending.take() {
            Some(Entry { id, values }) => self.command.arg_of(id).map_or(Ok(()), |arg| self.act(arg, values)),
            None => Ok(()),
        }
    }

    /// An option with its value, or one whose value is to come.
    fn take_option(&mut self, arg: &Arg<'a>, value: Option<&'a str>) -> Result<(), Error> {
        self.resolve()?;
        match value {
            Some(value) => self.act(arg, vec![value]),
            None if arg.takes_value() => {
                self.pending = Some(Entry { id: arg.id, values: Vec::new() });
                self.wants_value = true;
                Ok(())
            }
            None => self.act(arg, Vec::new()),
        }
    }

    /// The word --NAME or --NAME=VALUE, without its hyphens.
    fn take_long(&mut self, word: &'a str, left: &[&'a str]) -> Result<(), Error> {
        let (name, value) = match word.split_once('=') {
            Some((name, value)) => (name, Some(value)),
            None => (word, None),
        };
        let command = self.command;
        match (command.args.iter().find(|arg| arg.long == Some(name)), value) {
            (None, _) => Err(self.unknown_long(name, left)),
            (Some(arg), Some(value)) if !arg.takes_value() => Err(self.unwanted_value(arg, value)),
            (Some(arg), value) => self.take_option(arg, value),
        }
    }

    /// Short options in one word, without its hyphen. What follows one that takes a value is the value.
    fn take_short(&mut self, word: &'a str) -> Result<(), Error> {
        let command = self.command;
        for (place, c) in word.char_indices() {
            let Some(arg) = command.args.iter().find(|arg| arg.short == Some(c)) else {
                let _ = self.resolve();
                let passes = command.positional().is_some();
                return Err(Error::unknown(command, &format!("-{c}"), Alike::No, passes, command.usage()));
            };
            if arg.takes_value() {
                let rest = &word[place + c.len_utf8()..];
                let value = rest.strip_prefix('=').or((!rest.is_empty()).then_some(rest));
                return self.take_option(arg, value);
            }
            self.take_option(arg, None)?;
        }
        Ok(())
    }

    /// A word that is no option: the value of the one before it, or one of the other words.
    fn take_word(&mut self, word: &'a str, is_after_dashes: bool) -> Result<(), Error> {
        if let (true, Some(pending)) = (self.wants_value, &mut self.pending) {
            pending.values.push(word);
            self.wants_value = false;
            return Ok(());
        }
        let Some(arg) = self.command.positional() else {
            return Err(self.unknown_word(word, is_after_dashes));
        };
        if !self.pending.as_ref().is_some_and(|pending| pending.id == arg.id) {
            self.resolve()?;
        }
        self.pending.get_or_insert_with(|| Entry { id: arg.id, values: Vec::new() }).values.push(word);
        Ok(())
    }

    fn unwanted_value(&mut self, arg: &Arg<'a>, value: &str) -> Error {
        let required = self.command.required_ids();
        let mut used: Vec<&str> = self.used().into_iter().filter(|id| !required.contains(id)).collect();
        used.push(arg.id);
        let _ = self.resolve();
        Error::unwanted_value(self.command, value, &arg.shown(), self.command.usage_with(&used))
    }

    fn unknown_long(&mut self, name: &str, left: &[&'a str]) -> Error {
        let _ = self.resolve();
        let alike = alike(self.command, name, left);
        if let Alike::Flag(long) = alike {
            let named = self.command.args.iter().find(|arg| arg.long == Some(long));
            if let Some(arg) = named.filter(|arg| !self.has(arg.id)) {
                self.entries.push(Entry { id: arg.id, values: Vec::new() });
            }
        }
        let passes = matches!(alike, Alike::No) && self.command.positional().is_some();
        Error::unknown(self.command, &format!("--{name}"), alike, passes, self.command.usage_with(&self.used()))
    }

    fn unknown_word(&mut self, word: &str, is_after_dashes: bool) -> Error {
        let _ = self.resolve();
        if is_after_dashes && self.command.subcommand_of(word).is_some() {
            return Error::after_dashes(self.command, word);
        }
        let names = self.command.subcommands.iter().map(|subcommand| subcommand.name);
        Error::unknown_subcommand(self.command, word, &names_like(word, names))
    }
}
