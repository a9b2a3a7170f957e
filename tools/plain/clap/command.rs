//! A command with its arguments and subcommands.
use super::super::alloc::{AllocError, Global, String as Text};
use super::arg::{Arg, ArgAction};
use super::errors::Error;
use super::matches::ArgMatches;
use super::parser::Parser;

pub struct Command<'a> {
    pub(super) name: &'a str,
    pub(super) about: &'a str,
    pub(super) version: Option<&'a str>,
    pub(super) wants_subcommand: bool,
    pub(super) wants_words: bool,
    pub(super) args: Vec<Arg<'a>>,
    pub(super) subcommands: Vec<Command<'a>>,
    /// The names before which its usage stands: the program's, and its own.
    pub(super) title: String,
}

/// The program's name in the first word.
fn file_name(word: &str) -> Option<&str> {
    let trimmed = word.trim_end_matches('/');
    let name = trimmed.rsplit_once('/').map_or(trimmed, |(_, name)| name);
    (!name.is_empty() && name != "..").then_some(name)
}

/// The subcommand that tells of the others.
fn help_command<'a>() -> Command<'a> {
    let topic = Arg::new(Global, "subcommand").value_name("COMMAND").help("Print help for the subcommand(s)").num_args(0..);
    let mut command = Command::new(Global, "help").about("Print this message or the help of the given subcommand(s)");
    command.args.push(topic);
    command
}

impl<'a> Command<'a> {
    pub fn new(_: Global, name: &'a str) -> Command<'a> {
        let (args, subcommands) = (Vec::new(), Vec::new());
        Command { name, about: "", version: None, wants_subcommand: false, wants_words: false, args, subcommands, title: name.into() }
    }

    pub fn about(self, about: &'a str) -> Command<'a> {
        Command { about, ..self }
    }

    pub fn version(self, version: &'a str) -> Command<'a> {
        Command { version: Some(version), ..self }
    }

    pub fn subcommand_required(self, wants_subcommand: bool) -> Command<'a> {
        Command { wants_subcommand, ..self }
    }

    pub fn arg_required_else_help(self, wants_words: bool) -> Command<'a> {
        Command { wants_words, ..self }
    }

    pub fn arg(mut self, arg: Arg<'a>) -> Result<Command<'a>, AllocError> {
        self.args.push(arg);
        Ok(self)
    }

    pub fn subcommand(mut self, subcommand: Command<'a>) -> Result<Command<'a>, AllocError> {
        self.subcommands.push(subcommand);
        Ok(self)
    }

    pub(super) fn arg_of(&self, id: &str) -> Option<&Arg<'a>> {
        self.args.iter().find(|arg| arg.id == id)
    }

    pub(super) fn positional(&self) -> Option<&Arg<'a>> {
        self.args.iter().find(|arg| arg.is_positional())
    }

    pub(super) fn subcommand_of(&self, name: &str) -> Option<&Command<'a>> {
        self.subcommands.iter().find(|subcommand| subcommand.name == name)
    }

    pub(super) fn required_ids(&self) -> Vec<&'a str> {
        self.args.iter().filter(|arg| arg.required).map(|arg| arg.id).collect()
    }

    /// Adds the flags for help and the version.
    fn add_requests(&mut self) {
        self.args.push(Arg::new(Global, "help").short('h').long("help").action(ArgAction::Help).help("Print help"));
        if self.version.is_some() {
            self.args.push(Arg::new(Global, "version").short('V').long("version").action(ArgAction::Version).help("Print version"));
        }
    }

    /// Adds what each command has, and the names of the subcommands.
    fn build(&mut self, program: Option<&str>) {
        self.add_requests();
        self.subcommands.iter_mut().for_each(|subcommand| subcommand.add_requests());
        self.subcommands.push(help_command());
        let Some(program) = program else {
            return;
        };
        self.title = program.into();
        for subcommand in &mut self.subcommands {
            subcommand.title = format!("{program} {}", subcommand.name);
        }
    }

    /// What the words ask for, the program's name first among them.
    pub fn try_get_matches_from(mut self, words: &'a [Text]) -> Result<ArgMatches<'a>, Error> {
        let words: Vec<&'a str> = words.iter().map(|word| word.as_str()).collect();
        self.build(words.first().and_then(|word| file_name(word)));
        Parser::new(&self).parse(words.get(1..).unwrap_or(&[]))
    }
}
