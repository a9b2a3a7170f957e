//! An option, or the words that no option takes.
use super::super::alloc::Global;
use std::ops::RangeFrom;

/// What a use of an argument does.
#[derive(Clone, Copy, PartialEq, Eq)]
pub enum ArgAction {
    Set,
    Append,
    SetTrue,
    Help,
    Version,
}

#[derive(Clone, Copy)]
pub struct Arg<'a> {
    pub(super) id: &'a str,
    pub(super) long: Option<&'a str>,
    pub(super) short: Option<char>,
    pub(super) action: ArgAction,
    pub(super) value_name: &'a str,
    pub(super) help: &'a str,
    pub(super) required: bool,
    pub(super) hidden: bool,
}

impl<'a> Arg<'a> {
    pub fn new(_: Global, id: &'a str) -> Arg<'a> {
        Arg { id, long: None, short: None, action: ArgAction::Set, value_name: id, help: "", required: false, hidden: false }
    }

    pub fn long(self, long: &'a str) -> Arg<'a> {
        Arg { long: Some(long), ..self }
    }

    pub fn short(self, short: char) -> Arg<'a> {
        Arg { short: Some(short), ..self }
    }

    pub fn action(self, action: ArgAction) -> Arg<'a> {
        Arg { action, ..self }
    }

    pub fn value_name(self, value_name: &'a str) -> Arg<'a> {
        Arg { value_name, ..self }
    }

    pub fn help(self, help: &'a str) -> Arg<'a> {
        Arg { help, ..self }
    }

    pub fn required(self, required: bool) -> Arg<'a> {
        Arg { required, ..self }
    }

    pub fn hide(self, hidden: bool) -> Arg<'a> {
        Arg { hidden, ..self }
    }

    /// It takes all words that no option takes.
    pub fn num_args(self, _: RangeFrom<usize>) -> Arg<'a> {
        Arg { action: ArgAction::Append, ..self }
    }

    pub(super) fn is_positional(&self) -> bool {
        self.long.is_none() && self.short.is_none()
    }

    pub(super) fn takes_value(&self) -> bool {
        self.action == ArgAction::Set || self.action == ArgAction::Append
    }

    /// What stands after its name in usage and help.
    pub(super) fn suffix(&self, is_required: bool) -> String {
        let name = self.value_name;
        match (self.is_positional(), self.takes_value()) {
            (true, _) if is_required => format!("<{name}>..."),
            (true, _) => format!("[{name}]..."),
            (false, true) => format!(" <{name}>"),
            (false, false) => String::new(),
        }
    }

    /// How usage shows it.
    pub(super) fn in_usage(&self, is_required: bool) -> String {
        let suffix = self.suffix(is_required);
        match (self.long, self.short) {
            (Some(long), _) => format!("--{long}{suffix}"),
            (None, Some(short)) => format!("-{short}{suffix}"),
            (None, None) => suffix,
        }
    }

    /// How a message names it.
    pub(super) fn shown(&self) -> String {
        self.in_usage(self.required)
    }
}
