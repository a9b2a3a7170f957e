//! The text of help.
use super::arg::Arg;
use super::command::Command;

/// The room before the text on an option, after its name or the longest one.
const GAP: usize = 2;
/// The width of a short option, with the comma and the space after it.
const SHORT: usize = 4;

fn width(text: &str) -> usize {
    text.chars().count()
}

/// How help shows an option or the other words.
fn name_in_help(arg: &Arg<'_>) -> String {
    let suffix = arg.suffix(arg.required);
    match (arg.short, arg.long) {
        (Some(short), Some(long)) => format!("-{short}, --{long}{suffix}"),
        (Some(short), None) => format!("-{short}{suffix}"),
        (None, Some(long)) => format!("{:SHORT$}--{long}{suffix}", ""),
        (None, None) => suffix,
    }
}

/// A section: its lines are names, and a text after each.
fn section(heading: &str, lines: &[(String, &str)]) -> String {
    let most = lines.iter().map(|(name, _)| width(name)).max().unwrap_or(0);
    let shown = lines.iter().map(|(name, text)| format!("{:GAP$}{name:most$}{:GAP$}{text}", "", ""));
    format!("{heading}:\n{}", shown.collect::<Vec<_>>().join("\n"))
}

impl<'a> Command<'a> {
    fn section_of(&self, heading: &str, is_positional: bool) -> Option<String> {
        let shown = self.args.iter().filter(|arg| arg.is_positional() == is_positional && !arg.hidden);
        let lines: Vec<_> = shown.map(|arg| (name_in_help(arg), arg.help)).collect();
        (!lines.is_empty()).then(|| section(heading, &lines))
    }

    fn section_of_commands(&self) -> Option<String> {
        let lines: Vec<_> = self.subcommands.iter().map(|command| (command.name.to_string(), command.about)).collect();
        (!lines.is_empty()).then(|| section("Commands", &lines))
    }

    /// The text of help.
    pub(super) fn help_text(&self) -> String {
        let mut parts = vec![format!("{}\n\nUsage: {}", self.about, self.usage())];
        parts.extend(self.section_of_commands());
        parts.extend(self.section_of("Arguments", true));
        parts.extend(self.section_of("Options", false));
        format!("{}\n", parts.join("\n\n").trim_end())
    }
}
