//! The line of usage.
use super::command::Command;

impl<'a> Command<'a> {
    /// Whether it has options that usage does not name one by one.
    fn has_options(&self) -> bool {
        self.args.iter().any(|arg| !arg.is_positional() && !arg.hidden && !arg.required && arg.id != "help" && arg.id != "version")
    }

    /// The usage with these arguments, or with all where there are none. Those of `wanted` are shown as required.
    fn usage_of(&self, used: &[&'a str], wanted: &[&'a str]) -> String {
        let mut parts = vec![self.title.clone()];
        if used.is_empty() && self.has_options() {
            parts.push("[OPTIONS]".into());
        }
        for arg in wanted.iter().filter_map(|id| self.arg_of(id)) {
            let shown = arg.in_usage(true);
            if !arg.is_positional() && !parts[1..].contains(&shown) {
                parts.push(shown);
            }
        }
        if let Some(arg) = self.positional() {
            parts.push(arg.in_usage(wanted.contains(&arg.id)));
        }
        if self.wants_subcommand {
            parts.push("<COMMAND>".into());
        }
        parts.join(" ")
    }

    /// The usage of the command.
    pub(super) fn usage(&self) -> String {
        self.usage_of(&[], &self.required_ids())
    }

    /// The usage with these arguments, and those that are required.
    pub(super) fn usage_with(&self, used: &[&'a str]) -> String {
        let mut wanted = self.required_ids();
        wanted.extend(used);
        self.usage_of(used, &wanted)
    }
}
