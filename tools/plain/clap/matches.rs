//! What the words ask for.

/// An argument that the words name, and its values.
pub(super) struct Entry<'a> {
    pub id: &'a str,
    pub values: Vec<&'a str>,
}

pub struct ArgMatches<'a> {
    pub(super) entries: Vec<Entry<'a>>,
    pub(super) subcommand: Option<(&'a str, Box<ArgMatches<'a>>)>,
}

impl<'a> ArgMatches<'a> {
    pub fn subcommand(&self) -> Option<(&'a str, &ArgMatches<'a>)> {
        self.subcommand.as_ref().map(|(name, matches)| (*name, &**matches))
    }

    pub fn get_flag(&self, id: &str) -> bool {
        self.get_strs(id).is_some()
    }

    pub fn get_str(&self, id: &str) -> Option<&'a str> {
        self.get_strs(id)?.first().copied()
    }

    pub fn get_strs(&self, id: &str) -> Option<&[&'a str]> {
        self.entries.iter().find(|entry| entry.id == id).map(|entry| &entry.values[..])
    }
}
