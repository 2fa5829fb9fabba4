//! What a word that can't be understood may have meant.
use clap::error::{ContextKind, ContextValue, ErrorKind};
use clap::{Command, Error};
use std::iter::once;

/// This many letters may be wrong, superfluous, missing, or in the place of their neighbors.
const WRONG: usize = 1;

/// The name of a command that a wrong one is nearly, if clap itself has no suggestion: it finds none
/// for short words, such as `gte`.
pub fn of<'c>(error: &Error, command: &'c Command) -> Option<String> {
    let context = |kind| error.context().find(|(found, _)| *found == kind).map(|(_, value)| value);
    if error.kind() != ErrorKind::InvalidSubcommand
        || context(ContextKind::SuggestedSubcommand).is_some()
    {
        return None;
    }
    let Some(ContextValue::String(word)) = context(ContextKind::InvalidSubcommand) else {
        return None;
    };
    let names_of = |it: &'c Command| once(it.get_name()).chain(it.get_visible_aliases());
    let names = command.get_subcommands().flat_map(names_of);
    let distance = |name: &&str| strsim::damerau_levenshtein(word, name);
    let near = names.filter(|name| distance(name) <= WRONG).min_by_key(distance)?;
    Some(format!("did you mean '{near}'?"))
}

#[cfg(test)]
mod tests {
    use super::*;
    use crate::arguments::Arguments;
    use clap::{CommandFactory, Parser};

    fn suggested(word: &str) -> Option<String> {
        let error = Arguments::try_parse_from(["krl-client", word, "15"]).unwrap_err();
        of(&error, &Arguments::command())
    }

    #[test]
    fn a_short_word_gets_a_suggestion() {
        for (word, meant) in [("gte", "get"), ("pt", "put")] {
            let expected = format!("did you mean '{meant}'?");
            assert_eq!(suggested(word), Some(expected), "{word}");
        }
    }

    #[test]
    fn no_word_is_suggested_twice_or_for_another_word() {
        for word in ["insrt", "sett", "dek", "completon", "xyz", "q", ""] {
            assert_eq!(suggested(word), None, "{word}");
        }
    }
}
