//! Completion of words at the prompt, by the Tab key.
use crate::arguments::Line;
use clap::{Command, CommandFactory};
use rustyline::completion::Completer;
use rustyline::highlight::Highlighter;
use rustyline::hint::Hinter;
use rustyline::validate::Validator;
use rustyline::{Context, Helper};

/// The words of the prompt: names of commands, and the options of each.
pub struct Words(Command);

impl Words {
    pub fn new() -> Words {
        let mut command = Line::command();
        command.build();
        Words(command)
    }

    /// Where the word begins in which the cursor is, and the words that it may become.
    fn complete_line(&self, line: &str, cursor: usize) -> (usize, Vec<String>) {
        let before = &line[..cursor];
        let begin = before.rfind(char::is_whitespace).map_or(0, |blank| blank + 1);
        let (done, typed) = before.split_at(begin);
        let words = match done.split_whitespace().next() {
            None => self.commands(),
            Some(name) => self.options(name),
        };
        (begin, words.into_iter().filter(|word| word.starts_with(typed)).collect())
    }

    fn commands(&self) -> Vec<String> {
        self.0.get_subcommands().map(|command| command.get_name().to_string()).collect()
    }

    fn options(&self, name: &str) -> Vec<String> {
        let Some(command) = self.0.find_subcommand(name) else { return Vec::new() };
        let names = command.get_arguments().filter_map(clap::Arg::get_long);
        names.map(|name| format!("--{name}")).collect()
    }
}

impl Completer for Words {
    type Candidate = String;

    fn complete(
        &self,
        line: &str,
        cursor: usize,
        _: &Context<'_>,
    ) -> rustyline::Result<(usize, Vec<String>)> {
        Ok(self.complete_line(line, cursor))
    }
}

impl Hinter for Words {
    type Hint = String;
}

impl Highlighter for Words {}
impl Validator for Words {}
impl Helper for Words {}

#[cfg(test)]
mod tests {
    use super::*;

    #[test]
    fn commands_and_their_options_are_completed() {
        let words = Words::new();
        let complete = |line: &str| words.complete_line(line, line.len());
        let owned = |words: &[&str]| words.iter().map(ToString::to_string).collect::<Vec<_>>();
        assert_eq!(complete("ex"), (0, owned(&["export"])));
        assert_eq!(complete("  in"), (2, owned(&["insert"])));
        assert_eq!(complete("hold 1 2 --up"), (9, owned(&["--update"])));
        assert_eq!(complete("import a --ex"), (9, owned(&["--existing"])));
        assert_eq!(complete("get 1"), (4, vec![]));
        assert_eq!(complete("unknown --x"), (8, vec![]));
        assert!(complete("").1.contains(&"quit".to_string()));
        assert_eq!(words.complete_line("ex scan", 2), (0, owned(&["export"])));
    }
}
