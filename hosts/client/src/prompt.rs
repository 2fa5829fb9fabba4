//! Commands that are read line by line: from a terminal with a history, or from a pipe or a file.
use crate::arguments::{Command, Line, LineCommand};
use crate::completing::Words;
use crate::failure::Failure;
use crate::output;
use crate::session;
use crate::suggestion;
use clap::{CommandFactory, Parser};
use rustyline::Editor;
use rustyline::error::ReadlineError;
use std::fmt::Display;
use std::io::{self, BufRead, IsTerminal, Read};
use std::path::PathBuf;

const PROMPT: &str = "krl> ";

/// The longest line, in bytes. What is longer is not a command: it may be another file, or an
/// endless one.
const LONGEST_LINE: usize = 4096;

/// Runs a command of a line.
pub type Run<'r> = dyn FnMut(&Command) -> Result<u8, Failure> + 'r;

/// What a line is.
enum Entered {
    Nothing,
    Command(Box<Command>),
    Quit,
}

/// Runs the lines of standard input, and returns the exit status.
pub fn run(run: &mut Run<'_>) -> Result<u8, Failure> {
    if io::stdin().is_terminal() { run_prompt(run) } else { run_lines(io::stdin().lock(), run) }
}

/// Runs the lines until the first one that fails, whose status is the answer.
fn run_lines(mut lines: impl BufRead, run: &mut Run<'_>) -> Result<u8, Failure> {
    for place in 1.. {
        let Some(line) = read_line(&mut lines, place)? else { break };
        let status = match parse(&line) {
            Ok(Entered::Nothing) => 0,
            Ok(Entered::Quit) => return Ok(0),
            Ok(Entered::Command(command)) => run(&command).unwrap_or_else(|failure| {
                failure.report();
                failure.status()
            }),
            Err(failure) => {
                failure.report();
                failure.status()
            }
        };
        if status != 0 {
            output::print_note(&format!("line {place} ended with status {status}: {line}"));
            return Ok(status);
        }
    }
    Ok(0)
}

/// The next line without its end, or `None` if there is none. No more of it is read than a line may
/// have.
fn read_line(lines: &mut impl BufRead, place: u64) -> Result<Option<String>, Failure> {
    let bad_line = |why: &dyn Display| Failure::Usage(format!("line {place}: {why}"));
    let mut line = Vec::new();
    // One byte more, and the end of the line.
    let longest = LONGEST_LINE as u64 + 2;
    if lines
        .by_ref()
        .take(longest)
        .read_until(b'\n', &mut line)
        .map_err(|error| bad_line(&error))?
        == 0
    {
        return Ok(None);
    }
    let line = line.strip_suffix(b"\n").unwrap_or(&line);
    let line = line.strip_suffix(b"\r").unwrap_or(line);
    refuse_long(line.len()).map_err(|failure| bad_line(&failure))?;
    String::from_utf8(line.into()).map(Some).map_err(|error| bad_line(&error))
}

/// Refuses a line of this many bytes if it is too long.
fn refuse_long(length: usize) -> Result<(), Failure> {
    if length <= LONGEST_LINE {
        return Ok(());
    }
    let why = format!("the line is longer than {LONGEST_LINE} bytes: no command is that long");
    Err(Failure::Usage(why))
}

/// Runs what is typed, until it is `quit` or Ctrl-D.
fn run_prompt(run: &mut Run<'_>) -> Result<u8, Failure> {
    let mut editor = Editor::new();
    editor.set_helper(Some(Words::new()));
    let history = history();
    if let Some(history) = &history {
        // There is none at the first time.
        let _ = editor.load_history(history);
    }
    let ended = loop {
        let line = match editor.readline(PROMPT) {
            Ok(line) => line,
            Err(ReadlineError::Interrupted) => continue,
            Err(ReadlineError::Eof) => break Ok(0),
            Err(error) => break Err(Failure::Output(io::Error::other(error))),
        };
        editor.add_history_entry(&line);
        match parse(&line) {
            Ok(Entered::Nothing) => {}
            Ok(Entered::Quit) => break Ok(0),
            Ok(Entered::Command(command)) => report(run(&command)),
            Err(failure) => failure.report(),
        }
    };
    if let Some(history) = &history
        && let Err(error) = editor.save_history(history)
    {
        output::print_note(&format!("the history can't be saved: {error}"));
    }
    ended
}

fn report(ended: Result<u8, Failure>) {
    match ended {
        Ok(0) => {}
        Ok(status) => output::print_note(&format!("the command ended with status {status}")),
        Err(failure) => failure.report(),
    }
}

fn history() -> Option<PathBuf> {
    session::folder().ok().map(|folder| folder.join("history"))
}

/// The words of a line are those of a shell: quotes keep spaces.
fn parse(line: &str) -> Result<Entered, Failure> {
    refuse_long(line.len())?;
    let words = shlex::split(line)
        .ok_or_else(|| Failure::Usage(format!("a quote is not closed: {line}")))?;
    if words.is_empty() {
        return Ok(Entered::Nothing);
    }
    match Line::try_parse_from(words) {
        Ok(Line { command: LineCommand::Command(command) }) => {
            Ok(Entered::Command(Box::new(command)))
        }
        Ok(Line { command: LineCommand::Quit }) => Ok(Entered::Quit),
        Err(help) if !help.use_stderr() => {
            help.print()?;
            Ok(Entered::Nothing)
        }
        Err(error) => {
            let text = error.to_string();
            let text = text.strip_prefix("error: ").unwrap_or(&text).trim_end();
            let suggestion = suggestion::of(&error, &Line::command());
            let suggestion = suggestion.map_or(String::new(), |words| format!("\n{words}"));
            Err(Failure::Usage(format!("{text}{suggestion}")))
        }
    }
}

#[cfg(test)]
mod tests {
    use super::*;

    fn run_text(text: &str) -> (u8, usize) {
        let mut count = 0;
        let mut run = |command: &Command| {
            count += 1;
            match command {
                Command::Client(_) => Ok(0),
                _ => Err(Failure::Refused("no".into())),
            }
        };
        let status = run_lines(text.as_bytes(), &mut run).unwrap();
        (status, count)
    }

    #[test]
    fn lines_run_until_one_fails() {
        assert_eq!(run_text(""), (0, 0));
        assert_eq!(run_text("# a comment\n\nget 5\nput 5 'a b' # more\n"), (0, 2));
        assert_eq!(run_text("get 5\nquit\nget 6\n"), (0, 1));
        assert_eq!(run_text("get 5\nbench\nget 6\n"), (1, 2));
        assert_eq!(run_text("get 5\nget 'a\nget 6\n"), (2, 1));
        assert_eq!(run_text("take 5\nget 6\n"), (2, 0));
        assert_eq!(run_text("help\nget 6\n"), (0, 1));
        assert_eq!(run_text("get 5\r\nget 6"), (0, 2));
    }

    /// Bytes without an end of a line. It counts how many were read.
    struct Endless(usize);

    impl Read for Endless {
        fn read(&mut self, bytes: &mut [u8]) -> io::Result<usize> {
            self.0 += bytes.len();
            assert!(self.0 < 1 << 20, "it reads on and on");
            bytes.fill(b' ');
            Ok(bytes.len())
        }
    }

    #[test]
    fn a_long_line_is_refused_and_not_read_to_its_end() {
        let line = |length: usize| format!("get 5{}", " ".repeat(length - 5));
        assert_eq!(run_text(&line(LONGEST_LINE)), (0, 1));
        let bad_line = |lines: &mut dyn BufRead| {
            let ended = run_lines(lines, &mut |_| Ok(0)).unwrap_err();
            (ended.status(), ended.to_string())
        };
        let expected = "line 1: the line is longer than 4096 bytes: no command is that long";
        let expected = (2, expected.to_string());
        assert_eq!(bad_line(&mut line(LONGEST_LINE + 1).as_bytes()), expected);
        assert_eq!(bad_line(&mut io::BufReader::new(Endless(0))), expected);
    }
}
