//! How far a long task has come, for people.
use indicatif::{ProgressBar, ProgressDrawTarget, ProgressStyle};
use std::borrow::Cow;
use std::io::Read;

/// How often the line is drawn at most, in times a second.
const PER_SECOND: u8 = 10;

/// A line on standard error that shows how far a task has come. It is shown only at a terminal, and
/// is gone when this is.
#[derive(Debug)]
pub struct Progress(ProgressBar);

impl Progress {
    /// Of a task of this many steps, or of an unknown number.
    pub fn new(what: impl Into<Cow<'static, str>>, steps: Option<u64>) -> Progress {
        let with_bar = "{msg} {wide_bar} {percent}% {eta}";
        let style = if steps.is_some() { with_bar } else { "{msg} {pos} {elapsed}" };
        Progress::styled(what, steps, style)
    }

    /// Of the reading of a file of this many bytes.
    pub fn of_bytes(what: impl Into<Cow<'static, str>>, bytes: Option<u64>) -> Progress {
        let with_bar = "{msg} {wide_bar} {bytes} of {total_bytes} {eta}";
        let style = if bytes.is_some() { with_bar } else { "{msg} {bytes} {elapsed}" };
        Progress::styled(what, bytes, style)
    }

    fn styled(what: impl Into<Cow<'static, str>>, steps: Option<u64>, style: &str) -> Progress {
        let target = ProgressDrawTarget::stderr_with_hz(PER_SECOND);
        let bar = ProgressBar::with_draw_target(steps, target).with_message(what);
        if let Ok(style) = ProgressStyle::with_template(style) {
            bar.set_style(style);
        }
        Progress(bar)
    }

    /// It has come one step further.
    pub fn step(&self) {
        self.0.inc(1);
    }

    /// A reader whose bytes count.
    pub fn reads<R: Read>(&self, reader: R) -> impl Read + use<R> {
        self.0.wrap_read(reader)
    }
}

impl Drop for Progress {
    fn drop(&mut self) {
        self.0.finish_and_clear();
    }
}

#[cfg(test)]
mod tests {
    use super::*;

    #[test]
    fn what_is_read_counts() {
        let progress = Progress::of_bytes("reading", Some(9));
        let mut text = String::new();
        progress.reads(&b"some text"[..]).read_to_string(&mut text).unwrap();
        assert_eq!((text.as_str(), progress.0.position()), ("some text", 9));
        progress.step();
        assert_eq!(progress.0.position(), 10);
    }
}
