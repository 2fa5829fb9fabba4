//! The word of a command line that may be a URL with a password.
use crate::address::without_password;
use clap::builder::TypedValueParser;
use clap::error::ErrorKind;
use clap::{Arg, Command};
use std::ffi::OsStr;
use std::fmt::Display;
use std::marker::PhantomData;
use std::str::FromStr;

/// Reads such a word. One that is refused is shown without a password.
#[derive(Debug)]
pub struct UrlWord<T>(PhantomData<fn() -> T>);

impl<T> UrlWord<T> {
    /// A parser of words of this type.
    #[must_use]
    pub fn parser() -> UrlWord<T> {
        UrlWord(PhantomData)
    }
}

impl<T> Clone for UrlWord<T> {
    fn clone(&self) -> UrlWord<T> {
        UrlWord::parser()
    }
}

impl<T> TypedValueParser for UrlWord<T>
where
    T: FromStr<Err: Display> + Clone + Send + Sync + 'static,
{
    type Value = T;

    fn parse_ref(
        &self,
        command: &Command,
        argument: Option<&Arg>,
        word: &OsStr,
    ) -> Result<T, clap::Error> {
        let text = word.to_string_lossy();
        text.parse().map_err(|why| {
            let (shown, argument) = (without_password(&text), argument.map(Arg::to_string));
            let argument = argument.unwrap_or_default();
            let why = format!("invalid value '{shown}' for '{argument}': {why}");
            command.clone().error(ErrorKind::ValueValidation, why)
        })
    }
}
