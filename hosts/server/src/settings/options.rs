//! The options by which settings are given.
use super::status_port::StatusPort;
use super::tls_files::TlsFiles;
use super::{BadSetting, Given, Key, key};
use clap::{ArgMatches, Args, FromArgMatches};
use krl::TlsConfig;
use std::path::PathBuf;

/// How a server runs. What is not given here comes from the environment, then from the
/// configuration file, then from the defaults.
#[derive(Args, Debug)]
pub struct ServeOptions {
    #[command(flatten)]
    pub flags: Flags<true>,
    /// A configuration file in TOML. Its keys are the names of these options
    #[arg(long, env = "KRL_CONFIG", value_name = "FILE")]
    pub config: Option<PathBuf>,
}

/// What is shown by TLS, and whom it trusts.
pub type TlsOptions = Flags<false>;

/// The settings that are given by these flags, or by the environment: all of them, or those of a
/// connection by TLS.
#[derive(Debug)]
pub struct Flags<const ARE_ALL: bool> {
    pub(super) given: Given,
}

impl<const ARE_ALL: bool> Flags<ARE_ALL> {
    const KEYS: &'static [&'static Key] = if ARE_ALL { key::ALL } else { key::OF_TLS };
}

impl TlsOptions {
    /// What is shown by TLS, if anything is.
    pub fn read(&self) -> Result<Option<TlsConfig>, BadSetting> {
        TlsFiles::of(&self.given)?.read()
    }

    /// The status port at this address, to which this is shown if it is one of TLS.
    pub fn status_port(&self, address: &str) -> Result<StatusPort, BadSetting> {
        StatusPort::new(address, || self.read())
    }
}

impl<const ARE_ALL: bool> FromArgMatches for Flags<ARE_ALL> {
    fn from_arg_matches(matches: &ArgMatches) -> Result<Flags<ARE_ALL>, clap::Error> {
        Ok(Flags { given: Given::of_words(Flags::<ARE_ALL>::KEYS, matches) })
    }

    fn update_from_arg_matches(&mut self, matches: &ArgMatches) -> Result<(), clap::Error> {
        *self = Flags::from_arg_matches(matches)?;
        Ok(())
    }
}

impl<const ARE_ALL: bool> Args for Flags<ARE_ALL> {
    fn augment_args(command: clap::Command) -> clap::Command {
        command.args(Flags::<ARE_ALL>::KEYS.iter().map(|key| key.argument()))
    }

    fn augment_args_for_update(command: clap::Command) -> clap::Command {
        Flags::<ARE_ALL>::augment_args(command)
    }
}
