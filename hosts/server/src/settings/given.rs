//! What an operator has given: on the command line, by the environment and in a file.
use super::key::{Key, Kind};
use super::{BadSetting, Source};
use clap::ArgMatches;
use clap::parser::ValueSource;
use krl_postgres::without_password;
use serde::Deserialize;
use serde::de::{Deserializer, MapAccess, Visitor};
use std::collections::BTreeMap;
use std::fmt;
use std::path::{Path, PathBuf};

/// The text of each setting that is given, by its name, and where it comes from.
#[derive(Clone, Debug)]
pub struct Given(BTreeMap<&'static str, (String, Source)>);

impl Given {
    /// Those of these settings that a command line has, or the environment.
    pub fn of_words(keys: &[&'static Key], matches: &ArgMatches) -> Given {
        let given = |key: &'static Key| {
            let text = matches.get_one::<String>(key.name)?.clone();
            let source = match matches.value_source(key.name) {
                Some(ValueSource::EnvVariable) => Source::Environment(key),
                _ => Source::Flag(key),
            };
            Some((key.name, (text, source)))
        };
        Given(keys.iter().copied().filter_map(given).collect())
    }

    /// The same with those of a configuration file in addition. A flag comes first, then the
    /// environment, then the file, then the default.
    pub fn with_file(mut self, path: &Path) -> Result<Given, BadSetting> {
        for (name, text) in ConfigFile::read(path)?.0 {
            self.0.entry(name).or_insert_with(|| (text, Source::File(path.into())));
        }
        Ok(self)
    }

    /// The text of a setting, that by default if it is not given, and where it comes from.
    pub fn text(&self, key: &Key) -> (&str, &Source) {
        let given = self.0.get(key.name);
        given.map_or((key.default, &Source::Default), |(text, source)| (text, source))
    }

    /// The value of a setting.
    pub fn value<T>(&self, key: &Key, parse: fn(&str) -> Option<T>) -> Result<T, BadSetting> {
        self.judged(key, |text| {
            parse(text).ok_or_else(|| format!(", and has to be {}", key.expected))
        })
    }

    /// The value of a setting that may be left out.
    pub fn optional<T>(
        &self,
        key: &Key,
        parse: fn(&str) -> Option<T>,
    ) -> Result<Option<T>, BadSetting> {
        let (text, _) = self.text(key);
        if text.is_empty() { Ok(None) } else { self.value(key, parse).map(Some) }
    }

    /// The path of a file that may be left out.
    pub fn path(&self, key: &Key) -> Option<PathBuf> {
        Some(self.text(key).0).filter(|text| !text.is_empty()).map(PathBuf::from)
    }

    /// The value of a setting whose parser states why it refuses a text.
    pub fn judged<T>(
        &self,
        key: &Key,
        parse: impl FnOnce(&str) -> Result<T, String>,
    ) -> Result<T, BadSetting> {
        let (text, source) = self.text(key);
        parse(text).map_err(|why| {
            let (name, shown) = (key.name, without_password(text));
            BadSetting(format!("{name} is '{shown}' ({source}){why}"))
        })
    }

    /// The setting as a line of a configuration file, with a comment on where it comes from.
    pub fn line(&self, key: &Key) -> String {
        let (text, source) = self.text(key);
        let value = match text.parse() {
            Ok(number) if key.kind == Kind::Number => toml::Value::Integer(number),
            _ => toml::Value::String(text.to_string()),
        };
        format!("{} = {value} # {source}\n", key.name)
    }
}

/// The texts of a configuration file, by the names of their settings.
#[derive(Debug)]
struct ConfigFile(BTreeMap<&'static str, String>);

impl ConfigFile {
    fn read(path: &Path) -> Result<ConfigFile, BadSetting> {
        let bad_file = |what: &str| {
            let what = what.trim_end();
            BadSetting(format!("the configuration file {}: {what}", path.display()))
        };
        let text = std::fs::read_to_string(path).map_err(|error| bad_file(&error.to_string()))?;
        toml::from_str(&text).map_err(|error| bad_file(&error.to_string()))
    }
}

impl<'de> Deserialize<'de> for ConfigFile {
    fn deserialize<D: Deserializer<'de>>(deserializer: D) -> Result<ConfigFile, D::Error> {
        deserializer.deserialize_map(Texts)
    }
}

/// Reads the texts of a configuration file.
struct Texts;

impl<'de> Visitor<'de> for Texts {
    type Value = ConfigFile;

    fn expecting(&self, f: &mut fmt::Formatter<'_>) -> fmt::Result {
        f.write_str("settings")
    }

    fn visit_map<A: MapAccess<'de>>(self, mut map: A) -> Result<ConfigFile, A::Error> {
        let mut texts = BTreeMap::new();
        while let Some(key) = map.next_key::<&'static Key>()? {
            let text = match key.kind {
                Kind::Number => map.next_value::<u64>()?.to_string(),
                Kind::Text | Kind::YesNo => map.next_value()?,
            };
            texts.insert(key.name, text);
        }
        Ok(ConfigFile(texts))
    }
}
