//! The words of a command: its options and files.
use std::ffi::OsString;

/// What was asked for.
#[derive(Debug, Default)]
pub struct Asked {
    flags: Vec<&'static str>,
    values: Vec<(&'static str, String)>,
    pub files: Vec<OsString>,
}

/// Every command knows these.
const HELP: &[&str] = &["--help", "-h"];

/// The options that a command knows: flags, and those with a value, which stands behind `=` or in the next word.
pub struct Options {
    pub flags: &'static [&'static str],
    pub values: &'static [&'static str],
}

impl Asked {
    /// Sorts the words. Behind `--` all are files, and `-` always is one. A word that is not understood is told.
    pub fn sort(words: &[OsString], known: Options) -> Result<Self, String> {
        let mut asked = Asked::default();
        let mut words = words.iter();
        while let Some(word) = words.next() {
            match word.to_str() {
                Some("--") => {
                    asked.files.extend(words.by_ref().cloned());
                }
                Some(option) if option.starts_with('-') && option != "-" => asked.option(option, &mut words, &known)?,
                _ => asked.files.push(word.clone()),
            }
        }
        Ok(asked)
    }

    fn option<'a>(&mut self, option: &str, rest: &mut impl Iterator<Item = &'a OsString>, known: &Options) -> Result<(), String> {
        if let Some(flag) = known.flags.iter().chain(HELP).find(|flag| **flag == option) {
            self.flags.push(flag);
            return Ok(());
        }
        let (name, given) = option.split_once('=').map_or((option, None), |(name, value)| (name, Some(value.to_string())));
        let name = known.values.iter().find(|value| **value == name).ok_or_else(|| format!("{option} is not understood"))?;
        let value = given.or_else(|| rest.next().map(|word| word.to_string_lossy().into_owned()));
        self.values.push((name, value.ok_or_else(|| format!("{name} asks for a value"))?));
        Ok(())
    }

    /// Whether the command is to tell what it does.
    pub fn help(&self) -> bool {
        HELP.iter().any(|flag| self.has(flag))
    }

    pub fn has(&self, flag: &str) -> bool {
        self.flags.contains(&flag)
    }

    /// The value of an option, the last one where it was given more than once.
    pub fn value(&self, name: &str) -> Option<&str> {
        self.values.iter().rev().find(|(known, _)| *known == name).map(|(_, value)| value.as_str())
    }

    /// The one file of a command that takes one; none stands for standard input.
    pub fn file(&self) -> Result<Option<&OsString>, String> {
        match &self.files[..] {
            [] => Ok(None),
            [file] => Ok(Some(file).filter(|name| *name != "-")),
            [_, second, ..] => Err(format!("{} is one file too many", second.to_string_lossy())),
        }
    }
}

#[cfg(test)]
mod tests {
    use super::*;

    fn sort(words: &[&str]) -> Result<Asked, String> {
        let words: Vec<OsString> = words.iter().map(OsString::from).collect();
        Asked::sort(&words, Options { flags: &["--quiet"], values: &["--only"] })
    }

    #[test]
    fn options_and_files_may_be_mixed() {
        let asked = sort(&["a", "--quiet", "--only", "*.b", "-", "--", "--quiet", "--"]).expect("understood");
        assert!(asked.has("--quiet") && !asked.has("--names") && !asked.help());
        assert!(sort(&["-h"]).expect("understood").help() && sort(&["--help"]).expect("understood").help());
        assert_eq!((asked.value("--only"), asked.value("--colour")), (Some("*.b"), None));
        assert_eq!(asked.files, ["a", "-", "--quiet", "--"]);
        assert_eq!(sort(&["--only=x=y"]).expect("understood").value("--only"), Some("x=y"));
    }

    #[test]
    fn what_is_wrong_is_told() {
        assert_eq!(sort(&["--loud"]).err().as_deref(), Some("--loud is not understood"));
        assert_eq!(sort(&["--quiet=1"]).err().as_deref(), Some("--quiet=1 is not understood"));
        assert_eq!(sort(&["--only"]).err().as_deref(), Some("--only asks for a value"));
        assert_eq!(sort(&["a", "b"]).expect("understood").file(), Err("b is one file too many".to_string()));
        assert_eq!(sort(&["-"]).expect("understood").file(), Ok(None));
    }
}
