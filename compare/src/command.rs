//! The words of the command line.
use aura_tools::visible;
use std::ffi::{OsStr, OsString};
use std::path::Path;
use std::str::FromStr;

pub const USAGE: &str = "\
usage: compare [--may-skip] COMMAND
  --may-skip               for a gate: where the program was built without the original lexer's sources, a command that
                           needs them says `COMMAND: skipped` and ends with 0; without this word it ends with 2
  --help                   writes this
commands:
  characters               characters against Rust's standard library
  replay                   the stored answers of the original lexer
  records                  the readers over good, cut and damaged buffers
  count                    instructions and mispredicted branches a token, counted by valgrind
with the original lexer's sources (AURA_SRC names their folder when building):
  table                    document 01's small scripts and corner cases
  rows                     every row of every table of the rules, at every place
  points                   every code point at many places, and every code of \\u
  archive [--deep] FILE|FOLDER ..
                           files, and every file below folders: tokens and errors of both lexers, once for each file;
                           --deep: also short and large buffers, the readers, whether closed is right, and the print
  exhaustive DEPTH         every script of up to DEPTH symbols
  random SEED COUNT        random scripts
  mutate SEED COUNT [FILE|FOLDER ..]
                           damaged copies of files, or of a made script
  large SEED               scripts up to the limit and one byte more
  prints SEED COUNT        the print of scripts made of what printing turns on, COUNT of them random ones
  readers SEED COUNT       next, consume and match over random scripts, in random order
  kinds                    the names and spellings of the token kinds
  listing FILE             the original's listing of a script, as the program `tokens` writes it
  mutants [--runs R,R..]   which run finds each changed copy of the original lexer, of all runs or of some
  store FILE               writes the stored answers
  bench [FILE|FOLDER .. | --short]
                           the speed of both lexers, over files too, and of the print; --short: import and mixed scripts
                           only, and the print of import scripts
  page [FILE]              writes a page with the original's functions beside their definitions, by the tables of
                           docs/READING.md, and fails where a table is wrong; FILE is target/page.html if none is named
exit status: 0 all is equal, 1 something differs, 2 something that was asked for could not be done, 3 the output was closed
";

/// A command with its words.
#[derive(Debug, PartialEq, Eq)]
pub enum Command<'a> {
    Help,
    Characters,
    Replay,
    Records,
    Count,
    CountOnce(&'a OsStr),
    Original(Original<'a>),
}

/// A command that needs the original.
#[derive(Debug, PartialEq, Eq)]
#[cfg_attr(not(oracle), allow(dead_code))]
pub enum Original<'a> {
    Table,
    Rows,
    Points,
    Archive { deep: bool, places: Vec<&'a Path> },
    Exhaustive { depth: u32 },
    Random { seed: u64, count: u64 },
    Mutate { seed: u64, count: u64, places: Vec<&'a Path> },
    Large { seed: u64 },
    Prints { seed: u64, count: u64 },
    Readers { seed: u64, count: u64 },
    Kinds,
    Listing { file: &'a Path },
    Mutants { runs: Option<&'a OsStr> },
    Store { file: &'a Path },
    Bench { short: bool, places: Vec<&'a Path> },
    Page { file: Option<&'a Path> },
}

/// What the command line asks for.
#[derive(Debug, PartialEq, Eq)]
pub struct Request<'a> {
    /// The command's name.
    pub name: &'a str,
    pub command: Command<'a>,
    pub may_skip: bool,
}

fn not_understood(word: &OsStr) -> String {
    format!("{} is not understood", visible::name(Path::new(word)))
}

/// The words that are not taken yet.
struct Words<'a>(&'a [OsString]);

impl<'a> Words<'a> {
    fn next(&mut self) -> Option<&'a OsStr> {
        let (first, rest) = self.0.split_first()?;
        self.0 = rest;
        Some(first)
    }

    /// The next word, which has to be there.
    fn word(&mut self, what: &str) -> Result<&'a OsStr, String> {
        self.next().ok_or_else(|| format!("{what} is missing"))
    }

    /// The next word as a file's name, which does not begin with a hyphen.
    fn file(&mut self, what: &str) -> Result<&'a Path, String> {
        match self.word(what)? {
            word if is_flag(word) => Err(not_understood(word)),
            word => Ok(Path::new(word)),
        }
    }

    fn number<N: FromStr>(&mut self, what: &str) -> Result<N, String> {
        let word = self.word(what)?;
        let number = word.to_str().and_then(|text| text.parse().ok());
        number.ok_or_else(|| format!("{}: {what} is a number", not_understood(word)))
    }

    /// Takes the next word if it is this one.
    fn flag(&mut self, flag: &str) -> bool {
        let is_next = self.0.first().is_some_and(|word| word == flag);
        if is_next {
            self.next();
        }
        is_next
    }

    /// The names of files and folders: all words that are left, and whether this flag is among them. What begins with a hyphen is a
    /// name only behind `--`.
    fn places(&mut self, flag: Option<&str>) -> Result<(bool, Vec<&'a Path>), String> {
        let (mut flagged, mut places) = (false, Vec::new());
        while let Some(word) = self.next() {
            match flag {
                _ if word == "--" => {
                    places.extend(std::mem::take(&mut self.0).iter().map(Path::new));
                }
                Some(flag) if word == flag => flagged = true,
                _ if is_flag(word) => return Err(not_understood(word)),
                _ => places.push(Path::new(word)),
            }
        }
        Ok((flagged, places))
    }
}

fn is_flag(word: &OsStr) -> bool {
    word.as_encoded_bytes().starts_with(b"-")
}

fn archive<'a>(words: &mut Words<'a>) -> Result<Original<'a>, String> {
    match words.places(Some("--deep"))? {
        (_, places) if places.is_empty() => Err("archive: no file or folder is named".to_string()),
        (deep, places) => Ok(Original::Archive { deep, places }),
    }
}

fn mutants<'a>(words: &mut Words<'a>) -> Result<Original<'a>, String> {
    let runs = match words.flag("--runs") {
        true => Some(words.word("the names of runs of mutants --runs")?),
        false => None,
    };
    Ok(Original::Mutants { runs })
}

fn original<'a>(name: &str, words: &mut Words<'a>) -> Result<Original<'a>, String> {
    let of = |what: &str| format!("the {what} of {name}");
    Ok(match name {
        "table" => Original::Table,
        "rows" => Original::Rows,
        "points" => Original::Points,
        "archive" => archive(words)?,
        "exhaustive" => Original::Exhaustive { depth: words.number(&of("depth"))? },
        "random" => Original::Random { seed: words.number(&of("seed"))?, count: words.number(&of("count"))? },
        "mutate" => {
            let (seed, count) = (words.number(&of("seed"))?, words.number(&of("count"))?);
            Original::Mutate { seed, count, places: words.places(None)?.1 }
        }
        "large" => Original::Large { seed: words.number(&of("seed"))? },
        "prints" => Original::Prints { seed: words.number(&of("seed"))?, count: words.number(&of("count"))? },
        "readers" => Original::Readers { seed: words.number(&of("seed"))?, count: words.number(&of("count"))? },
        "kinds" => Original::Kinds,
        "listing" => Original::Listing { file: words.file(&of("file"))? },
        "mutants" => mutants(words)?,
        "store" => Original::Store { file: words.file(&of("file"))? },
        "bench" if words.flag("--short") => Original::Bench { short: true, places: Vec::new() },
        "bench" => Original::Bench { short: false, places: words.places(None)?.1 },
        "page" if words.0.is_empty() => Original::Page { file: None },
        "page" => Original::Page { file: Some(words.file(&of("file"))?) },
        _ => return Err(not_understood(OsStr::new(name))),
    })
}

fn command<'a>(name: &str, words: &mut Words<'a>) -> Result<Command<'a>, String> {
    Ok(match name {
        "--help" => Command::Help,
        "characters" => Command::Characters,
        "replay" => Command::Replay,
        "records" => Command::Records,
        "count" if words.flag("--once") => Command::CountOnce(words.word("the kind of count --once")?),
        "count" => Command::Count,
        _ => Command::Original(original(name, words)?),
    })
}

/// Reads the command line's words. An error says which word was not understood, or which is missing.
pub fn parse(words: &[OsString]) -> Result<Request<'_>, String> {
    let mut words = Words(words);
    let may_skip = words.flag("--may-skip");
    let name = words.word("a command")?;
    let name = name.to_str().ok_or_else(|| not_understood(name))?;
    let command = command(name, &mut words)?;
    match words.next() {
        None => Ok(Request { name, command, may_skip }),
        Some(word) => Err(not_understood(word)),
    }
}

#[cfg(test)]
mod tests {
    use super::*;

    fn words(text: &str) -> Vec<OsString> {
        text.split_whitespace().map(OsString::from).collect()
    }

    fn wrong(text: &str) -> String {
        parse(&words(text)).expect_err(text)
    }

    #[test]
    fn commands_have_their_words() {
        let places = || vec![Path::new("a"), Path::new("b")];
        for (text, command) in [
            ("table", Original::Table),
            ("archive a b", Original::Archive { deep: false, places: places() }),
            ("archive --deep a b", Original::Archive { deep: true, places: places() }),
            ("archive a b --deep", Original::Archive { deep: true, places: places() }),
            ("archive -- --deep", Original::Archive { deep: false, places: vec![Path::new("--deep")] }),
            ("mutate 1 20", Original::Mutate { seed: 1, count: 20, places: Vec::new() }),
            ("mutate 1 20 a b", Original::Mutate { seed: 1, count: 20, places: places() }),
            ("prints 1 20", Original::Prints { seed: 1, count: 20 }),
            ("bench", Original::Bench { short: false, places: Vec::new() }),
            ("bench --short", Original::Bench { short: true, places: Vec::new() }),
            ("mutants --runs rows,table", Original::Mutants { runs: Some(OsStr::new("rows,table")) }),
            ("page", Original::Page { file: None }),
        ] {
            let words = words(text);
            let request = parse(&words).expect(text);
            assert_eq!((request.command, request.may_skip), (Command::Original(command), false), "{text}");
            assert_eq!(request.name, words[0], "{text}");
        }
    }

    #[test]
    fn the_word_to_skip_stands_first() {
        let words = words("--may-skip kinds");
        let request = Request { name: "kinds", command: Command::Original(Original::Kinds), may_skip: true };
        assert_eq!(parse(&words), Ok(request));
        assert_eq!(wrong("kinds --may-skip"), "--may-skip is not understood");
    }

    #[test]
    fn a_wrong_word_is_named() {
        assert_eq!(wrong(""), "a command is missing");
        assert_eq!(wrong("--may-skip"), "a command is missing");
        assert_eq!(wrong("tables"), "tables is not understood");
        assert_eq!(wrong("table 1"), "1 is not understood");
        assert_eq!(wrong("archive --deep"), "archive: no file or folder is named");
        assert_eq!(wrong("archive --depth a"), "--depth is not understood");
        assert_eq!(wrong("mutate 1 1 --deep"), "--deep is not understood");
        assert_eq!(wrong("random 1"), "the count of random is missing");
        assert_eq!(wrong("random 1 many"), "many is not understood: the count of random is a number");
        assert_eq!(wrong("exhaustive 4294967296"), "4294967296 is not understood: the depth of exhaustive is a number");
        assert_eq!(wrong("listing --all"), "--all is not understood");
        assert_eq!(wrong("bench --short a"), "a is not understood");
        assert_eq!(wrong("page a b"), "b is not understood");
        assert_eq!(wrong("a\x1B[31mb"), "a␛[31mb is not understood");
    }
}
