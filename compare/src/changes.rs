//! Changes of the original lexer, one to a file of `mutants/`: lines `# words`, `file:`, `function:`, `after:`, `old:`, `new:` and
//! `unshowable:`. The build makes a changed copy of the original by each.
use std::fs;
use std::path::Path;

const ENDING: &str = "change";
/// What begins a function of the original: one of a type, or one of the file.
const FUNCTIONS: [&str; 4] = ["\n    fn ", "\n    pub fn ", "\nfn ", "\npub fn "];

/// A single change of the original.
#[derive(Debug, Default, PartialEq, Eq)]
pub struct Change {
    pub name: String,
    /// What the change is, in plain words.
    pub words: String,
    pub file: String,
    /// The function in which the old text stands; none where it is looked for in the whole file.
    pub function: Option<String>,
    /// A text before the old one: the old text is the first behind it. Without it the old text is the only one.
    pub after: Option<String>,
    pub old: String,
    pub new: String,
    /// Why no script can show the change.
    pub unshowable: Option<String>,
}

/// Reads the text of a change file. The texts of `after`, `old` and `new` are what stands behind the colon and one space.
pub fn parse(name: &str, text: &str) -> Result<Change, String> {
    let mut change = Change { name: name.to_string(), ..Change::default() };
    let (mut words, mut old, mut new) = (Vec::new(), None, None);
    for line in text.lines() {
        if let Some(rest) = line.strip_prefix("# ") {
            words.push(rest);
            continue;
        }
        let (key, rest) = line.split_once(':').ok_or(format!("{name}.change: no line of a change: {line}"))?;
        let value = rest.strip_prefix(' ').unwrap_or(rest).to_string();
        match key {
            "file" => change.file = value,
            "function" => change.function = Some(value),
            "after" => change.after = Some(value),
            "old" => old = Some(value),
            "new" => new = Some(value),
            "unshowable" => change.unshowable = Some(value),
            _ => return Err(format!("{name}.change: no line of a change: {line}")),
        }
    }
    change.words = words.join(" ");
    change.old = old.filter(|old| !old.is_empty()).ok_or(format!("{name}.change: no old text"))?;
    change.new = new.ok_or(format!("{name}.change: no new text"))?;
    if change.words.is_empty() || change.file.is_empty() || change.unshowable.as_deref() == Some("") {
        return Err(format!("{name}.change: no words, no file, or no reason behind `unshowable`"));
    }
    if change.old == change.new {
        return Err(format!("{name}.change: the old text is the new one"));
    }
    Ok(change)
}

/// The place of a text that is there exactly once.
fn only(name: &str, part: &str, text: &str) -> Result<usize, String> {
    match part.matches(text).count() {
        1 => Ok(part.find(text).expect("it is there")),
        count => Err(format!("{name}.change: there {count} times instead of once: {text}")),
    }
}

/// Where a function's text begins and ends: the end is the next function, or the file's.
fn bounds(name: &str, source: &str, function: &str) -> Result<(usize, usize), String> {
    let begin = only(name, source, &format!("fn {function}("))?;
    let ends = FUNCTIONS.iter().filter_map(|next| source[begin..].find(next));
    Ok((begin, ends.min().map_or(source.len(), |length| begin + length)))
}

/// The changed source.
pub fn apply(change: &Change, source: &str) -> Result<String, String> {
    let Change { name, old, new, .. } = change;
    let (mut begin, end) = match &change.function {
        Some(function) => bounds(name, source, function)?,
        None => (0, source.len()),
    };
    let at = match &change.after {
        Some(after) => {
            begin += only(name, &source[begin..end], after)? + after.len();
            source[begin..end].find(old.as_str()).ok_or(format!("{name}.change: not there behind {after}: {old}"))?
        }
        None => only(name, &source[begin..end], old)?,
    };
    let at = begin + at;
    Ok([&source[..at], new.as_str(), &source[at + old.len()..]].concat())
}

/// The changes of a folder, by their names.
pub fn read(folder: &Path) -> Result<Vec<Change>, String> {
    let unreadable = |e: std::io::Error| format!("{}: {e}", folder.display());
    let mut changes = Vec::new();
    for entry in fs::read_dir(folder).map_err(unreadable)? {
        let path = entry.map_err(unreadable)?.path();
        let name = path.file_stem().map(|stem| stem.to_string_lossy().into_owned()).unwrap_or_default();
        let is_named = name.bytes().all(|b| b.is_ascii_lowercase() || b.is_ascii_digit() || b == b'_');
        if !is_named || path.extension().is_none_or(|ending| ending != ENDING) {
            return Err(format!("{}: a change is named by small letters, digits and `_`, and ends with .{ENDING}", path.display()));
        }
        changes.push(parse(&name, &fs::read_to_string(&path).map_err(unreadable)?)?);
    }
    changes.sort_by(|a, b| a.name.cmp(&b.name));
    Ok(changes)
}

#[cfg(test)]
mod tests {
    use super::*;

    const SOURCE: &str = "const A: u8 = 1;
impl B {
    pub fn one(&self) -> u8 {
        2 + 2
    }

    fn two() -> u8 {
        2
    }
}

fn three() -> u8 {
    2
}
";

    fn change(lines: &str) -> Change {
        parse("name", &format!("# In words.\nfile: lexer.rs\n{lines}")).expect("a change")
    }

    #[test]
    fn a_file_is_read() {
        let text = "# One line\n# and another.\nfile: span.rs\nfunction: merge\nafter: a: b\nold:  x \nnew:\nunshowable: for a reason\n";
        let some = |text: &str| Some(text.to_string());
        let expected = Change {
            name: "name".to_string(),
            words: "One line and another.".to_string(),
            file: "span.rs".to_string(),
            function: some("merge"),
            after: some("a: b"),
            old: " x ".to_string(),
            new: String::new(),
            unshowable: some("for a reason"),
        };
        assert_eq!(parse("name", text), Ok(expected));
    }

    #[test]
    fn a_bad_file_is_refused_by_its_name() {
        for text in [
            "file: lexer.rs\nold: a\nnew: b",
            "# words\nold: a\nnew: b",
            "# words\nfile: lexer.rs\nnew: b",
            "# words\nfile: lexer.rs\nold:\nnew: b",
            "# words\nfile: lexer.rs\nold: a",
            "# words\nfile: lexer.rs\nold: a\nnew: a",
            "# words\nfile: lexer.rs\nold: a\nnew: b\nunshowable:",
            "# words\nfile: lexer.rs\nold: a\nnew: b\nother: c",
            "# words\nfile: lexer.rs\nold: a\nnew: b\na line",
        ] {
            assert!(parse("name", text).is_err_and(|e| e.starts_with("name.change: ")), "{text}");
        }
    }

    #[test]
    fn the_old_text_is_changed_where_it_stands() {
        assert_eq!(apply(&change("old: = 1\nnew: = 3"), SOURCE), Ok(SOURCE.replace("= 1", "= 3")));
        assert_eq!(apply(&change("function: one\nold: 2 + 2\nnew: 4"), SOURCE), Ok(SOURCE.replace("2 + 2", "4")));
        assert_eq!(apply(&change("function: one\nafter: 2 +\nold: 2\nnew: 4"), SOURCE), Ok(SOURCE.replace("2 + 2", "2 + 4")));
        let two = SOURCE.replace("two() -> u8 {\n        2", "two() -> u8 {\n        5");
        assert_eq!(apply(&change("function: two\nold: 2\nnew: 5"), SOURCE), Ok(two));
        let three = SOURCE.replace("three() -> u8 {\n    2", "three() -> u8 {\n    5");
        assert_eq!(apply(&change("function: three\nold: 2\nnew: 5"), SOURCE), Ok(three));
    }

    #[test]
    fn a_text_that_is_not_there_exactly_once_is_refused() {
        for (lines, times) in [
            ("old: 2\nnew: 3", 4),
            ("old: 7\nnew: 3", 0),
            ("function: one\nold: 2\nnew: 3", 2),
            ("function: two\nold: 2 + 2\nnew: 3", 0),
            ("function: four\nold: 2\nnew: 3", 0),
            ("function: one\nafter: 2\nold: 2\nnew: 3", 2),
        ] {
            let refused = apply(&change(lines), SOURCE).expect_err(lines);
            assert!(refused.starts_with(&format!("name.change: there {times} times")), "{lines}: {refused}");
        }
        let refused = apply(&change("function: two\nafter: 2\nold: 2\nnew: 3"), SOURCE).expect_err("behind it is none");
        assert!(refused.starts_with("name.change: not there behind 2"), "{refused}");
    }

    /// Every change of `mutants/` fits the original where its sources are at hand.
    #[cfg(oracle)]
    #[test]
    fn every_change_can_be_made() {
        let changes = read(Path::new(concat!(env!("CARGO_MANIFEST_DIR"), "/mutants"))).expect("the folder is readable");
        for change in &changes {
            let source = if change.file == "span.rs" { crate::SPAN_RS } else { crate::LEXER_RS };
            apply(change, source).expect("it can be made");
        }
        assert!(changes.len() >= 100, "{} changes", changes.len());
    }
}
