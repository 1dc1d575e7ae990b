//! A page with the original's functions beside the definitions that stand for them, by the tables of docs/READING.md. It shows that the
//! tables are right: what they name is there.
mod declarations;
mod definitions;
mod html;
mod original;
mod paths;
mod reading;

use crate::say::{message, say, Status};
use aura_tools::visible;
use definitions::{Definitions, Key};
use reading::Row;
use std::collections::BTreeSet;
use std::fs;
use std::path::Path;

/// Lines of a file.
#[derive(Clone)]
struct Part {
    /// What they declare, where that is told.
    name: Option<String>,
    file: String,
    href: String,
    first: usize,
    lines: Vec<String>,
}

/// One side of a row.
struct Side {
    title: String,
    parts: Vec<Part>,
    /// What the parts use of their own files.
    used: Vec<Part>,
    /// Whole files, each with the link to it.
    files: Vec<(String, String)>,
}

/// A row with the texts of both sides.
struct Placed {
    why: String,
    original: Side,
    definitions: Side,
}

/// What is right, and what is wrong.
fn parted<T>(results: impl Iterator<Item = Result<T, String>>) -> (Vec<T>, Vec<String>) {
    let (mut right, mut wrong) = (Vec::new(), Vec::new());
    for result in results {
        match result {
            Ok(one) => right.push(one),
            Err(what) => wrong.push(what),
        }
    }
    (right, wrong)
}

fn declares(part: &Part, name: &str) -> bool {
    part.lines.iter().flat_map(|line| declarations::in_rust(line)).any(|(_, declared)| declared == name)
}

/// The left side: the original's lines, which have to declare what the row's title names.
fn left(row: &Row) -> (Side, Vec<String>) {
    let (parts, mut wrong) = parted(row.lines.iter().map(original::part));
    if wrong.is_empty() {
        let missing = row.names.iter().filter(|name| !parts.iter().any(|part| declares(part, name)));
        wrong.extend(missing.map(|name| format!("{name} is not declared in the lines that the row names")));
    }
    (Side { title: row.title.clone(), parts, used: Vec::new(), files: Vec::new() }, wrong)
}

/// The right side: the definitions, or the files that are named instead.
fn right(row: &Row, all: &Definitions) -> (Side, Vec<String>) {
    let (parts, mut wrong) = parted(row.wanted.iter().map(|wanted| all.find(wanted)));
    let mut files = Vec::new();
    if row.wanted.is_empty() {
        let words = row.cell.split(|c: char| !c.is_alphanumeric());
        files.extend(words.filter_map(|word| all.spec(reading::RULES, word)));
        if files.is_empty() {
            wrong.push("neither a definition nor a file is named".to_string());
        }
    }
    (Side { title: row.cell.clone(), parts, used: Vec::new(), files }, wrong)
}

/// A row with its texts, or everything that is wrong with it.
fn place(row: &Row, all: &Definitions) -> Result<Placed, Vec<String>> {
    let (original, mut wrong) = left(row);
    let (definitions, more) = right(row, all);
    wrong.extend(more);
    match wrong.is_empty() {
        true => Ok(Placed { why: row.why.clone(), original, definitions }),
        false => Err(wrong.into_iter().map(|what| format!("row {}: {what}", row.title)).collect()),
    }
}

/// All rows with their texts, or everything that is wrong.
fn placed(rows: &[Row], all: &Definitions) -> Result<Vec<Placed>, Vec<String>> {
    let (mut placed, mut wrong) = (Vec::new(), Vec::new());
    for row in rows {
        match place(row, all) {
            Ok(row) => placed.push(row),
            Err(what) => wrong.extend(what),
        }
    }
    match wrong.is_empty() {
        true => Ok(placed),
        false => Err(wrong),
    }
}

fn keys<'a>(parts: impl Iterator<Item = &'a Part>) -> BTreeSet<Key> {
    parts.filter_map(definitions::key).collect()
}

/// The page's text and its counts, or everything that is wrong with the tables.
fn text(all: &Definitions, tables: &str) -> Result<(String, String), Vec<String>> {
    let rows = reading::rows(tables, &|krate, name| all.spec(krate, name).is_some()).map_err(|what| vec![what])?;
    let mut placed = placed(&rows, all)?;
    let named = keys(placed.iter().flat_map(|row| &row.definitions.parts));
    for row in &mut placed {
        row.definitions.used = all.used(&row.definitions.parts, &named);
    }
    let used = keys(placed.iter().flat_map(|row| &row.definitions.used));
    let (functions, lines) = original::counted(&rows);
    let of_the_original = format!("{functions} functions and {lines} lines of the original");
    let counts = format!("{} rows: {of_the_original}, {} definitions and {} that they use", rows.len(), named.len(), used.len());
    Ok((html::page(&placed, &original::others(&rows), &all.link("docs/READING.md"), &counts), counts))
}

/// Makes the page of a repository and writes it. An error has a status and everything that is wrong.
fn make(root: &Path, file: Option<&Path>) -> Result<String, (Status, Vec<String>)> {
    let not_done = |what: String| (Status::NotDone, vec![what]);
    let root = root.canonicalize().map_err(|error| not_done(format!("{}: {error}", visible::name(root))))?;
    let usual = root.join("target/page.html");
    let place = paths::allowed(file.unwrap_or(&usual), &root).map_err(not_done)?;
    let folder = place.parent().expect("a file has a folder");
    let all = Definitions::read(&root, folder).map_err(not_done)?;
    let tables = fs::read_to_string(root.join("docs/READING.md")).map_err(|error| not_done(format!("docs/READING.md: {error}")))?;
    let wrong = |what: Vec<String>| (Status::Failed, what.iter().map(|what| format!("docs/READING.md: {what}")).collect());
    let (text, counts) = text(&all, &tables).map_err(wrong)?;
    fs::write(&place, text).map_err(|error| not_done(format!("cannot write {}: {error}", visible::name(&place))))?;
    Ok(format!("{counts}: {}", visible::name(&place)))
}

/// The repository.
const ROOT: &str = concat!(env!("CARGO_MANIFEST_DIR"), "/..");

pub fn run(file: Option<&Path>) -> Status {
    match make(Path::new(ROOT), file) {
        Ok(told) => {
            say!("page: {told}");
            Status::Passed
        }
        Err((status, what)) => {
            what.iter().for_each(|what| message!("page: {what}"));
            status
        }
    }
}

#[cfg(test)]
mod tests {
    use super::*;

    fn tables(row: &str) -> String {
        format!("\n## Function by function\n\n| lexer.rs | lines | definition | why |\n|---|---|---|---|\n{row}\n")
    }

    fn all() -> Definitions {
        let root = Path::new(ROOT).canonicalize().expect("the repository");
        Definitions::read(&root, &root.join("target")).expect("its definitions")
    }

    #[test]
    fn a_right_row_has_both_texts() {
        let (text, counts) = text(&all(), &tables("| `parse_number` | 417–520 | `parse_number`, Numbers | a < b |")).expect("a right row");
        assert!(counts.starts_with("1 rows: 1 functions and 104 lines of the original, 1 definitions and "), "{counts}");
        for expected in ["<span>417</span>    fn parse_number(", "parse_number cs =", "../crates/rules/specs/Numbers.antt", "a &lt; b"] {
            assert!(text.contains(expected), "{expected}");
        }
    }

    #[test]
    fn a_wrong_row_is_told_with_its_name() {
        let all = all();
        for (row, expected) in [
            ("| `parse_number` | 417–9999 | `parse_number`, Numbers | |", "row `parse_number`: the lines 417–9999 lie outside lexer.rs"),
            ("| `parse_number` | 418–520 | `parse_number`, Numbers | |", "row `parse_number`: parse_number is not declared in the lines"),
            ("| `parse_number` | 417–520 | `parse_numbr`, Numbers | |", "row `parse_number`: parse_numbr is not declared in crates/rules"),
            ("| `parse_number` | 417–520 | `parse_number`, Marks | |", "row `parse_number`: parse_number is not declared in crates/rules"),
            ("| `parse_number` | 417–520 | as it is | |", "row `parse_number`: neither a definition nor a file is named"),
            ("| `parse_number` | 417 to 520 | `parse_number` | |", "row `parse_number`: the lines 417 to 520 are not understood"),
        ] {
            let wrong = text(&all, &tables(row)).map(|_| ()).expect_err(row);
            assert!(wrong.len() == 1 && wrong[0].starts_with(expected), "{wrong:?}");
        }
    }

    #[test]
    fn all_that_is_wrong_is_told() {
        let rows = "| `a` | 24–106 | `nothing`, Tables | |\n| `KEYWORDS` | 24–106 | `none` | |";
        let wrong = text(&all(), &tables(rows)).map(|_| ()).expect_err("three names");
        assert_eq!(wrong.len(), 3, "{wrong:?}");
    }
    #[test]
    fn a_wrong_table_fails_and_writes_nothing() {
        let root = std::env::temp_dir().join(format!("compare_tables_{}", std::process::id()));
        let _ = fs::remove_dir_all(&root);
        fs::create_dir_all(root.join("docs")).expect("a folder");
        fs::create_dir_all(root.join("target")).expect("a folder");
        std::os::unix::fs::symlink(Path::new(ROOT).canonicalize().expect("the repository").join("crates"), root.join("crates"))
            .expect("a link");
        let write = |row: &str| fs::write(root.join("docs/READING.md"), tables(row)).expect("a file");
        write("| `KEYWORDS` | 24–106 | `KEYWORD`, Tables | |");
        let wrong = "docs/READING.md: row `KEYWORDS`: KEYWORD is not declared in crates/rules/specs/Tables.antt";
        assert_eq!(make(&root, None), Err((Status::Failed, vec![wrong.to_string()])));
        assert!(!root.join("target/page.html").exists());
        assert!(make(&root, Some(&root.join("page.html"))).is_err_and(|(status, _)| status == Status::NotDone));
        write("| `KEYWORDS` | 24–106 | `KEYWORDS`, Tables | |");
        assert!(make(&root, None).is_ok_and(|told| told.starts_with("1 rows: 0 functions and 83 lines")));
        assert!(root.join("target/page.html").exists());
        fs::remove_dir_all(&root).expect("the folder goes");
    }
}
