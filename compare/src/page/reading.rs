//! The tables of docs/READING.md that set the original's functions beside their definitions.

/// The heading of the tables.
const HEADING: &str = "## Function by function";

/// The crate whose definitions a row means where it names no other.
pub const RULES: &str = "rules";

/// Lines of a file of the original, counted from 1; both ends belong to them.
#[derive(Clone, Debug, PartialEq, Eq)]
pub struct Lines {
    pub file: String,
    pub first: usize,
    pub last: usize,
}

/// Where a definition stands.
#[derive(Clone, Debug, PartialEq, Eq)]
pub enum Home {
    /// A file below crates/.
    File(String),
    /// Any file of a crate's specs/.
    Specs(String),
}

/// A definition by its name.
#[derive(Clone, Debug, PartialEq, Eq)]
pub struct Wanted {
    pub name: String,
    pub home: Home,
}

/// A row: some of the original's lines, and the definitions that stand for them. The cells are kept as they are written.
#[derive(Clone, Debug, PartialEq, Eq)]
pub struct Row {
    pub title: String,
    /// What the title names of the original.
    pub names: Vec<String>,
    pub lines: Vec<Lines>,
    pub cell: String,
    pub wanted: Vec<Wanted>,
    /// The form, and why it is the same.
    pub why: String,
}

/// Whether a crate's specs/ has a file of this name, without `.antt`.
pub type IsSpec<'a> = &'a dyn Fn(&str, &str) -> bool;

/// The cells of a table's line. A bar behind a backslash belongs to its cell.
fn cells(line: &str) -> Vec<String> {
    let inner = line.trim().trim_start_matches('|').trim_end_matches('|').replace("\\|", "\0");
    inner.split('|').map(|cell| cell.trim().replace('\0', "|")).collect()
}

/// What stands between backquotes, and what stands around it: a text and the name behind it, in turn.
fn quoted(text: &str) -> impl Iterator<Item = (&str, Option<&str>)> {
    let mut parts = text.split('`');
    std::iter::from_fn(move || parts.next().map(|around| (around, parts.next())))
}

fn names(cell: &str) -> Vec<String> {
    quoted(cell)
        .filter_map(|(_, name)| name)
        .map(|name| name.rsplit("::").next().unwrap_or(name).trim_end_matches('!').to_string())
        .collect()
}

/// The lines of a cell, as `24–106`, with commas between, and the file's name in front where it is not the table's.
fn lines(cell: &str, file: &str) -> Option<Vec<Lines>> {
    let mut file = file;
    let mut lines = Vec::new();
    for part in cell.split(',') {
        let range = match part.trim().split_once(' ') {
            Some((name, range)) => {
                file = name;
                range
            }
            None => part.trim(),
        };
        let (first, last) = range.split_once('–').unwrap_or((range, range));
        let [first, last] = [first, last].map(|number| number.trim().parse().ok());
        lines.push(Lines { file: file.to_string(), first: first?, last: last? });
    }
    Some(lines)
}

/// The file that a text behind names gives them: a path in brackets, or the name of a file of the crate's specs/ between commas.
fn home(text: &str, krate: &str, is_spec: IsSpec) -> Option<Home> {
    let path = text.split_once('(').and_then(|(_, rest)| rest.split_once(')')).map(|(path, _)| path);
    let spec = || text.split(',').map(str::trim).find(|word| is_spec(krate, word)).map(|word| format!("specs/{word}.antt"));
    path.map(str::to_string).or_else(spec).map(|file| Home::File(format!("{krate}/{file}")))
}

/// The definitions that a part of a cell names. It may begin with the crate, as in `crates/spans:`.
fn named(part: &str, is_spec: IsSpec) -> Vec<Wanted> {
    let krate = part.trim().strip_prefix("crates/").and_then(|rest| rest.split_once(':')).map_or(RULES, |(krate, _)| krate);
    let mut wanted = Vec::new();
    let mut homeless: Vec<String> = Vec::new();
    for (around, name) in quoted(part) {
        if let Some(home) = home(around, krate, is_spec) {
            wanted.extend(homeless.drain(..).map(|name| Wanted { name, home: home.clone() }));
        }
        homeless.extend(name.map(str::to_string));
    }
    wanted.extend(homeless.into_iter().map(|name| Wanted { name, home: Home::Specs(krate.to_string()) }));
    wanted
}

fn row(line: &str, file: &str, is_spec: IsSpec) -> Result<Row, String> {
    let cells = cells(line);
    let [title, range, cell, rest @ ..] = &cells[..] else {
        return Err(format!("the row {line} has fewer than three cells"));
    };
    let lines = lines(range, file).ok_or_else(|| format!("row {title}: the lines {range} are not understood"))?;
    let wanted = cell.split(';').flat_map(|part| named(part, is_spec)).collect();
    Ok(Row { title: title.clone(), names: names(title), lines, cell: cell.clone(), wanted, why: rest.join(" ") })
}

/// The rows of the tables below the heading. A table's first cell names its file.
pub fn rows(text: &str, is_spec: IsSpec) -> Result<Vec<Row>, String> {
    let (_, behind) = text.split_once(&format!("\n{HEADING}\n")).ok_or_else(|| format!("there is no heading {HEADING}"))?;
    let section = behind.split("\n## ").next().unwrap_or(behind);
    let mut rows = Vec::new();
    for table in section.split("\n\n").filter(|part| part.trim_start().starts_with('|')) {
        let mut lines = table.trim().lines();
        let file = lines.next().map(|header| cells(header).remove(0)).unwrap_or_default();
        for line in lines.skip(1) {
            rows.push(row(line, &file, is_spec)?);
        }
    }
    match rows.is_empty() {
        true => Err(format!("there is no table below {HEADING}")),
        false => Ok(rows),
    }
}

#[cfg(test)]
mod tests {
    use super::*;

    fn is_spec(krate: &str, name: &str) -> bool {
        krate == "rules" && ["Lexer", "Script", "Docs"].contains(&name)
    }

    fn wanted(name: &str, file: &str) -> Wanted {
        Wanted { name: name.to_string(), home: Home::File(file.to_string()) }
    }

    fn all_named(cell: &str) -> Vec<Wanted> {
        cell.split(';').flat_map(|part| named(part, &is_spec)).collect()
    }

    #[test]
    fn names_have_the_file_behind_them() {
        let expected = [wanted("a", "rules/specs/Lexer.antt"), wanted("b", "rules/specs/Lexer.antt"), wanted("c", "rules/specs/Docs.antt")];
        assert_eq!(all_named("`a`, `b`, Lexer; the tests in `c`, Docs"), expected);
        assert_eq!(all_named("`a`, Elsewhere"), [Wanted { name: "a".to_string(), home: Home::Specs("rules".to_string()) }]);
        assert_eq!(all_named("numbers from 0; those stand in Lexer"), []);
    }

    #[test]
    fn a_path_in_brackets_is_a_file_of_the_crate() {
        let expected =
            [wanted("Span", "spans/src/lib.rt"), wanted("single", "spans/specs/Span.antt"), wanted("merge", "spans/specs/Span.antt")];
        assert_eq!(all_named("crates/spans: `Span` (src/lib.rt), `single`, `merge` (specs/Span.antt)"), expected);
    }

    #[test]
    fn lines_are_ranges_of_a_file() {
        let line = |file: &str, first, last| Lines { file: file.to_string(), first, last };
        assert_eq!(lines("24–106", "lexer.rs"), Some(vec![line("lexer.rs", 24, 106)]));
        assert_eq!(lines("1–2, 7", "lexer.rs"), Some(vec![line("lexer.rs", 1, 2), line("lexer.rs", 7, 7)]));
        assert_eq!(lines("span.rs 3–44, 50–51", "x"), Some(vec![line("span.rs", 3, 44), line("span.rs", 50, 51)]));
        for wrong in ["", "a", "1-2", "1–", "1–2–3", "x.rs"] {
            assert_eq!(lines(wrong, "lexer.rs"), None, "{wrong}");
        }
    }

    #[test]
    fn tables_are_read_below_the_heading_only() {
        let text = "\n| no | 1 | `x` | row |\n\n## Function by function\n\n| lexer.rs | lines | d | why |\n|---|---|---|---|\n\
                    | `Lexer::new`, `f!` | 1–2 | `origin`, Lexer | a \\| b |\n\n| token.rs | l | d |\n|---|---|---|\n\
                    | `T` | 6 | none |\n\n## More\n\n| `y` | 3 | `z` |\n";
        let found = rows(text, &is_spec).expect("two tables");
        let titles: Vec<&str> = found.iter().map(|row| row.title.as_str()).collect();
        assert_eq!(titles, ["`Lexer::new`, `f!`", "`T`"]);
        assert_eq!((found[0].names.join(" "), found[0].why.as_str()), ("new f".to_string(), "a | b"));
        assert_eq!((found[1].lines[0].file.as_str(), found[1].lines[0].first, found[1].wanted.len()), ("token.rs", 6, 0));
        assert!(rows("\n## Other\n", &is_spec).is_err());
        assert!(rows("\n## Function by function\n\nNone.\n", &is_spec).is_err());
        assert!(rows("\n## Function by function\n\n| a | b |\n|---|---|\n| `a` | 1 |\n", &is_spec).is_err());
    }
}
