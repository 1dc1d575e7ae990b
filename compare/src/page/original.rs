//! The original's lines.
use super::declarations;
use super::html;
use super::reading::{Lines, Row};
use super::Part;
use std::collections::BTreeSet;
use std::path::Path;

/// The original's files.
const FILES: [(&str, &str); 3] = [("lexer.rs", crate::LEXER_RS), ("token.rs", crate::TOKEN_RS), ("span.rs", crate::SPAN_RS)];

/// Lines of the original, or what is wrong with them.
pub fn part(lines: &Lines) -> Result<Part, String> {
    let Lines { file, first, last } = lines;
    let (_, text) = FILES.iter().find(|(name, _)| name == file).ok_or_else(|| format!("the original has no file {file}"))?;
    let text: Vec<&str> = text.lines().collect();
    if *first == 0 || first > last || *last > text.len() {
        return Err(format!("the lines {first}–{last} lie outside {file}, which has {}", text.len()));
    }
    let lines = text[first - 1..*last].iter().map(|line| line.to_string()).collect();
    let href = format!("file://{}", html::href(&Path::new(crate::SOURCES).join(file)));
    Ok(Part { name: None, file: file.clone(), href, first: *first, lines })
}

/// The numbers of a file's lines that stand in a row.
fn covered(rows: &[Row], file: &str) -> BTreeSet<usize> {
    rows.iter().flat_map(|row| &row.lines).filter(|lines| lines.file == file).flat_map(|lines| lines.first..=lines.last).collect()
}

/// The runs of numbers from 1 to `count` that are not in the set, by their first and last.
fn gaps(covered: &BTreeSet<usize>, count: usize) -> Vec<(usize, usize)> {
    let mut gaps: Vec<(usize, usize)> = Vec::new();
    for number in (1..=count).filter(|number| !covered.contains(number)) {
        match gaps.last_mut() {
            Some((_, last)) if *last + 1 == number => *last = number,
            _ => gaps.push((number, number)),
        }
    }
    gaps
}

/// The original's lines in no row, as far as they are not empty.
pub fn others(rows: &[Row]) -> Vec<Part> {
    let all = FILES.iter().flat_map(|(file, text)| {
        let gaps = gaps(&covered(rows, file), text.lines().count());
        gaps.into_iter().map(|(first, last)| Lines { file: file.to_string(), first, last })
    });
    let parts = all.filter_map(|lines| part(&lines).ok());
    parts.filter(|part| part.lines.iter().any(|line| !line.trim().is_empty())).collect()
}

/// How many functions and lines of the original stand in rows.
pub fn counted(rows: &[Row]) -> (usize, usize) {
    let (mut functions, mut lines) = (0, 0);
    for (file, text) in FILES {
        let covered = covered(rows, file);
        let inside = text.lines().zip(1..).filter(|(_, number)| covered.contains(number));
        functions += inside.filter(|(line, _)| declarations::in_rust(line).any(|(before, _)| before == "fn")).count();
        lines += covered.len();
    }
    (functions, lines)
}

#[cfg(test)]
mod tests {
    use super::*;

    fn lines(file: &str, first: usize, last: usize) -> Lines {
        Lines { file: file.to_string(), first, last }
    }

    #[test]
    fn lines_outside_a_file_are_told() {
        let count = crate::SPAN_RS.lines().count();
        assert_eq!(part(&lines("span.rs", 1, count)).map(|part| part.lines.len()).ok(), Some(count));
        for (file, first, last) in [("span.rs", 1, count + 1), ("span.rs", 0, 3), ("span.rs", 4, 3)] {
            let wrong = part(&lines(file, first, last)).map(|_| ()).expect_err("outside");
            assert_eq!(wrong, format!("the lines {first}–{last} lie outside span.rs, which has {count}"));
        }
        assert!(part(&lines("parser.rs", 1, 1)).is_err());
    }

    #[test]
    fn gaps_are_what_is_not_covered() {
        let covered = BTreeSet::from([1, 2, 5, 9]);
        assert_eq!(gaps(&covered, 10), [(3, 4), (6, 8), (10, 10)]);
        assert_eq!(gaps(&covered, 2), []);
        assert_eq!(gaps(&BTreeSet::new(), 3), [(1, 3)]);
    }
}
