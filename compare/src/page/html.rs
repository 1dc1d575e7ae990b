//! The page's text.
use super::{Part, Placed, Side};
use aura_tools::markup::escape;
use std::fmt::Write;
use std::path::Path;

const STYLE: &str = include_str!("style.css");

/// A text of READING.md, in which what stands between backquotes is code.
fn inline(text: &str) -> String {
    let parts = text.split('`').enumerate();
    parts.map(|(i, part)| if i % 2 == 0 { escape(part) } else { format!("<code>{}</code>", escape(part)) }).collect()
}

/// A path as a link's target.
pub fn href(path: &Path) -> String {
    let mut target = String::new();
    for byte in path.as_os_str().as_encoded_bytes() {
        match byte {
            b'a'..=b'z' | b'A'..=b'Z' | b'0'..=b'9' | b'/' | b'.' | b'-' | b'_' | b'~' => target.push(char::from(*byte)),
            _ => target += &format!("%{byte:02X}"),
        }
    }
    target
}

/// Lines of a file, with their numbers and a link to it.
fn part(part: &Part) -> String {
    let last = part.first + part.lines.len() - 1;
    let name = part.name.as_ref().map_or(String::new(), |name| format!("<code>{}</code> ", escape(name)));
    let mut text =
        format!("<h3>{name}<a href=\"{}\">{}</a>, lines {}–{last}</h3>\n<pre>", escape(&part.href), escape(&part.file), part.first);
    for (number, line) in (part.first..).zip(&part.lines) {
        writeln!(text, "<span>{number}</span>{}", escape(line)).expect("a string");
    }
    text + "</pre>\n"
}

fn side(class: &str, side: &Side) -> String {
    let parts: String = side.parts.iter().map(part).collect();
    let used: String = side.used.iter().map(part).collect();
    let file = |(file, href): &(String, String)| format!("<p><a href=\"{}\">{}</a></p>\n", escape(href), escape(file));
    let files: String = side.files.iter().map(file).collect();
    let between = if used.is_empty() { "" } else { "<p>What they use of the same files:</p>\n" };
    format!("<div class=\"{class}\">\n<h2>{}</h2>\n{parts}{files}{between}{used}</div>\n", inline(&side.title))
}

fn section(number: usize, placed: &Placed) -> String {
    let why = match placed.why.is_empty() {
        true => String::new(),
        false => format!("<p class=\"why\">{}</p>\n", inline(&placed.why)),
    };
    let sides = side("original", &placed.original) + &side("definitions", &placed.definitions);
    format!("<section id=\"row-{number}\">\n{why}<div class=\"pair\">\n{sides}</div>\n</section>\n")
}

fn contents(rows: &[Placed]) -> String {
    let entry = |(number, row): (usize, &Placed)| format!("<li><a href=\"#row-{number}\">{}</a></li>\n", inline(&row.original.title));
    let entries: String = (1..).zip(rows).map(entry).collect();
    format!("<nav>\n<ol>\n{entries}<li><a href=\"#others\">lines in no row</a></li>\n</ol>\n</nav>\n")
}

/// The whole page. `reading` leads to docs/READING.md, `others` are the original's lines in no row.
pub fn page(rows: &[Placed], others: &[Part], reading: &str, counts: &str) -> String {
    let sections: String = (1..).zip(rows).map(|(number, row)| section(number, row)).collect();
    let others: String = others.iter().map(part).collect();
    let reading = escape(reading);
    format!(
        "<!DOCTYPE html>\n<html lang=\"en\">\n<head>\n<meta charset=\"utf-8\">\n\
         <meta name=\"viewport\" content=\"width=device-width, initial-scale=1\">\n\
         <title>The original lexer beside its definitions</title>\n<style>\n{STYLE}</style>\n</head>\n<body>\n\
         <header>\n<h1>The original lexer beside its definitions</h1>\n\
         <p>Left the original, right the definitions that stand for it, by the tables of <a href=\"{reading}\">docs/READING.md</a>, \
         which says how a definition is read. {}.</p>\n{}</header>\n<main>\n{sections}\
         <section id=\"others\">\n<p class=\"why\">The original's lines in no row; “Rust lines without a counterpart” in \
         <a href=\"{reading}\">docs/READING.md</a> says why.</p>\n<details>\n<summary>show them</summary>\n{others}</details>\n\
         </section>\n</main>\n</body>\n</html>\n",
        escape(counts),
        contents(rows)
    )
}

#[cfg(test)]
mod tests {
    use super::*;

    #[test]
    fn nothing_of_a_source_is_read_as_html() {
        assert_eq!(inline("`a<b` & `c`"), "<code>a&lt;b</code> &amp; <code>c</code>");
    }

    #[test]
    fn a_path_is_a_link() {
        assert_eq!(href(Path::new("../a b/c#1?%é.rs")), "../a%20b/c%231%3F%25%C3%A9.rs");
    }

    #[test]
    fn lines_have_their_numbers() {
        let lines = vec!["a".to_string(), "  b & c".to_string()];
        let part_of = Part { name: Some("f".to_string()), file: "x.rs".to_string(), href: "../x.rs".to_string(), first: 9, lines };
        let text = part(&part_of);
        assert!(text.contains("<h3><code>f</code> <a href=\"../x.rs\">x.rs</a>, lines 9–10</h3>"), "{text}");
        assert!(text.ends_with("<pre><span>9</span>a\n<span>10</span>  b &amp; c\n</pre>\n"), "{text}");
    }
}
