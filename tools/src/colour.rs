//! What each byte of a script belongs to, and in which colour that is shown.
use crate::mistakes::{underlined, without_end};
use aura_lexer::{Lexed, Token, TokenKind};
use std::ops::Range;

/// What a byte of the script belongs to.
#[derive(Clone, Copy, Debug, PartialEq, Eq)]
pub enum Highlight {
    Plain,
    Comment,
    Doc,
    Keyword,
    Name,
    Number,
    Text,
    Interpolation,
    Mark,
    Wrong,
}

/// How something looks: its number among the 256 colours of terminals, none for the ground's own; the same as red, green and blue; and
/// the letters.
#[derive(Clone, Copy, Debug, PartialEq, Eq)]
pub struct Style {
    pub colour: Option<(u8, &'static str)>,
    pub bold: bool,
    pub italic: bool,
    pub underline: bool,
}

const fn style(colour: Option<(u8, &'static str)>) -> Style {
    Style { colour, bold: false, italic: false, underline: false }
}

/// A mistake, whatever it belongs to.
pub const MISTAKE: Style = Style { bold: true, underline: true, ..style(Some((196, "#ff0000"))) };

impl Highlight {
    pub const ALL: [Highlight; 10] = [
        Highlight::Plain,
        Highlight::Comment,
        Highlight::Doc,
        Highlight::Keyword,
        Highlight::Name,
        Highlight::Number,
        Highlight::Text,
        Highlight::Interpolation,
        Highlight::Mark,
        Highlight::Wrong,
    ];

    fn of(kind: TokenKind) -> Self {
        match kind.number() {
            0 | 1 => Highlight::Number,
            2 | 3 => Highlight::Text,
            5 => Highlight::Name,
            4 | 6..=68 => Highlight::Keyword,
            121 => Highlight::Interpolation,
            123 => Highlight::Doc,
            124 => Highlight::Plain,
            125 => Highlight::Wrong,
            _ => Highlight::Mark,
        }
    }

    /// Colours that stand off from a black and from a white ground alike: at least 3.9 to 1 (WCAG's contrast), as the tests work out.
    pub fn style(self) -> Style {
        match self {
            Highlight::Plain | Highlight::Mark => style(None),
            Highlight::Comment => style(Some((243, "#767676"))),
            Highlight::Doc => Style { italic: true, ..style(Some((65, "#5f875f"))) },
            Highlight::Keyword => Style { bold: true, ..style(Some((63, "#5f5fff"))) },
            Highlight::Name => style(Some((30, "#008787"))),
            Highlight::Number => style(Some((130, "#af5f00"))),
            Highlight::Text => style(Some((28, "#008700"))),
            Highlight::Interpolation => style(Some((163, "#d700af"))),
            Highlight::Wrong => style(Some((196, "#ff0000"))),
        }
    }

    /// Its name in a page.
    pub fn class(self) -> &'static str {
        match self {
            Highlight::Plain => "plain",
            Highlight::Comment => "comment",
            Highlight::Doc => "doc",
            Highlight::Keyword => "keyword",
            Highlight::Name => "name",
            Highlight::Number => "number",
            Highlight::Text => "text",
            Highlight::Interpolation => "interpolation",
            Highlight::Mark => "mark",
            Highlight::Wrong => "wrong",
        }
    }
}

/// The highlights of a script's bytes, filled from the front.
struct Highlighter<'a> {
    source: &'a str,
    highlights: Vec<Highlight>,
}

impl Highlighter<'_> {
    /// Highlights from where the last one ends up to an offset; what lies before keeps.
    fn to(&mut self, end: usize, highlight: Highlight) {
        if end > self.highlights.len() {
            self.highlights.resize(end, highlight);
        }
    }

    /// What lies between two tokens: white space and comments.
    fn gap(&mut self, end: usize) {
        let start = self.highlights.len();
        if start >= end {
            return;
        }
        let between = &self.source[start..end];
        let comment = start + between.trim_end().len();
        self.to(comment - between.trim().len(), Highlight::Plain);
        self.to(comment, Highlight::Comment);
        self.to(end, Highlight::Plain);
    }

    /// An interpolation: in a string its span begins at the string's start, so that its own begin is found by its text. The text of
    /// one that the end of the script cut off has a brace more than the script.
    fn interpolation(&mut self, token: &Token, text: &str) {
        let end = token.range().end;
        if in_string(token, self.source) {
            let cut_off = text.starts_with("${") && !self.source[..end].ends_with('}');
            self.to(end + usize::from(cut_off) - text.len(), Highlight::Text);
        }
        self.to(end, Highlight::Interpolation);
    }

    /// The end of a string behind its last interpolation, where no piece follows: escapes that give no character, and the quote.
    fn rest_of_string(&mut self) {
        let start = self.highlights.len();
        if let Some(quote) = self.source[start..].find('"') {
            self.to(start + quote + 1, Highlight::Text);
        }
    }
}

fn in_string(token: &Token, source: &str) -> bool {
    source[token.range().start..].starts_with('"')
}

/// The highlight of each byte after the byte-order mark.
pub fn highlights(lexed: &Lexed) -> Vec<Highlight> {
    let source = lexed.source();
    let mut highlighter = Highlighter { source, highlights: Vec::with_capacity(source.len()) };
    let mut tokens = lexed.tokens().peekable();
    while let Some((token, text)) = tokens.next() {
        highlighter.gap(token.range().start);
        if token.kind != TokenKind::StringInterpStart {
            highlighter.to(token.range().end, Highlight::of(token.kind));
            continue;
        }
        highlighter.interpolation(&token, text);
        let is_last = tokens.peek().is_none_or(|(next, _)| next.span.start != token.span.start);
        if is_last && in_string(&token, source) {
            highlighter.rest_of_string();
        }
    }
    highlighter.highlights
}

/// Whether each byte belongs to a mistake.
pub fn wrong(lexed: &Lexed) -> Vec<bool> {
    let source = lexed.source();
    let mut wrong = vec![false; source.len()];
    for error in lexed.errors() {
        wrong[underlined(source, &error)].fill(true);
    }
    wrong
}

/// A part of a line that is shown in one way.
pub struct Run<'a> {
    pub text: &'a str,
    pub highlight: Highlight,
    pub wrong: bool,
}

/// A line, and what ends it: nothing for the last one.
pub struct Line<'a> {
    pub runs: Vec<Run<'a>>,
    pub end: &'a str,
}

/// The lines of a script in their runs. What ends a line belongs to none, so that no line begins in another's colour.
pub fn lines<'a>(lexed: &'a Lexed) -> impl Iterator<Item = Line<'a>> {
    let source = lexed.source();
    let (highlights, wrong) = (highlights(lexed), wrong(lexed));
    let mut start = 0;
    source.split_inclusive('\n').map(move |line| {
        let (text, end) = without_end(line);
        let runs = runs(source, start..start + text.len(), &highlights, &wrong);
        start += line.len();
        Line { runs, end }
    })
}

fn runs<'a>(source: &'a str, line: Range<usize>, highlights: &[Highlight], wrong: &[bool]) -> Vec<Run<'a>> {
    let mut all = Vec::new();
    let mut start = line.start;
    while start < line.end {
        let same = |at: &usize| (highlights[*at], wrong[*at]) == (highlights[start], wrong[start]);
        let end = (start..line.end).find(|at| !same(at)).unwrap_or(line.end);
        all.push(Run { text: &source[start..end], highlight: highlights[start], wrong: wrong[start] });
        start = end;
    }
    all
}

#[cfg(test)]
mod tests;
