//! The office print of a script by a model of its own, written from order 2 and not from the proved code. It takes the original's tokens and
//! the script's character at a token's start: a quote there says that the token is a piece of a string, and pieces with the same start
//! belong to one string.
use crate::lexed::{Token, EOF};

const STRING: u8 = 2;
const CHAR: u8 = 3;
const COLON_EQUAL: u8 = 114;
const INTERPOLATION: u8 = 121;
const DOC: u8 = 123;

/// What is written in place of a character.
type Escapes = &'static [(char, &'static str)];

/// What order 2 has written. It is a table, so that the tests can change one row at a time.
#[derive(Clone, Copy)]
pub struct Layout {
    /// Behind a token that another one follows, and behind the last one.
    pub separator: [&'static str; 2],
    /// The same for a doc comment.
    pub doc_separator: [&'static str; 2],
    pub string_escapes: Escapes,
    pub char_escapes: Escapes,
    /// The characters that are escaped where they begin a piece after `$name`, and how.
    pub extends_name: fn(char) -> bool,
    pub unicode_escape: fn(char) -> String,
    /// Between a `$name` and a 121 of the same string right after it.
    pub name_separator: &'static str,
    /// Between the quotes of an empty character literal.
    pub empty_char: &'static str,
    /// Kind 114.
    pub colon_equal: &'static str,
    /// A 121 outside a string.
    pub interpolation: &'static str,
    /// Before a doc text of one line, or an empty one.
    pub line_doc: &'static str,
    /// Of a longer doc text: what begins it, what begins each line, what ends it.
    pub block_doc: [&'static str; 3],
    /// A blank line of a longer doc text.
    pub blank_line: &'static str,
}

/// Order 2 as it is.
pub const ORDER_2: Layout = Layout {
    separator: [" ", ""],
    doc_separator: ["\n", "\n"],
    string_escapes: &[('\\', "\\\\"), ('"', "\\\""), ('\n', "\\n"), ('$', "\\u0024")],
    char_escapes: &[('\\', "\\\\"), ('\'', "\\'"), ('\n', "\\n")],
    extends_name: |c| c.is_ascii_alphanumeric() || c == '_',
    unicode_escape: |c| format!("\\u{:04x}", u32::from(c)),
    name_separator: "\\uD800",
    empty_char: "\\uD800",
    colon_equal: ":=",
    interpolation: "${}",
    line_doc: "/// ",
    block_doc: ["/**\n", "* ", "*/"],
    blank_line: "* ",
};

/// Whether a token is a piece of a string. The source is the script after its byte-order mark.
pub fn is_piece(source: &[u8], token: &Token) -> bool {
    matches!(token.kind, STRING | INTERPOLATION) && source.get(token.span[0] as usize) == Some(&b'"')
}

/// Whether a token belongs to the same string as the one before it.
pub fn is_continued(source: &[u8], before: &Token, token: &Token) -> bool {
    is_piece(source, before) && is_piece(source, token) && before.span[0] == token.span[0]
}

fn text(token: &Token) -> &str {
    std::str::from_utf8(&token.text).expect("the original's texts are UTF-8")
}

/// Whether a token is a `$name`.
fn is_name(token: &Token) -> bool {
    token.kind == INTERPOLATION && !token.text.starts_with(b"${")
}

fn escape(text: &str, escapes: Escapes, print: &mut String) {
    for c in text.chars() {
        match escapes.iter().find(|(from, _)| *from == c) {
            Some((_, to)) => *print += to,
            None => print.push(c),
        }
    }
}

impl Layout {
    /// A piece of a string, after a `$name` or not.
    fn piece(&self, piece: &Token, after_name: bool, print: &mut String) {
        let mut text = text(piece);
        if piece.kind == INTERPOLATION {
            *print += if after_name { self.name_separator } else { "" };
            *print += text;
            return;
        }
        if let Some(first) = text.chars().next().filter(|c| after_name && (self.extends_name)(*c)) {
            *print += &(self.unicode_escape)(first);
            text = &text[first.len_utf8()..];
        }
        escape(text, self.string_escapes, print);
    }

    fn string(&self, pieces: &[Token], print: &mut String) {
        print.push('"');
        for (i, piece) in pieces.iter().enumerate() {
            self.piece(piece, i > 0 && is_name(&pieces[i - 1]), print);
        }
        print.push('"');
    }

    fn char(&self, text: &str, print: &mut String) {
        print.push('\'');
        match text {
            "" => *print += self.empty_char,
            _ => escape(text, self.char_escapes, print),
        }
        print.push('\'');
    }

    fn doc(&self, text: &str, print: &mut String) {
        if !text.contains('\n') {
            *print += self.line_doc;
            *print += text;
            return;
        }
        let [begin, each, end] = self.block_doc;
        *print += begin;
        for line in text.split('\n') {
            *print += if line.is_empty() { self.blank_line } else { each };
            *print += line;
            print.push('\n');
        }
        *print += end;
    }

    /// A token, or all pieces of a string.
    fn token(&self, source: &[u8], pieces: &[Token], print: &mut String) {
        let token = &pieces[0];
        match token.kind {
            _ if is_piece(source, token) => self.string(pieces, print),
            CHAR => self.char(text(token), print),
            COLON_EQUAL => *print += self.colon_equal,
            INTERPOLATION => *print += self.interpolation,
            DOC => self.doc(text(token), print),
            _ => *print += text(token),
        }
    }

    /// The print of a script without errors. The source is the script after its byte-order mark, the tokens are the original's.
    pub fn print(&self, source: &[u8], tokens: &[Token]) -> Vec<u8> {
        let mut print = String::new();
        let strings = tokens.chunk_by(|before, token| is_continued(source, before, token));
        let mut all = strings.filter(|pieces| pieces[0].kind != EOF).peekable();
        while let Some(pieces) = all.next() {
            self.token(source, pieces, &mut print);
            let separator = if pieces[0].kind == DOC { self.doc_separator } else { self.separator };
            print += separator[usize::from(all.peek().is_none())];
        }
        print.into_bytes()
    }
}

#[cfg(all(test, oracle))]
mod tests {
    use super::ORDER_2;
    use crate::oracle;

    fn print(script: &str) -> String {
        let lexed = oracle::lex(script);
        assert_eq!(lexed.errors, [], "{script:?}");
        String::from_utf8(ORDER_2.print(script.as_bytes(), &lexed.tokens)).expect("UTF-8")
    }

    #[test]
    fn tokens_have_a_space_between_them() {
        assert_eq!(print(""), "");
        assert_eq!(print(" // a\n/* b */"), "");
        assert_eq!(print("val a=1"), "val a = 1");
        assert_eq!(print("\"a$b\"c"), "\"a$b\" c");
        assert_eq!(print("a:=b::=<<<$"), "a := b :: = <<< $");
        assert_eq!(print("${a b}${}${"), "${} ${} ${}");
    }

    #[test]
    fn a_line_feed_stands_behind_a_doc_comment() {
        assert_eq!(print("/***/"), "/// \n");
        assert_eq!(print("///a\n/// b \nc"), "/// a\n/// b\nc");
        assert_eq!(print("a/** b */"), "a /// b\n");
        assert_eq!(print("/** a\n\n *b\r\n * * c\rd\n */e"), "/**\n* a\n* \n* b\n* * c\rd\n*/\ne");
    }

    #[test]
    fn strings_are_ordinary_ones() {
        assert_eq!(print("\"\""), "\"\"");
        assert_eq!(print("\"\"\"x\"y\n\\z$a'\"\"\""), "\"x\\\"y\\n\\\\z\\u0024a'\"");
        assert_eq!(print("\"$a\\uD800b\""), "\"$a\\u0062\"");
        assert_eq!(print("\"$a\\uD800_b\""), "\"$a\\u005fb\"");
        assert_eq!(print("\"$a\\uD800$b\""), "\"$a\\uD800$b\"");
        assert_eq!(print("\"$a\\uD800${b}c$d-e\\uD800\""), "\"$a\\uD800${b}c$d-e\"");
        assert_eq!(print("\"$a${b}${c}$d\""), "\"$a${b}${c}$d\"");
        assert_eq!(print("\"a$$b\""), "\"a\\u0024$b\"");
        assert_eq!(print("\"${a\n\"}$a$b\"\"\""), "\"${a\n\"}$a$b\" \"\"");
    }

    #[test]
    fn character_literals() {
        assert_eq!(print("'\\uD800'"), "'\\uD800'");
        assert_eq!(print("'\n''\\\\'''''\"''$''\\q''\\t'"), "'\\n' '\\\\' '\\'' '\"' '$' 'q' '\t'");
    }
}
