//! Columns as an editor counts them.

/// The column of each byte of a text, and of its end, as an editor counts: characters of the line, from 1. The bytes of one character
/// have its column. The columns in the records differ from these behind a line feed that was skipped as white space: they are one more.
///
/// ```
/// let lexed = aura_lexer::lex("é\nb".as_bytes())?;
/// assert_eq!(aura_lexer::columns(lexed.source()), [1, 1, 2, 1, 2]);
/// # Ok::<(), aura_lexer::Refusal>(())
/// ```
pub fn columns(source: &str) -> Vec<u32> {
    let mut columns = Vec::with_capacity(source.len() + 1);
    let mut column = 1;
    for c in source.chars() {
        columns.resize(columns.len() + c.len_utf8(), column);
        column = if c == '\n' { 1 } else { column + 1 };
    }
    columns.push(column);
    columns
}
