//! The kind, start and end of each token of a script, and the kind of each error.

fn main() -> Result<(), aura_lexer::Refusal> {
    let lexed = aura_lexer::lex(b"val a=1")?;
    for (token, _text) in lexed.tokens() {
        println!("T {} {} {}", token.kind.number(), token.span.start, token.span.end);
    }
    for error in lexed.errors() {
        println!("E {} {} {}", error.kind.number(), error.span.start, error.span.end);
    }
    println!("{}", if lexed.is_closed() { "closed" } else { "open" });
    Ok(())
}
