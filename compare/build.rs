// Takes in the original lexer where its sources are at hand. The proved one is linked by the crate `aura_lexer`.
// With the feature `mutants` it makes the changed copies of the original, too.
use std::env;
use std::fs;
use std::path::{Path, PathBuf};

#[path = "src/changes.rs"]
mod changes;
use changes::Change;

/// The modules of the original, by their paths: they name each other by `crate::`, so they stand at the crate's root.
fn original(src: &Path) -> Result<String, String> {
    let path = |file: &str| src.join(file).display().to_string();
    let module = |name: &str| format!("#[path = {:?}]\n#[allow(dead_code, clippy::all)]\npub mod {name};\n", path(&format!("{name}.rs")));
    let include = |name: &str, file: &str| format!("pub const {name}: &str = include_str!({:?});\n", path(file));
    let mut text = ["span", "token", "lexer"].map(module).concat() + "pub use span::Span;\n";
    text += &(include("LEXER_RS", "lexer.rs") + &include("TOKEN_RS", "token.rs") + &include("SPAN_RS", "span.rs"));
    text += &format!("/// The folder of the sources.\npub const SOURCES: &str = {:?};\n", path(""));
    text += "/// The token kinds by their numbers.\n";
    let token_rs = fs::read_to_string(src.join("token.rs")).map_err(|e| format!("token.rs: {e}"))?;
    Ok(text + &kinds(&token_rs, "token::"))
}

/// The list of the token kinds in their order, by which a number is made a kind.
fn kinds(token_rs: &str, path: &str) -> String {
    let body = token_rs.split("pub enum TokenKind {").nth(1).and_then(|rest| rest.split("\n}").next()).expect("token.rs has the enum");
    let words = body.lines().map(|line| line.split("//").next().unwrap_or_default().trim().trim_end_matches(','));
    let names: Vec<String> = words.filter(|word| !word.is_empty()).map(|word| format!("{path}TokenKind::{word}")).collect();
    format!("pub const KINDS: &[{path}TokenKind] = &[{}];\n", names.join(", "))
}

/// Writes the changed copy of a source and the module around it. A changed `lexer.rs` uses the original's `span.rs` and `token.rs`; with a
/// changed `span.rs` all three are copies, which name each other by `super::`.
fn mutant(change: &Change, src: &Path, out: &Path) -> Result<String, String> {
    let folder = out.join("mutants").join(&change.name);
    fs::create_dir_all(&folder).map_err(|e| e.to_string())?;
    let read = |file: &str| fs::read_to_string(src.join(file)).map_err(|e| format!("{}: {file}: {e}", change.name));
    let put = |file: &str, text: &str| fs::write(folder.join(file), text).map_err(|e| e.to_string());
    let mut text = format!("#[allow(warnings)]\npub mod {} {{\n", change.name);
    let path = |file: &str| folder.join(file).display().to_string();
    let module = |file: &str| format!("#[path = {:?}]\npub mod {};\n", path(file), file.trim_end_matches(".rs"));
    match change.file.as_str() {
        "lexer.rs" => {
            put("lexer.rs", &changes::apply(change, &read("lexer.rs")?)?)?;
            text += &module("lexer.rs");
            text += "pub use crate::KINDS;\n";
        }
        "span.rs" => {
            put("span.rs", &changes::apply(change, &read("span.rs")?)?)?;
            for file in ["token.rs", "lexer.rs"] {
                put(file, &read(file)?.replace("crate::", "super::"))?;
            }
            text += &["span.rs", "token.rs", "lexer.rs"].map(module).concat();
            text += &format!("pub use span::Span;\n{}", kinds(&read("token.rs")?, "token::"));
        }
        other => return Err(format!("{}: changes are made in lexer.rs and span.rs, not in {other}", change.name)),
    }
    Ok(text + "}\n")
}

/// All changed copies, and the list of them.
fn mutants(folder: &Path, src: &Path, out: &Path) -> Result<String, String> {
    let changes = changes::read(folder)?;
    let mut text = String::new();
    for change in &changes {
        text += &mutant(change, src, out)?;
        text += &format!("crate::oracle::lexing!({0}::lexer::Lexer, {0}::KINDS);\n", change.name);
    }
    text += "pub const MUTANTS: &[Mutant] = &[\n";
    for Change { name, words, unshowable, .. } in &changes {
        let start = format!("start::<{name}::lexer::Lexer>");
        text += &format!("Mutant {{ name: {name:?}, words: {words:?}, unshowable: {unshowable:?}, start: {start} }},\n");
    }
    Ok(text + "];\n")
}

/// The files that make the original.
const FILES: [&str; 3] = ["lexer.rs", "token.rs", "span.rs"];

/// The folder of the original's sources, if all are there. A later build looks again, whether they are there now or not.
fn sources(here: &Path) -> Option<PathBuf> {
    println!("cargo::rerun-if-env-changed=AURA_SRC");
    let folder =
        env::var_os("AURA_SRC").filter(|name| !name.is_empty()).map_or(here.join("../../shared/docs/src/seed/compiler/src"), PathBuf::from);
    println!("cargo::rerun-if-changed={}", folder.display());
    for file in FILES {
        println!("cargo::rerun-if-changed={}", folder.join(file).display());
    }
    let missing: Vec<&str> = FILES.into_iter().filter(|file| !folder.join(file).is_file()).collect();
    if missing.is_empty() {
        return folder.canonicalize().ok();
    }
    let (missing, folder) = (missing.join(", "), folder.display());
    println!("cargo::warning=built without the original lexer: {folder} has no {missing}; set AURA_SRC to the folder of its sources");
    None
}

/// Writes what is taken in of the original, which is nothing where its sources are not at hand.
fn write(here: &Path, src: Option<&Path>, out: &Path) -> Result<(), String> {
    let put = |file: &str, text: &str| fs::write(out.join(file), text).map_err(|e| format!("{file}: {e}"));
    let Some(src) = src else { return put("original.rs", "") };
    println!("cargo::rustc-cfg=oracle");
    if env::var_os("CARGO_FEATURE_MUTANTS").is_some() {
        let folder = here.join("mutants");
        println!("cargo::rerun-if-changed={}", folder.display());
        put("mutants.rs", &mutants(&folder, src, out)?)?;
    }
    put("original.rs", &original(src)?)
}

fn main() {
    let [here, out] = ["CARGO_MANIFEST_DIR", "OUT_DIR"].map(|name| PathBuf::from(env::var_os(name).expect("cargo sets it")));
    println!("cargo::rustc-check-cfg=cfg(oracle)");
    if let Err(why) = write(&here, sources(&here).as_deref(), &out) {
        println!("cargo::error={why}");
    }
}
