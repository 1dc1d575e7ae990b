//! The definitions, by the files that they stand in.
use super::declarations;
use super::html;
use super::paths;
use super::reading::{Home, Wanted};
use super::Part;
use aura_tools::visible;
use std::collections::BTreeSet;
use std::fs;
use std::path::{Path, PathBuf};

/// A definition by its file and its name.
pub type Key = (String, String);

pub fn key(part: &Part) -> Option<Key> {
    Some((part.file.clone(), part.name.clone()?))
}

/// A file with definitions, by its path from the repository's root.
struct Source {
    path: String,
    text: String,
}

/// All definitions, and how links lead to them.
pub struct Definitions {
    root: PathBuf,
    /// The page's folder, from which its links lead.
    folder: PathBuf,
    sources: Vec<Source>,
}

fn files_in(folder: &Path) -> Result<Vec<PathBuf>, String> {
    let entries = fs::read_dir(folder).map_err(|error| format!("{}: {error}", visible::name(folder)))?;
    let mut paths: Vec<PathBuf> = entries.filter_map(|entry| Some(entry.ok()?.path())).collect();
    paths.sort();
    Ok(paths)
}

impl Definitions {
    /// Reads the definitions of all crates, and the code that declares spans.
    pub fn read(root: &Path, folder: &Path) -> Result<Self, String> {
        let crates = root.join("crates");
        let specs = files_in(&crates)?.into_iter().flat_map(|krate| files_in(&krate.join("specs")).unwrap_or_default());
        let mut sources = Vec::new();
        for path in specs.chain([crates.join("spans/src/lib.rt")]) {
            let text = fs::read_to_string(&path).map_err(|error| format!("{}: {error}", visible::name(&path)))?;
            sources.push(Source { path: path.strip_prefix(root).expect("it is below").display().to_string(), text });
        }
        Ok(Definitions { root: root.to_path_buf(), folder: folder.to_path_buf(), sources })
    }

    /// A crate's file of definitions by its name without `.antt`, with the link to it, if there is one.
    pub fn spec(&self, krate: &str, name: &str) -> Option<(String, String)> {
        let path = format!("crates/{krate}/specs/{name}.antt");
        self.sources.iter().any(|source| source.path == path).then(|| (path.clone(), self.link(&path)))
    }

    /// The link to a file of the repository.
    pub fn link(&self, path: &str) -> String {
        html::href(&paths::relative(&self.folder, &self.root.join(path)))
    }

    /// A name's declaration in a file, if it is there.
    fn declared(&self, source: &Source, name: &str) -> Option<Part> {
        let lines: Vec<&str> = source.text.lines().collect();
        let range = declarations::find(&lines, name)?;
        let first = *range.start();
        let lines = lines[first - 1..*range.end()].iter().map(|line| line.to_string()).collect();
        Some(Part { name: Some(name.to_string()), file: source.path.clone(), href: self.link(&source.path), first, lines })
    }

    /// The declaration that a row means, or what is wrong.
    pub fn find(&self, wanted: &Wanted) -> Result<Part, String> {
        let Wanted { name, home } = wanted;
        let (place, whole) = match home {
            Home::File(path) => (format!("crates/{path}"), true),
            Home::Specs(krate) => (format!("crates/{krate}/specs/"), false),
        };
        let is_home = |source: &&Source| if whole { source.path == place } else { source.path.starts_with(&place) };
        let mut found: Vec<Part> = self.sources.iter().filter(is_home).filter_map(|source| self.declared(source, name)).collect();
        match found.len() {
            0 => Err(format!("{name} is not declared in {place}")),
            1 => Ok(found.remove(0)),
            _ => Err(format!("{name} is declared in {} and in {}: the row has to name the file", found[0].file, found[1].file)),
        }
    }

    /// The definitions of the same files that these use, and those that these use, without those that are named in a row.
    pub fn used(&self, parts: &[Part], named: &BTreeSet<Key>) -> Vec<Part> {
        let mut seen = named.clone();
        let mut all = parts.to_vec();
        let mut next = 0;
        while next < all.len() {
            let file = all[next].file.clone();
            let source = self.sources.iter().find(|source| source.path == file);
            let words: Vec<String> = declarations::words(&all[next].lines).map(str::to_string).collect();
            let new = words.into_iter().filter(|word| seen.insert((file.clone(), word.clone())));
            all.extend(new.filter_map(|word| self.declared(source?, &word)));
            next += 1;
        }
        let mut used = all.split_off(parts.len());
        used.sort_by(|a, b| (&a.file, a.first).cmp(&(&b.file, b.first)));
        used
    }
}

#[cfg(test)]
mod tests {
    use super::*;

    fn definitions() -> Definitions {
        let source = |path: &str, text: &str| Source { path: path.to_string(), text: text.to_string() };
        let sources = vec![
            source(
                "crates/rules/specs/A.antt",
                "-- One.\nabbrev pub f : ℕ\nf = g h\n\nabbrev pub g : ℕ\ng = k\n\nabbrev pub k : ℕ\nk = 1\n",
            ),
            source("crates/rules/specs/B.antt", "abbrev pub h : ℕ\nh = 2\n\nabbrev pub k : ℕ\nk = 3\n"),
            source("crates/spans/src/lib.rt", "pub struct Span {\n}\n"),
        ];
        Definitions { root: PathBuf::from("/r"), folder: PathBuf::from("/r/target"), sources }
    }

    fn find(name: &str, home: Home) -> Result<(String, usize), String> {
        definitions().find(&Wanted { name: name.to_string(), home }).map(|part| (part.href, part.first))
    }

    #[test]
    fn a_name_is_looked_for_where_the_row_says() {
        let file = |path: &str| Home::File(path.to_string());
        let rules = || Home::Specs("rules".to_string());
        assert_eq!(find("f", file("rules/specs/A.antt")), Ok(("../crates/rules/specs/A.antt".to_string(), 1)));
        assert_eq!(find("h", rules()), Ok(("../crates/rules/specs/B.antt".to_string(), 1)));
        assert_eq!(find("Span", file("spans/src/lib.rt")), Ok(("../crates/spans/src/lib.rt".to_string(), 1)));
        assert_eq!(find("h", file("rules/specs/A.antt")), Err("h is not declared in crates/rules/specs/A.antt".to_string()));
        assert_eq!(find("x", rules()), Err("x is not declared in crates/rules/specs/".to_string()));
        assert!(find("k", rules()).is_err_and(|what| what.contains("A.antt and in ")));
    }

    #[test]
    fn what_a_definition_uses_of_its_file_is_found() {
        let all = definitions();
        let f = all.find(&Wanted { name: "f".to_string(), home: Home::Specs("rules".to_string()) }).expect("it is there");
        let names =
            |named: BTreeSet<Key>| all.used(std::slice::from_ref(&f), &named).into_iter().filter_map(|part| part.name).collect::<Vec<_>>();
        let own = key(&f).expect("a name");
        assert_eq!(names(BTreeSet::from([own.clone()])), ["g", "k"]);
        assert_eq!(names(BTreeSet::from([own, ("crates/rules/specs/A.antt".to_string(), "g".to_string())])), [""; 0]);
    }
}
