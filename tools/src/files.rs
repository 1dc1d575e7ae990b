//! The files of an archive.
use aura_lexer::{Refusal, RefusalKind, LIMIT};
use std::fs::{self, File, FileType};
use std::io::{self, Read};
use std::os::unix::fs::FileTypeExt;
use std::path::{Path, PathBuf};

/// What stands at and below the places that were named.
#[derive(Debug, Default)]
pub struct Found {
    /// Regular files, and links to regular files.
    pub files: Vec<PathBuf>,
    /// What is no regular file, with what it is instead. It is not opened.
    pub passed_over: Vec<(PathBuf, &'static str)>,
    /// Files and folders that could not be looked at.
    pub unreadable: Vec<(PathBuf, io::Error)>,
}

/// Looks for files at the places and below those that are folders, in the order of their names. Of the files below a folder only those
/// are taken whose name passes the test. A link to a folder is followed only where it was named itself.
pub fn find(places: &[impl AsRef<Path>], only: &dyn Fn(&str) -> bool) -> Found {
    let mut found = Found::default();
    for place in places {
        found.named(place.as_ref(), only);
    }
    found
}

impl Found {
    fn named(&mut self, place: &Path, only: &dyn Fn(&str) -> bool) {
        match fs::metadata(place) {
            Ok(data) if data.is_dir() => self.below(place, only),
            Ok(data) => self.put(place.to_path_buf(), data.file_type()),
            Err(error) => self.unreadable.push((place.to_path_buf(), error)),
        }
    }

    fn below(&mut self, folder: &Path, only: &dyn Fn(&str) -> bool) {
        let entries = fs::read_dir(folder).and_then(|entries| entries.collect::<io::Result<Vec<_>>>());
        let mut entries = match entries {
            Ok(entries) => entries,
            Err(error) => return self.unreadable.push((folder.to_path_buf(), error)),
        };
        entries.sort_by_key(fs::DirEntry::file_name);
        for entry in entries {
            let path = entry.path();
            match entry.file_type() {
                Ok(kind) if kind.is_dir() => self.below(&path, only),
                Ok(_) if !only(&entry.file_name().to_string_lossy()) => {}
                Ok(kind) if kind.is_symlink() => self.link(path),
                Ok(kind) => self.put(path, kind),
                Err(error) => self.unreadable.push((path, error)),
            }
        }
    }

    fn link(&mut self, path: PathBuf) {
        match fs::metadata(&path) {
            Ok(data) if data.is_dir() => self.passed_over.push((path, "a link to a folder")),
            Ok(data) => self.put(path, data.file_type()),
            Err(_) => self.passed_over.push((path, "a broken link")),
        }
    }

    fn put(&mut self, path: PathBuf, kind: FileType) {
        match kind {
            kind if kind.is_file() => self.files.push(path),
            kind => self.passed_over.push((path, what(kind))),
        }
    }
}

/// What something is that is neither a file nor a folder.
fn what(kind: FileType) -> &'static str {
    match kind {
        kind if kind.is_fifo() => "a FIFO",
        kind if kind.is_socket() => "a socket",
        kind if kind.is_block_device() || kind.is_char_device() => "a device",
        _ => "not a regular file",
    }
}

/// A script as far as it is read: up to one byte over the limit and no further.
#[derive(Debug)]
pub struct Script {
    /// The bytes read.
    pub bytes: Vec<u8>,
    /// The length of the whole, where it is known: for a regular file, and for anything that was read to its end.
    pub length: Option<u64>,
}

impl Script {
    /// Reads a file.
    pub fn open(path: &Path) -> io::Result<Self> {
        let file = File::open(path)?;
        let data = file.metadata()?;
        Self::read(file, data.is_file().then_some(data.len()))
    }

    /// Reads from anything; `length` is its length where that is known.
    pub fn read(from: impl Read, length: Option<u64>) -> io::Result<Self> {
        let most = LIMIT as u64 + 1;
        let mut bytes = Vec::with_capacity(length.unwrap_or_default().min(most) as usize);
        from.take(most).read_to_end(&mut bytes)?;
        let read = bytes.len() as u64;
        Ok(Script { bytes, length: if read < most { Some(read) } else { length } })
    }

    /// A refusal in words. The figure of a script that is too long is its whole length, which may be more than was read.
    pub fn refusal(&self, refusal: Refusal) -> String {
        let Refusal { kind, .. } = refusal;
        match (kind, self.length) {
            (RefusalKind::Length, Some(length)) => Refusal { kind, figure: length }.to_string(),
            (RefusalKind::Length, None) => format!("refusal {}: {}; {}", kind.number(), kind.meaning(), kind.advice()),
            _ => refusal.to_string(),
        }
    }
}

/// Whether a name fits a pattern, in which `*` stands for any characters and `?` for one. Where the characters behind a `*` do not fit, it
/// takes one character more; only the last `*` ever has to.
pub fn fits(pattern: &str, name: &str) -> bool {
    let [pattern, name]: [Vec<char>; 2] = [pattern, name].map(|text| text.chars().collect());
    let (mut at, mut seen, mut star) = (0, 0, None);
    while seen < name.len() {
        match (pattern.get(at), star) {
            (Some('*'), _) => {
                star = Some((at + 1, seen));
                at += 1;
            }
            (Some(&c), _) if c == '?' || c == name[seen] => (at, seen) = (at + 1, seen + 1),
            (_, Some((behind, taken))) => {
                star = Some((behind, taken + 1));
                (at, seen) = (behind, taken + 1);
            }
            (_, None) => return false,
        }
    }
    pattern[at..].iter().all(|&c| c == '*')
}

#[cfg(test)]
mod tests {
    use super::*;
    use std::os::unix::fs::symlink;

    #[test]
    fn patterns() {
        for (pattern, name) in
            [("*.aura", "a.aura"), ("*.aura", ".aura"), ("?.a*", "é.aura"), ("*", ""), ("a*b*c", "a1b2b3c"), ("", ""), ("**", "a")]
        {
            assert!(fits(pattern, name), "{pattern} {name}");
        }
        for (pattern, name) in [("*.aura", "a.aur"), ("?", ""), ("a*b", "ac"), ("", "a"), ("*.aura", "a.aura~"), ("*?", "")] {
            assert!(!fits(pattern, name), "{pattern} {name}");
        }
        assert!(!fits(&"*a".repeat(60), &("a".repeat(200) + "b")), "it takes no longer than the two lengths multiplied");
    }

    #[test]
    fn only_what_is_a_file_is_taken() {
        let folder = std::env::temp_dir().join(format!("aura_tools_files_{}", std::process::id()));
        let _ = fs::remove_dir_all(&folder);
        fs::create_dir_all(folder.join("b")).expect("a folder");
        for name in ["a.aura", "b/c.aura", "b/d.txt"] {
            fs::write(folder.join(name), "x").expect("a file");
        }
        symlink(folder.join("a.aura"), folder.join("b/e.aura")).expect("a link to a file");
        symlink(&folder, folder.join("b/f.aura")).expect("a link to a folder");
        symlink("nowhere", folder.join("b/g.aura")).expect("a broken link");
        let found = find(&[&folder, &folder.join("missing"), &folder.join("b/d.txt")], &|name| fits("*.aura", name));
        let names =
            |paths: Vec<&PathBuf>| paths.iter().map(|p| p.strip_prefix(&folder).expect("below").display().to_string()).collect::<Vec<_>>();
        assert_eq!(names(found.files.iter().collect()), ["a.aura", "b/c.aura", "b/e.aura", "b/d.txt"]);
        assert_eq!(names(found.passed_over.iter().map(|(p, _)| p).collect()), ["b/f.aura", "b/g.aura"]);
        assert_eq!(found.passed_over.iter().map(|(_, what)| *what).collect::<Vec<_>>(), ["a link to a folder", "a broken link"]);
        assert_eq!(names(found.unreadable.iter().map(|(p, _)| p).collect()), ["missing"]);
        assert_eq!(find(&["/dev/null"], &|_| true).passed_over, [(PathBuf::from("/dev/null"), "a device")]);
        let again = find(&[folder.join("b/f.aura")], &|name| name == "a.aura");
        assert_eq!(again.files.len(), 1, "a link to a folder that was named is followed");
        fs::remove_dir_all(&folder).expect("the folder goes");
    }

    #[test]
    fn no_more_than_one_byte_over_the_limit_is_read() {
        let endless = Script::read(io::repeat(b' '), None).expect("read");
        assert_eq!((endless.bytes.len(), endless.length), (LIMIT + 1, None));
        let refused = aura_lexer::measure(&endless.bytes).expect_err("too long");
        assert!(endless.refusal(refused).starts_with("refusal 1: the script is over "), "{}", endless.refusal(refused));
        let long = Script { length: Some(5_000_000), ..endless };
        assert!(long.refusal(refused).starts_with("refusal 1, figure 5000000: "), "{}", long.refusal(refused));
        assert_eq!(Script::read(&b"abc"[..], None).expect("read").length, Some(3));
    }
}
