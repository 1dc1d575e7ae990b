//! Where the page may be written, and how its links lead from there.
use aura_tools::visible;
use std::path::{Component, Path, PathBuf};

/// The way from a folder to a file, both absolute.
pub fn relative(from: &Path, to: &Path) -> PathBuf {
    let shared = from.components().zip(to.components()).take_while(|(a, b)| a == b).count();
    let up = from.components().skip(shared).map(|_| Component::ParentDir);
    up.chain(to.components().skip(shared)).collect()
}

/// The file's place, absolute, with links followed. An error says why it may not be written there: the original's text is not kept in
/// the repository at `root`.
pub fn allowed(file: &Path, root: &Path) -> Result<PathBuf, String> {
    let shown = visible::name(file);
    let name = file.file_name().ok_or_else(|| format!("{shown} is no file's name"))?;
    let folder = match file.parent() {
        Some(folder) if !folder.as_os_str().is_empty() => folder,
        _ => Path::new("."),
    };
    let folder = folder.canonicalize().map_err(|error| format!("the folder of {shown}: {error}"))?;
    let place = match folder.join(name) {
        link if link.is_symlink() => link.canonicalize().map_err(|error| format!("the link {shown}: {error}"))?,
        place => place,
    };
    if place.starts_with(root) && !place.starts_with(root.join("target")) {
        return Err(format!("{shown} lies in the repository, where the original's text is not kept; name a file in target/ or elsewhere"));
    }
    Ok(place)
}

#[cfg(test)]
mod tests {
    use super::*;
    use std::fs;
    use std::os::unix::fs::symlink;

    #[test]
    fn a_link_leads_up_and_down() {
        let way = |from: &str, to: &str| relative(Path::new(from), Path::new(to)).display().to_string();
        assert_eq!(way("/a/b/target", "/a/b/crates/x.antt"), "../crates/x.antt");
        assert_eq!(way("/tmp", "/a/b"), "../a/b");
        assert_eq!(way("/a", "/a/b"), "b");
    }

    #[test]
    fn nothing_is_written_into_the_repository() {
        let root = std::env::temp_dir().join(format!("compare_page_{}", std::process::id()));
        let _ = fs::remove_dir_all(&root);
        fs::create_dir_all(root.join("target")).expect("a folder");
        fs::create_dir_all(root.join("docs")).expect("a folder");
        fs::write(root.join("docs/a.html"), "").expect("a file");
        symlink(root.join("docs/a.html"), root.join("target/link.html")).expect("a link");
        symlink(root.join("docs/none.html"), root.join("target/broken.html")).expect("a link");
        let root = root.canonicalize().expect("it is there");
        assert_eq!(allowed(&root.join("target/a.html"), &root), Ok(root.join("target/a.html")));
        assert_eq!(allowed(&root.join("docs/../target/a.html"), &root), Ok(root.join("target/a.html")));
        let outside = root.parent().expect("a folder").join("a.html");
        assert_eq!(allowed(&root.join("../a.html"), &root), Ok(outside));
        for wrong in ["a.html", "docs/a.html", "target/../a.html", "target/link.html", "target/broken.html", "none/a.html", "target/.."] {
            assert!(allowed(&root.join(wrong), &root).is_err(), "{wrong}");
        }
        fs::remove_dir_all(&root).expect("the folder goes");
    }
}
