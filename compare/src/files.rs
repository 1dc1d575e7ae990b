//! Files and folders that were named.
use crate::say::message;
use aura_tools::files::{self, Found, Script};
use aura_tools::visible;
use std::path::Path;

/// What stands at the places and below those that are folders, whatever its name.
pub fn find(places: &[&Path]) -> Found {
    files::find(places, &|_| true)
}

/// All scripts at and below the places, for a run that needs each of them. What is no regular file is passed over with a message. An
/// error says what cannot be read, or that there is nothing.
pub fn scripts(places: &[&Path]) -> Result<Vec<Script>, String> {
    let found = find(places);
    for (path, what) in &found.passed_over {
        message!("passed over {}: {what}", visible::name(path));
    }
    if let Some((path, error)) = found.unreadable.first() {
        return Err(format!("cannot read {}: {error}", visible::name(path)));
    }
    if found.files.is_empty() {
        return Err("no file was found; name files or folders that hold scripts".to_string());
    }
    found.files.iter().map(|file| Script::open(file).map_err(|error| format!("cannot read {}: {error}", visible::name(file)))).collect()
}

#[cfg(test)]
mod tests {
    use super::*;
    use std::fs;

    #[test]
    fn nothing_to_read_is_an_error() {
        let data = Path::new(concat!(env!("CARGO_MANIFEST_DIR"), "/data"));
        assert_eq!(scripts(&[data]).expect("it is there").len(), fs::read_dir(data).expect("a folder").count());
        let missing = scripts(&[data, Path::new("no such\x1Bfile")]).expect_err("it is missing");
        assert!(missing.starts_with("cannot read no such␛file: "), "{missing}");
        let empty = std::env::temp_dir().join(format!("compare_files_{}", std::process::id()));
        fs::create_dir_all(&empty).expect("a folder");
        assert!(scripts(&[&empty]).is_err_and(|why| why.starts_with("no file was found; ")));
        fs::remove_dir(&empty).expect("the folder goes");
    }
}
