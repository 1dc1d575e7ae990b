//! Changed originals: each single change of `mutants/` has to be found by a run of the gate, which shows that a wrong lexer would be.
#[cfg(feature = "mutants")]
pub use crate::held::run;

/// Builds this program with the changed originals, and runs it.
#[cfg(not(feature = "mutants"))]
pub fn run(runs: Option<&std::ffi::OsStr>) -> crate::say::Status {
    use crate::say::{message, Status};
    use std::path::Path;
    use std::process::Command;

    let here = Path::new(env!("CARGO_MANIFEST_DIR"));
    let folder = here.join("../target/mutants");
    let mut build = Command::new("cargo");
    build.args(["build", "--profile", "mutants", "--features", "mutants", "--offline", "--quiet", "--target-dir"]).arg(&folder);
    if !build.current_dir(here).status().is_ok_and(|status| status.success()) {
        message!("mutants: nothing was compared: the changed originals were not built; see what cargo says");
        return Status::NotDone;
    }
    let words = runs.map(|runs| [std::ffi::OsStr::new("--runs"), runs]);
    let status = Command::new(folder.join("mutants/compare")).arg("mutants").args(words.into_iter().flatten()).status();
    match status.ok().and_then(|status| status.code()) {
        Some(0) => Status::Passed,
        Some(1) => Status::Failed,
        Some(3) => Status::Closed,
        _ => Status::NotDone,
    }
}
