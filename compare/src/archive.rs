//! Both lexers over the files of an archive.
use crate::files;
use crate::runs::{self, Compare, Compared};
use crate::say::{message, say, Status};
use aura_tools::files::{Found, Script};
use aura_tools::progress::Progress;
use aura_tools::visible;
use std::io::{self, IsTerminal};
use std::path::Path;
use std::time::Instant;

/// What was found, for the summary.
#[derive(Clone, Default)]
struct Archive {
    equal: u64,
    different: u64,
    refused: u64,
    unreadable: u64,
    passed_over: u64,
    open: u64,
    /// The bytes of the equal files, and of those that both lexers read through, the different ones included.
    equal_bytes: usize,
    bytes: usize,
    tokens: usize,
    errors: usize,
}

/// The line of a file that was read.
fn line(name: &str, script: &Script, answer: &Result<Compared, String>) -> String {
    match answer {
        Ok(Compared::Accepted { closed: true, .. }) => format!("equal {name}"),
        Ok(Compared::Accepted { closed: false, .. }) => format!("equal {name} (open at its end)"),
        Ok(Compared::Refused(refusal)) => format!("refused {name}: {}", script.refusal(*refusal)),
        Err(difference) => format!("different {name}: {difference}"),
    }
}

impl Archive {
    fn add(&mut self, size: usize, answer: &Result<Compared, String>) {
        match *answer {
            Ok(Compared::Accepted { closed, tokens, errors }) => {
                self.equal += 1;
                self.open += u64::from(!closed);
                self.equal_bytes += size;
                self.bytes += size;
                self.tokens += tokens;
                self.errors += errors;
            }
            Ok(Compared::Refused(_)) => self.refused += 1,
            Err(_) => {
                self.different += 1;
                self.bytes += size;
            }
        }
    }

    fn compared(&self) -> u64 {
        self.equal + self.different + self.refused
    }

    fn summary(&self, seconds: f64) -> [String; 2] {
        let Archive { equal, different, refused, unreadable, passed_over, open, equal_bytes, bytes, tokens, errors } = self;
        let files = self.compared() + unreadable;
        let speed = *bytes as f64 / seconds.max(1e-9) / 1e6;
        [
            format!(
                "{files} files: {equal} equal, {different} different, {refused} refused, {unreadable} unreadable; {passed_over} passed over"
            ),
            format!(
                "in the equal ones: {equal_bytes} bytes, {tokens} tokens, {errors} errors; {open} are open at their end; \
                 compared {bytes} bytes in {seconds:.1} seconds, {speed:.1} MB a second"
            ),
        ]
    }

    /// What was not compared, and what to do about it.
    fn warnings(&self) -> Vec<String> {
        let mut warnings = Vec::new();
        if self.unreadable > 0 {
            let count = self.unreadable;
            warnings.push(format!("not all was compared: {count} unreadable; name files and folders that are there and may be read"));
        }
        if self.compared() == 0 {
            warnings.push("nothing was compared: no file was read; name files or folders that hold scripts".to_string());
        }
        warnings
    }

    fn status(&self) -> Status {
        match (self.different, self.warnings().is_empty()) {
            (0, true) => Status::Passed,
            (0, false) => Status::NotDone,
            _ => Status::Failed,
        }
    }

    /// Tells what is not opened.
    fn tell_others(&mut self, found: &Found) {
        for (path, what) in &found.passed_over {
            say!("passed over {}: {what}", visible::name(path));
            self.passed_over += 1;
        }
        for (path, error) in &found.unreadable {
            self.tell_unreadable(path, error);
        }
    }

    fn tell_unreadable(&mut self, path: &Path, error: &io::Error) {
        say!("unreadable {}: {error}", visible::name(path));
        self.unreadable += 1;
    }

    /// Tells the answer for a file, and for the first file that differs a small script that does.
    fn tell(&mut self, path: &Path, script: &Script, answer: &Result<Compared, String>, compare: Compare) {
        say!("{}", line(&visible::name(path), script, answer));
        if answer.is_err() && self.different == 0 {
            say!("  what is left of it, as little as was found to differ: {}", runs::smallest(&script.bytes, compare));
        }
        self.add(script.bytes.len(), answer);
    }
}

pub fn run(deep: bool, places: &[&Path]) -> Status {
    let compare: Compare = if deep { runs::compare } else { runs::compare_once };
    let found = files::find(places);
    let mut archive = Archive::default();
    archive.tell_others(&found);
    let start = Instant::now();
    let mut progress = Progress::start();
    let on_a_terminal = io::stdout().is_terminal();
    for (done, file) in found.files.iter().enumerate() {
        progress.tick(|| format!("{done} of {} files compared", found.files.len()));
        let compared = Script::open(file).map(|script| (compare(&script.bytes), script));
        if on_a_terminal {
            progress.clear();
        }
        match compared {
            Ok((answer, script)) => archive.tell(file, &script, &answer, compare),
            Err(error) => archive.tell_unreadable(file, &error),
        }
    }
    progress.clear();
    archive.summary(start.elapsed().as_secs_f64()).iter().for_each(|line| say!("{line}"));
    archive.warnings().iter().for_each(|warning| message!("{warning}"));
    archive.status()
}

#[cfg(test)]
mod tests {
    use super::*;
    use aura_lexer::Refusal;

    const ACCEPTED: Compared = Compared::Accepted { closed: true, tokens: 3, errors: 1 };
    const OPEN: Compared = Compared::Accepted { closed: false, tokens: 2, errors: 0 };

    fn script(length: u64) -> Script {
        Script { bytes: b"abc".to_vec(), length: Some(length) }
    }

    #[test]
    fn a_line_for_each_outcome() {
        let lines = |answer| line("f", &script(3), &answer);
        assert_eq!(lines(Ok(ACCEPTED)), "equal f");
        assert_eq!(lines(Ok(OPEN)), "equal f (open at its end)");
        assert_eq!(lines(Err("token 1: ..".to_string())), "different f: token 1: ..");
        assert!(lines(Ok(Compared::Refused(Refusal::from_answer(2, 1)))).starts_with("refused f: refusal 2, figure 1: "));
    }

    #[test]
    fn a_long_file_is_told_with_its_whole_length() {
        let refused = Ok(Compared::Refused(Refusal::from_answer(1, 1_048_577)));
        assert!(line("f", &script(5_000_000), &refused).starts_with("refused f: refusal 1, figure 5000000: "));
    }

    #[test]
    fn the_summary_counts_each_outcome() {
        let mut archive = Archive { unreadable: 2, passed_over: 3, ..Archive::default() };
        for answer in [Ok(ACCEPTED), Ok(OPEN), Ok(Compared::Refused(Refusal::from_answer(2, 0))), Err(String::new())] {
            archive.add(1_000_000, &answer);
        }
        let [files, bytes] = archive.summary(0.5);
        assert_eq!(files, "6 files: 2 equal, 1 different, 1 refused, 2 unreadable; 3 passed over");
        assert_eq!(
            bytes,
            "in the equal ones: 2000000 bytes, 5 tokens, 1 errors; 1 are open at their end; \
             compared 3000000 bytes in 0.5 seconds, 6.0 MB a second"
        );
    }

    #[test]
    fn the_status_is_the_worst_outcome() {
        let equal = Archive { equal: 1, ..Archive::default() };
        assert_eq!(Archive { passed_over: 1, ..equal.clone() }.status(), Status::Passed);
        assert_eq!(Archive { refused: 1, ..Archive::default() }.status(), Status::Passed);
        assert_eq!(Archive { unreadable: 1, ..equal.clone() }.status(), Status::NotDone);
        assert_eq!(Archive { unreadable: 1, different: 1, ..equal }.status(), Status::Failed);
        assert_eq!(Archive { passed_over: 1, ..Archive::default() }.status(), Status::NotDone);
    }
}
