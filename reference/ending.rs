//! How a case ends: passed, failed, or left out where this machine cannot try it.
use std::fs;
use std::os::unix::fs::MetadataExt;
use std::process::Command;

pub enum Ending {
    /// With what there is to tell, or nothing.
    Passed(String),
    Failed(String),
    LeftOut(String),
}

impl Ending {
    pub const PASSED: Ending = Ending::Passed(String::new());
}

/// The cases of a group by name.
pub type Endings = Vec<(String, Ending)>;

impl From<Result<(), String>> for Ending {
    fn from(result: Result<(), String>) -> Ending {
        result.map(|()| Ending::PASSED).into()
    }
}

impl From<Result<Ending, String>> for Ending {
    fn from(result: Result<Ending, String>) -> Ending {
        result.unwrap_or_else(Ending::Failed)
    }
}

/// Tries the case, unless something is lacking for it.
pub fn unless<R: Into<Ending>>(lacking: Option<String>, case: impl FnOnce() -> R) -> Ending {
    match lacking {
        Some(why) => Ending::LeftOut(why),
        None => case().into(),
    }
}

pub fn is_root() -> bool {
    fs::metadata("/proc/self").is_ok_and(|process| process.uid() == 0)
}

/// Says so where these words do nothing here: the tool is not there, or what it does is forbidden.
pub fn lacks(words: &[&str]) -> Option<String> {
    let works = Command::new(words[0]).args(&words[1..]).output().is_ok_and(|output| output.status.success());
    (!works).then(|| format!("`{}` does not work here", words.join(" ")))
}
