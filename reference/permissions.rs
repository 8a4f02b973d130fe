//! Running a program in a folder that it cannot write to. A superuser is not held by permissions: then the program runs
//! as another user, who cannot build, and so without `bin/run`.
use crate::cases::Feed;
use crate::ending::is_root;
use crate::run::{command, run};
use crate::stage::{text, Stage};
use std::fs;
use std::os::unix::fs::PermissionsExt;
use std::os::unix::process::CommandExt;
use std::path::{Path, PathBuf};
use std::process::{Command, Output};

pub const NOBODY: u32 = 65_534;

/// How the program is started so that permissions hold it, and where its folder can stand.
pub struct Held {
    pub as_nobody: bool,
    words: Vec<String>,
    pub parent: PathBuf,
}

pub fn held_by_permissions(stage: &Stage, name: &str) -> Result<Held, String> {
    if !is_root() {
        let words = stage.programs.through_run(name);
        return Ok(Held { as_nobody: false, words, parent: stage.folder.to_path_buf() });
    }
    let (words, parent) = open_to_nobody(stage, name)?;
    Ok(Held { as_nobody: true, words, parent })
}

/// Says so where the other user can neither run this nor go there.
pub fn cannot_reach(path: &Path) -> Option<String> {
    let mut probe = Command::new("/bin/sh");
    probe.args(["-c", "test -x \"$0\""]).arg(path).current_dir("/").uid(NOBODY).gid(NOBODY);
    let reached = probe.status().is_ok_and(|status| status.success());
    (!reached).then(|| format!("another user cannot reach {}", path.display()))
}

/// Where the other user cannot reach our folders, a copy of the program in the system's folder for such things.
fn open_to_nobody(stage: &Stage, name: &str) -> Result<(Vec<String>, PathBuf), String> {
    let program = stage.programs.path(name);
    if cannot_reach(&program).or(cannot_reach(stage.folder)).is_none() {
        return Ok((stage.programs.words(name), stage.folder.to_path_buf()));
    }
    let elsewhere = std::env::temp_dir().join(format!("reference-{}", std::process::id()));
    fs::create_dir_all(&elsewhere).map_err(text)?;
    fs::set_permissions(&elsewhere, fs::Permissions::from_mode(0o755)).map_err(text)?;
    let copy = elsewhere.join(name);
    fs::copy(program, &copy).map_err(text)?;
    Ok((stage.programs.words_of(&copy), elsewhere))
}

impl Held {
    /// Runs it with more words while the folder cannot be written to.
    pub fn run_unwritable(&self, folder: &Path, more: &[&str], input: &[u8]) -> Result<Output, String> {
        fs::set_permissions(folder, fs::Permissions::from_mode(0o555)).map_err(text)?;
        let output = self.run(folder, more, input);
        fs::set_permissions(folder, fs::Permissions::from_mode(0o755)).map_err(text)?;
        output
    }

    pub fn run(&self, folder: &Path, more: &[&str], input: &[u8]) -> Result<Output, String> {
        let mut command = command(&self.words, folder);
        command.args(more);
        if self.as_nobody {
            command.uid(NOBODY).gid(NOBODY);
        }
        run(command, folder, input, Feed::Pipe).map_err(text)
    }

    /// Takes away the folder elsewhere, where there is one.
    pub fn clear(&self, stage: &Stage) -> Result<(), String> {
        if self.parent == stage.folder {
            return Ok(());
        }
        fs::remove_dir_all(&self.parent).map_err(text)
    }
}
