//! Single calls of the system made to fail, by strace. Under an emulator it is the emulator's calls that are traced,
//! which it makes for the clerk.
use crate::cases::Feed;
use crate::ending::{lacks, unless, Endings};
use crate::run::{command, run_as_set};
use crate::stage::{empty_folder, prints, says, text, Example, Stage};
use std::fs::{self, File};
use std::path::{Path, PathBuf};
use std::process::{Output, Stdio};

type Test = fn(&Aim) -> Result<(), String>;

pub fn system_faults(stage: &Stage) -> Endings {
    let tests: [(&str, Test); 8] = [
        ("reading the book is cut off by signals", |aim| {
            goes_on(aim, Some(&format!("desk/{}", aim.stage.desk.file)), "read")
        }),
        ("reading the log is cut off by signals", |aim| goes_on(aim, Some("aside/log"), "read")),
        ("printing is cut off by signals", |aim| goes_on(aim, Some("aside/printed"), "write")),
        ("flushing is cut off by signals", |aim| goes_on(aim, None, "fsync")),
        ("writing the new book is cut off by signals", |aim| goes_on(aim, None, "write")),
        ("the new book cannot be flushed", cannot_flush),
        ("the new book cannot be renamed", cannot_rename),
        ("the folder cannot be flushed", cannot_flush_folder),
    ];
    let lacking = lacks(&["strace", "-o", "/dev/null", "true"]);
    let try_one = |(name, test): (&str, Test)| {
        let ending = unless(lacking.clone(), || Aim::of(stage).and_then(|aim| test(&aim)));
        (name.to_string(), ending)
    };
    tests.map(try_one).into()
}

/// A clerk's folder, `desk`, beside one for its log, its printed text and the trace, `aside`.
struct Aim<'a> {
    stage: &'a Stage<'a>,
    folder: PathBuf,
    desk: PathBuf,
    example: Example,
}

impl Aim<'_> {
    fn of<'a>(stage: &'a Stage<'a>) -> Result<Aim<'a>, String> {
        let folder = empty_folder(stage.folder, "faults")?;
        let example = stage.example();
        let desk = example.folder(&folder, "desk")?;
        empty_folder(&folder, "aside")?;
        Ok(Aim { stage, folder, desk, example })
    }

    /// Runs the clerk with a fault put into the calls, on the file alone where one is given. Standard output is a file.
    fn run(&self, file: Option<&str>, fault: &str) -> Result<Output, String> {
        let [trace, printed] = ["trace", "printed"].map(|name| self.folder.join("aside").join(name));
        let mut words: Vec<String> = ["strace", "-f", "-qq", "-o"].map(String::from).into();
        words.push(trace.display().to_string());
        if let Some(file) = file {
            words.extend(["-P".to_string(), self.folder.join(file).display().to_string()]);
        }
        words.extend(["-e".to_string(), format!("inject={fault}")]);
        words.extend(self.stage.programs.words(self.stage.desk.name));
        let mut command = command(&words, &self.desk);
        command.stdout(File::create(&printed).map_err(text)?).stderr(Stdio::piped());
        let aside = self.folder.join("aside");
        let output = run_as_set(&mut command, &aside, &self.example.log, Feed::File).map_err(text)?;
        was_hit(&trace)?;
        Ok(Output { stdout: fs::read(printed).map_err(text)?, ..output })
    }
}

/// A fault that hits nothing shows nothing.
fn was_hit(trace: &Path) -> Result<(), String> {
    if fs::read_to_string(trace).map_err(text)?.contains("(INJECTED)") {
        return Ok(());
    }
    Err("no call was hit".to_string())
}

fn goes_on(aim: &Aim, file: Option<&str>, call: &str) -> Result<(), String> {
    let output = aim.run(file, &format!("{call}:error=EINTR:when=1..3"))?;
    aim.example.is_done(&output, &aim.desk)
}

/// The first that is flushed is the new book.
fn cannot_flush(aim: &Aim) -> Result<(), String> {
    let output = aim.run(None, "fsync:error=ENOSPC:when=1")?;
    prints(&output, "")?;
    says(&output, &[&aim.stage.desk.says_of_book("is left as it was, ")])?;
    aim.example.is_kept(&aim.desk)
}

/// Processors have one or more of these calls, which are then named with a question mark.
fn cannot_rename(aim: &Aim) -> Result<(), String> {
    let output = aim.run(None, "?rename,?renameat,?renameat2:error=EIO")?;
    prints(&output, &aim.example.text)?;
    let desk = aim.stage.desk;
    let why = desk.says(&format!("the new book cannot be renamed to {}: ", desk.file));
    says(&output, &[&why, &format!("\n{}\n", desk.says_of_book("is left as it was"))])?;
    aim.example.is_kept(&aim.desk)
}

/// The second is the folder: then the day is in the book, and so it is said.
fn cannot_flush_folder(aim: &Aim) -> Result<(), String> {
    let output = aim.run(None, "fsync:error=EIO:when=2")?;
    prints(&output, &aim.example.text)?;
    says(&output, &[&aim.stage.desk.says_of_book("is the new book, its folder cannot be flushed to disk")])?;
    aim.example.is_entered(&aim.desk)
}
