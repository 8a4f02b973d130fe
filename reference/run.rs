//! Starts a program in a folder, feeds it and waits for it, but not for ever.
use crate::cases::Feed;
use std::fs::{self, File};
use std::io::{self, Read, Write};
use std::os::unix::process::CommandExt;
use std::path::{Path, PathBuf};
use std::process::{Child, ChildStdin, Command, Output, Stdio};
use std::sync::atomic::{AtomicUsize, Ordering};
use std::sync::mpsc::{self, Receiver};
use std::thread;
use std::time::{Duration, Instant};

/// A program that has not stopped by then hangs, and its case has failed. The longest here takes seconds.
const LIMIT: Duration = Duration::from_secs(120);
/// After so many hangs nothing more is started: a program that always hangs does not hold the check up for days.
const MOST_HANGS: usize = 3;
static HANGS: AtomicUsize = AtomicUsize::new(0);
/// More than any program here prints: one that prints without end does not fill the memory.
const MOST_PRINTED: u64 = 1 << 26;

/// How the programs are started: directly, or under an emulator whose words stand before them.
#[derive(Clone)]
pub struct Programs {
    pub before: Vec<String>,
    built: PathBuf,
    /// `bin/run`, which builds where needed and gives the exit status.
    pub run: PathBuf,
}

impl Programs {
    pub fn of(root: &Path, before: &[&str]) -> Programs {
        Programs {
            before: before.iter().map(|word| word.to_string()).collect(),
            built: root.join("target/bin"),
            run: root.join("bin/run"),
        }
    }

    /// The words that start a program by its name through `bin/run`.
    pub fn through_run(&self, name: &str) -> Vec<String> {
        vec![self.run.display().to_string(), name.to_string()]
    }

    pub fn path(&self, name: &str) -> PathBuf {
        self.built.join(name)
    }

    /// The words that start a program by its name without `bin/run`.
    pub fn words(&self, name: &str) -> Vec<String> {
        self.words_of(&self.path(name))
    }

    /// The same for one that stands elsewhere.
    pub fn words_of(&self, program: &Path) -> Vec<String> {
        let mut words = self.before.clone();
        words.push(program.display().to_string());
        words
    }
}

pub fn command(words: &[String], folder: &Path) -> Command {
    let mut command = Command::new(&words[0]);
    command.args(&words[1..]).current_dir(folder);
    command
}

/// A line of shell around the words of a program, which it has as "$@".
pub fn shell_words(line: &str, program: Vec<String>) -> Vec<String> {
    let mut words: Vec<String> = ["/bin/sh", "-c", line, "sh"].map(String::from).into();
    words.extend(program);
    words
}

/// Runs it on the input. The program may stop reading before the input is over.
pub fn run(mut command: Command, folder: &Path, input: &[u8], feed: Feed) -> io::Result<Output> {
    command.stdout(Stdio::piped()).stderr(Stdio::piped());
    run_as_set(&mut command, folder, input, feed)
}

/// The same with the command's own standard output and error.
pub fn run_as_set(command: &mut Command, folder: &Path, input: &[u8], feed: Feed) -> io::Result<Output> {
    if let Feed::File = feed {
        let path = folder.join("log");
        fs::write(&path, input)?;
        let output = run_to_end(command.stdin(File::open(&path)?));
        fs::remove_file(&path)?;
        return output;
    }
    let mut child = start(command.stdin(Stdio::piped()))?;
    pour(child.stdin.take().unwrap(), input, feed);
    finish(child)
}

/// All of the input into the pipe, aside, and then the pipe is closed.
fn pour(mut pipe: ChildStdin, input: &[u8], feed: Feed) {
    let input = input.to_vec();
    thread::spawn(move || {
        for piece in pieces(&input, feed) {
            if pipe.write_all(piece).is_err() {
                break;
            }
        }
    });
}

/// A program that has the first part of its input and waits for the rest.
pub struct Waiting {
    child: Child,
    pipe: ChildStdin,
}

impl Waiting {
    /// Starts it, and is back when all of the first part has gone into the pipe.
    pub fn begin(mut command: Command, first: &[u8]) -> io::Result<Waiting> {
        command.stdin(Stdio::piped()).stdout(Stdio::piped()).stderr(Stdio::piped());
        let mut child = start(&mut command)?;
        let mut pipe = child.stdin.take().unwrap();
        let first = first.to_vec();
        let (sender, receiver) = mpsc::channel();
        thread::spawn(move || {
            // nobody listens any more where the time was up
            let _ = sender.send(pipe.write_all(&first).map(|()| pipe));
        });
        match receiver.recv_timeout(LIMIT) {
            Ok(pipe) => Ok(Waiting { child, pipe: pipe? }),
            Err(_) => Err(give_up(&mut child)),
        }
    }

    pub fn id(&self) -> u32 {
        self.child.id()
    }

    /// From now on nobody reads what it prints.
    pub fn stop_reading(&mut self) {
        drop(self.child.stdout.take());
    }

    pub fn go_on(self, rest: &[u8]) -> io::Result<Output> {
        pour(self.pipe, rest, Feed::Pipe);
        finish(self.child)
    }

    /// Waits for its end, for which it must not need the rest.
    pub fn end(self) -> io::Result<Output> {
        let output = finish(self.child);
        drop(self.pipe);
        output
    }
}

/// Runs it on the standard input that it has.
pub fn run_to_end(command: &mut Command) -> io::Result<Output> {
    finish(start(command)?)
}

/// Every program is started here, as the head of a process group of its own.
fn start(command: &mut Command) -> io::Result<Child> {
    if HANGS.load(Ordering::Relaxed) >= MOST_HANGS {
        return Err(io::Error::other("not started, as the programs before it hang"));
    }
    command.process_group(0).spawn()
}

fn finish(mut child: Child) -> io::Result<Output> {
    match output_before(&mut child, Instant::now() + LIMIT)? {
        Some(output) => Ok(output),
        None => Err(give_up(&mut child)),
    }
}

fn give_up(child: &mut Child) -> io::Error {
    HANGS.fetch_add(1, Ordering::Relaxed);
    match stop(child) {
        Ok(()) => io::Error::other(format!("it hangs: stopped after {} s", LIMIT.as_secs())),
        Err(error) => error,
    }
}

/// What the child printed and how it ended; nothing where it is still at it when the time is up.
fn output_before(child: &mut Child, deadline: Instant) -> io::Result<Option<Output>> {
    let (stdout, stderr) = (gather(child.stdout.take()), gather(child.stderr.take()));
    let left = || deadline.saturating_duration_since(Instant::now());
    let (Ok(stdout), Ok(stderr)) = (stdout.recv_timeout(left()), stderr.recv_timeout(left())) else {
        return Ok(None);
    };
    let (stdout, stderr) = (stdout?, stderr?);
    // it has closed both, so it has ended or is about to
    while !left().is_zero() {
        if let Some(status) = child.try_wait()? {
            return Ok(Some(Output { status, stdout, stderr }));
        }
        thread::sleep(Duration::from_micros(50));
    }
    Ok(None)
}

/// All that comes out of the pipe, read aside; no bytes where there is no pipe.
fn gather(pipe: Option<impl Read + Send + 'static>) -> Receiver<io::Result<Vec<u8>>> {
    let (sender, receiver) = mpsc::channel();
    thread::spawn(move || {
        let mut bytes = Vec::new();
        let result = pipe.map_or(Ok(0), |pipe| pipe.take(MOST_PRINTED).read_to_end(&mut bytes));
        // nobody listens any more where the time was up
        let _ = sender.send(result.map(|_| bytes));
    });
    receiver
}

/// Ends the child and what it started itself, which is in its group.
fn stop(child: &mut Child) -> io::Result<()> {
    send("KILL", &format!("-{}", child.id()))?;
    child.wait().map(drop)
}

/// Sends a signal to a process, or to a group, whose number has a minus before it.
pub fn send(signal: &str, to: &str) -> io::Result<()> {
    Command::new("/bin/sh").args(["-c", "kill -s \"$0\" -- \"$1\"", signal, to]).status().map(drop)
}

fn pieces(input: &[u8], feed: Feed) -> Box<dyn Iterator<Item = &[u8]> + '_> {
    match feed {
        Feed::Drops(size) => Box::new(input.chunks(size)),
        Feed::Uneven => Box::new(uneven(input)),
        _ => Box::new(std::iter::once(input)),
    }
}

fn uneven(input: &[u8]) -> impl Iterator<Item = &[u8]> {
    let mut sizes = [1, 15, 17, 4_096, 19, 21, 65_537, 3, 100_000, 12_345].into_iter().cycle();
    let mut rest = input;
    std::iter::from_fn(move || {
        let (piece, after) = rest.split_at(sizes.next()?.min(rest.len()));
        rest = after;
        (!piece.is_empty()).then_some(piece)
    })
}
