//! Runs programs as folders say, several at a time, and compares what they tell.

use crate::golden::{Golden, names};
use std::collections::BTreeMap;
use std::fs::{self, File};
use std::io::{self, Write};
use std::num::NonZero;
use std::os::unix::process::ExitStatusExt;
use std::path::{Path, PathBuf};
use std::process::{Child, Command, ExitStatus, Stdio};
use std::sync::Mutex;
use std::thread;
use std::time::{Duration, Instant};

/// Where programs are run, and for how long at most.
#[derive(Clone, Debug)]
pub struct Stage {
    /// The programs, by the names that folders call them.
    pub programs: BTreeMap<String, PathBuf>,
    /// A folder that each run has beside its own files, by its own name.
    pub beside: Option<PathBuf>,
    /// A folder in which each run gets one with its files.
    pub scratch: PathBuf,
    /// How long a run may take.
    pub limit: Duration,
}

/// A folder's name, and what differs from what it says.
pub type Told = (String, Result<(), String>);

/// What a run told; without a status it was stopped.
struct Run {
    status: Option<ExitStatus>,
    stdout: Vec<u8>,
    stderr: Vec<u8>,
}

/// The status of a program that ends within the limit; one that doesn't is stopped.
fn wait(child: &mut Child, limit: Duration) -> io::Result<Option<ExitStatus>> {
    let start = Instant::now();
    while start.elapsed() < limit {
        if let Some(status) = child.try_wait()? {
            return Ok(Some(status));
        }
        thread::sleep(Duration::from_millis(2));
    }
    child.kill()?;
    child.wait().map(|_| None)
}

fn shown(line: Option<&str>) -> String {
    line.map_or("its end".into(), |line| format!("{line:?}"))
}

/// The first line that isn't as it must be.
fn first_difference(is: &[u8], must: &[u8]) -> String {
    let (is, must) = (String::from_utf8_lossy(is), String::from_utf8_lossy(must));
    let alike = is.split_inclusive('\n').zip(must.split_inclusive('\n')).take_while(|(is, must)| is == must).count();
    let (is, must) = (is.split_inclusive('\n').nth(alike), must.split_inclusive('\n').nth(alike));
    format!("standard output, line {}: {}, expected {}", alike + 1, shown(is), shown(must))
}

impl Run {
    fn wrong_status(&self, golden: &Golden, limit: Duration) -> Option<String> {
        match self.status {
            None => Some(format!("stopped after {limit:?}")),
            Some(status) if status.code() == Some(golden.status) => None,
            Some(status) => match status.signal() {
                Some(signal) => Some(format!("ended by signal {signal}")),
                None => Some(format!("status {}, expected {}", status.code().unwrap_or_default(), golden.status)),
            },
        }
    }

    fn wrong_error(&self, golden: &Golden) -> Option<String> {
        let told = String::from_utf8_lossy(&self.stderr);
        match &golden.stderr {
            None if told.is_empty() => None,
            None => Some(format!("standard error must be empty: {told:?}")),
            Some(part) if told.contains(part) => None,
            Some(part) => Some(format!("standard error lacks {part:?}: {told:?}")),
        }
    }

    /// All that differs.
    fn compare(&self, golden: &Golden, limit: Duration) -> Result<(), String> {
        let output = (self.stdout != golden.stdout).then(|| first_difference(&self.stdout, &golden.stdout));
        let wrong: Vec<_> = [self.wrong_status(golden, limit), output, self.wrong_error(golden)].into_iter().flatten().collect();
        if wrong.is_empty() { Ok(()) } else { Err(wrong.join("\n")) }
    }
}

/// The files of a folder, in another: the prover takes no link anywhere in its repository.
fn copy(folder: &Path, to: &Path) -> io::Result<()> {
    fs::create_dir(to)?;
    for entry in fs::read_dir(folder)? {
        let entry = entry?;
        fs::copy(entry.path(), to.join(entry.file_name()))?;
    }
    Ok(())
}

impl Stage {
    /// An empty folder but for the run's files.
    fn set(&self, name: &str, golden: &Golden) -> io::Result<PathBuf> {
        let folder = self.scratch.join(name);
        if folder.exists() {
            fs::remove_dir_all(&folder)?;
        }
        fs::create_dir_all(&folder)?;
        for (name, bytes) in &golden.files {
            fs::write(folder.join(name), bytes)?;
        }
        if let Some((beside, name)) = self.beside.as_ref().and_then(|beside| Some((beside, beside.file_name()?))) {
            copy(beside, &folder.join(name))?;
        }
        Ok(folder)
    }

    /// Its output goes to files, so that neither a full pipe nor one that is left open holds it up.
    fn run(&self, name: &str, program: &Path, golden: &Golden) -> io::Result<Run> {
        let folder = self.set(name, golden)?;
        let [stdout, stderr] = ["stdout", "stderr"].map(|stream| self.scratch.join(format!("{name}.{stream}")));
        let (mut output, error) = (File::create(&stdout)?, File::create(&stderr)?);
        if let Some(into) = &golden.into {
            output = File::create(folder.join(into))?;
        }
        let mut command = Command::new(program);
        command.args(&golden.words).current_dir(&folder).stdin(Stdio::piped()).stdout(output).stderr(error);
        let mut child = command.spawn()?;
        let input = child.stdin.take();
        let status = thread::scope(|scope| {
            // A program need not read its input.
            scope.spawn(|| input.map(|mut input| input.write_all(&golden.stdin)));
            wait(&mut child, self.limit)
        })?;
        Ok(Run { status, stdout: fs::read(stdout)?, stderr: fs::read(stderr)? })
    }

    fn one(&self, runs: &Path, name: &str) -> Result<(), String> {
        let golden = Golden::read(&runs.join(name))?;
        let program = &golden.program;
        let path = self.programs.get(program).ok_or_else(|| format!("'{program}' is no program"))?;
        let run = self.run(name, path, &golden).map_err(|why| format!("{}: {why}", path.display()))?;
        run.compare(&golden, self.limit)
    }

    /// All folders whose names have the word in them, in order.
    pub fn all(&self, runs: &Path, word: &str) -> Result<Vec<Told>, String> {
        let mut folders = names(runs)?;
        if folders.is_empty() {
            return Err(format!("{}: there is no folder", runs.display()));
        }
        folders.retain(|name| name.contains(word));
        let left = Mutex::new(folders.into_iter());
        let work = || {
            let next = || left.lock().ok()?.next();
            std::iter::from_fn(next).map(|name| (name.clone(), self.one(runs, &name))).collect::<Vec<_>>()
        };
        let mut told = thread::scope(|scope| {
            let threads: Vec<_> = (0..threads()).map(|_| scope.spawn(work)).collect();
            threads.into_iter().map(|thread| thread.join().map_err(|_| "a thread panicked")).collect::<Result<Vec<_>, _>>()
        })?
        .concat();
        told.sort();
        Ok(told)
    }
}

fn threads() -> usize {
    thread::available_parallelism().map_or(1, NonZero::get)
}
