//! Golden runs: a folder says how a program is run, and what it must tell.

use crate::assembler;
use std::collections::BTreeMap;
use std::fs;
use std::path::Path;

/// What a folder says.
#[derive(Clone, Debug, PartialEq, Eq)]
pub struct Golden {
    /// The first word of the command line, and the others.
    pub program: String,
    pub words: Vec<String>,
    /// The file to which standard output goes, if it is not compared.
    pub into: Option<String>,
    pub stdin: Vec<u8>,
    pub stdout: Vec<u8>,
    /// A part of standard error; none where it must be empty.
    pub stderr: Option<String>,
    pub status: i32,
    /// The files that lie where the program runs.
    pub files: Files,
}

/// Files by their names.
pub type Files = BTreeMap<String, Vec<u8>>;

fn text(bytes: Vec<u8>, name: &str) -> Result<String, String> {
    String::from_utf8(bytes).map_err(|_| format!("{name} is no text"))
}

/// A file as the run sees it: `NAME.calls` and `NAME.lines` are the text of `NAME`.
fn as_seen(name: &str, bytes: Vec<u8>) -> Result<(&str, Vec<u8>), String> {
    let made = |made: Result<Vec<u8>, String>| made.map_err(|why| format!("{name}, {why}"));
    Ok(match (name.strip_suffix(".calls"), name.strip_suffix(".lines")) {
        (Some(seen), _) => (seen, made(assembler::calls(&text(bytes, name)?))?),
        (_, Some(seen)) => (seen, made(assembler::lines(&text(bytes, name)?))?),
        _ => (name, bytes),
    })
}

fn files(folder: &Path) -> Result<Files, String> {
    let mut files = Files::new();
    for name in names(folder)? {
        let bytes = fs::read(folder.join(&name)).map_err(|why| format!("{name}: {why}"))?;
        let (seen, bytes) = as_seen(&name, bytes)?;
        if files.insert(seen.to_owned(), bytes).is_some() {
            return Err(format!("{seen} is there twice"));
        }
    }
    Ok(files)
}

/// What lies in a folder, in order.
pub fn names(folder: &Path) -> Result<Vec<String>, String> {
    let entries = fs::read_dir(folder).and_then(Iterator::collect::<Result<Vec<_>, _>>);
    let entries = entries.map_err(|why| format!("{}: {why}", folder.display()))?;
    let mut names: Vec<_> = entries.into_iter().map(|entry| entry.file_name().to_string_lossy().into_owned()).collect();
    names.sort();
    Ok(names)
}

/// A part of standard error, without the end of its last line. Any text has a part without letters.
fn part(bytes: Vec<u8>) -> Result<String, String> {
    let part = text(bytes, "stderr")?;
    let part = part.strip_suffix('\n').unwrap_or(&part);
    if part.trim().is_empty() { Err("stderr says nothing".into()) } else { Ok(part.into()) }
}

fn status(bytes: Vec<u8>) -> Result<i32, String> {
    let status = text(bytes, "status")?;
    status.trim().parse().map_err(|_| format!("'{}' is no status", status.trim()))
}

impl Golden {
    /// What the folder says; each file in it must be one of those that are looked at, or be named by the command line.
    pub fn read(folder: &Path) -> Result<Self, String> {
        let mut files = files(folder)?;
        let command = text(files.remove("cmd").ok_or("there is no cmd")?, "cmd")?;
        let mut words: Vec<_> = command.split_whitespace().map(str::to_owned).collect();
        let into = words.pop_if(|word| word.starts_with('>')).map(|word| word[1..].to_owned());
        if words.is_empty() {
            return Err("cmd names no program".into());
        }
        let mut file = |name| files.remove(name);
        let golden = Self {
            program: words.remove(0),
            words,
            into,
            stdin: file("stdin").unwrap_or_default(),
            stdout: file("stdout").unwrap_or_default(),
            stderr: file("stderr").map(part).transpose()?,
            status: file("status").map(status).transpose()?.unwrap_or_default(),
            files,
        };
        match golden.files.keys().find(|&name| !golden.words.contains(name)) {
            Some(name) => Err(format!("{name} is not looked at")),
            None => Ok(golden),
        }
    }
}
