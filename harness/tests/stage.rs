//! That golden runs can fail: each flaw of a program, and of a folder, is told.

use harness::stage::{Stage, Told};
use std::fs;
use std::path::{Path, PathBuf};
use std::time::{Duration, Instant};

type Files<'a> = &'a [(&'a str, &'a str)];

/// Empty but for these folders.
fn runs(name: &str, folders: &[(&str, Files)]) -> PathBuf {
    let runs = Path::new(env!("CARGO_TARGET_TMPDIR")).join("stage").join(name);
    drop(fs::remove_dir_all(&runs));
    fs::create_dir_all(&runs).expect("a folder");
    for (name, files) in folders {
        fs::create_dir(runs.join(name)).expect("a folder");
        files.iter().for_each(|(file, text)| fs::write(runs.join(name).join(file), text).expect("a file"));
    }
    runs
}

fn scratch(name: &str) -> PathBuf {
    Path::new(env!("CARGO_TARGET_TMPDIR")).join("stage").join(format!("{name}-scratch"))
}

fn all(name: &str, limit: Duration, folders: &[(&str, Files)]) -> Result<Vec<Told>, String> {
    let stage = Stage { programs: [("sh".into(), "/bin/sh".into())].into(), beside: None, scratch: scratch(name), limit };
    stage.all(&runs(name, folders), "")
}

const LONG: Duration = Duration::from_secs(60);

/// Each folder with what is told of it, in order; nothing where nothing differs.
fn tells(name: &str, folders: &[(&str, Files, &str)]) {
    let all = all(name, LONG, &folders.iter().map(|&(name, files, _)| (name, files)).collect::<Vec<_>>());
    let told: Vec<_> = all.expect("all run").into_iter().map(|(name, told)| (name, told.err().unwrap_or_default())).collect();
    let expected: Vec<_> = folders.iter().map(|&(name, _, told)| (name.to_owned(), told.to_owned())).collect();
    assert_eq!(told, expected);
}

#[test]
fn runs_that_are_as_they_must_be() {
    let script = "cat; cat more; echo told of $2 >&2; exit 3";
    let files: Files = &[
        ("cmd", "sh script more 7\n"),
        ("script", script),
        ("more", "and more\n"),
        ("stdin.lines", "repeat 20000 a line\n"),
        ("stdout.lines", "repeat 20000 a line\nand more\n"),
        ("stderr", "told of 7\n"),
        ("status", "3\n"),
    ];
    let bytes: Files = &[("cmd", "sh script"), ("script", "od -An -tx1"), ("stdin.calls", "raw 00 ff"), ("stdout", " 00 ff\n")];
    let full: Files = &[("cmd", "sh script >/dev/full"), ("script", "echo told"), ("stderr", "echo: "), ("status", "1")];
    let input: Files = &[("cmd", "sh"), ("stdin.lines", "exit 0\nrepeat 20000 is not read\n")];
    tells("right", &[("bytes", bytes, ""), ("files", files, ""), ("full", full, ""), ("input", input, "")]);
}

#[test]
fn programs_that_tell_something_else() {
    let cmd = ("cmd", "sh script");
    tells(
        "programs",
        &[
            ("empty", &[cmd, ("script", ""), ("stdout", "a\n")], "standard output, line 1: its end, expected \"a\\n\""),
            ("error", &[cmd, ("script", "echo b >&2")], "standard error must be empty: \"b\\n\""),
            ("lacks", &[cmd, ("script", "echo b >&2"), ("stderr", "a\n")], "standard error lacks \"a\": \"b\\n\""),
            (
                "more",
                &[cmd, ("script", "echo a; echo b"), ("stdout", "a\n")],
                "standard output, line 2: \"b\\n\", expected its end",
            ),
            ("newline", &[cmd, ("script", "echo a"), ("stdout", "a")], "standard output, line 1: \"a\\n\", expected \"a\""),
            ("output", &[cmd, ("script", "echo a")], "standard output, line 1: \"a\\n\", expected its end"),
            ("signal", &[cmd, ("script", "kill -9 $$")], "ended by signal 9"),
            ("status", &[cmd, ("script", "exit 2"), ("status", "1")], "status 2, expected 1"),
            (
                "three",
                &[cmd, ("script", "echo a; echo b >&2; exit 1"), ("stdout", "c\n")],
                "status 1, expected 0\nstandard output, line 1: \"a\\n\", expected \"c\\n\"\nstandard error must be empty: \"b\\n\"",
            ),
        ],
    );
}

#[test]
fn folders_that_say_too_little_or_too_much() {
    let cmd = ("cmd", "sh script");
    let script = ("script", "");
    tells(
        "folders",
        &[
            ("calls", &[cmd, script, ("stdin.calls", "left 1\nleft\n")], "stdin.calls, line 2: 'left' wants so many numbers: 1"),
            ("command", &[("cmd", "\n")], "cmd names no program"),
            ("empty", &[], "there is no cmd"),
            ("error", &[cmd, script, ("stderr", "\n")], "stderr says nothing"),
            ("lines", &[cmd, script, ("stdout.lines", "repeat a\n")], "stdout.lines, line 1: repeat wants a number and a line"),
            ("misspelled", &[cmd, script, ("stdot", "")], "stdot is not looked at"),
            ("program", &[("cmd", "shh"), ("stdout", "")], "'shh' is no program"),
            ("status", &[cmd, script, ("status", "one\n")], "'one' is no status"),
            ("twice", &[cmd, script, ("stdout", ""), ("stdout.lines", "")], "stdout is there twice"),
        ],
    );
}

#[test]
fn no_folder_and_a_file_among_folders() {
    let none = all("none", LONG, &[]).expect_err("nothing runs");
    assert!(none.ends_with("none: there is no folder"), "{none}");
    let stage = Stage { programs: [].into(), beside: None, scratch: scratch("file"), limit: LONG };
    let runs = runs("file", &[]);
    assert!(stage.all(&runs.join("absent"), "").is_err());
    fs::write(runs.join("notes"), "").expect("a file");
    let told = stage.all(&runs, "").expect("all run");
    assert!(matches!(told.as_slice(), [(name, Err(_))] if name == "notes"), "{told:?}");
}

#[test]
fn a_program_that_does_not_end_is_stopped() {
    let start = Instant::now();
    let sleeps: Files =
        &[("cmd", "sh script"), ("script", "echo $$ >process; exec sleep 60"), ("stdin.lines", "repeat 99999 line\n")];
    let told = all("limit", Duration::from_secs(1), &[("sleeps", sleeps)]).expect("all run");
    assert_eq!(told, [("sleeps".into(), Err("stopped after 1s".into()))]);
    assert!(start.elapsed() < Duration::from_secs(30));
    let process = fs::read_to_string(scratch("limit").join("sleeps/process")).expect("its process");
    assert!(!Path::new("/proc").join(process.trim()).exists());
}
