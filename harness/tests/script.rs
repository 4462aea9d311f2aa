//! The script `cliffs`, in a clone whose path has a blank, with a kit that only writes down what is asked of it.

use std::env;
use std::fs::{self, File, Permissions};
use std::os::unix::fs::{PermissionsExt, symlink};
use std::path::{Path, PathBuf};
use std::process::{self, Command, Stdio};
use std::sync::{Mutex, MutexGuard};
use std::thread;
use std::time::{Duration, SystemTime};

/// Two of these are not of what cliffs stands on: one is of the kit.
const CRATES: &str =
    "# any order\ncliffs: report thiserror\nreport: raise wire # text\n\nwire staticlib: raise\nraise:\ntests: report\n";

/// It fails in a folder with a file `refused`, and takes long in one with a file `slow`.
const KIT: &str = r#"#!/bin/sh
echo "${PWD##*/} $*" >>../../asked
[ ! -f slow ] || { sleep 60 & echo $! >pid; wait; }
[ ! -f refused ] || { echo 'lib.rt:1:1: error[unknown-name]: unit'; echo 'nothing was built'; exit 1; }
[ "$1" = run ] || exit 0
mkdir -p out
printf '#!/bin/sh\necho "told of $*"\ncat\n' >out/cliffs
chmod +x out/cliffs
"#;

const TURNS: [&str; 4] = [
    "cliffs: proving 1 of 4: raise (0 min ",
    "cliffs: proving 2 of 4: wire (0 min ",
    "cliffs: proving 3 of 4: report (0 min ",
    "cliffs: proving 4 of 4: cliffs (0 min ",
];

/// One at a time: a program can't be started while another thread starts one and has this one's file still open to write it.
static TURN: Mutex<()> = Mutex::new(());

/// It lies outside of the repository, where a kit would take it for a part of that, and goes when it is done with.
struct Clone {
    folder: PathBuf,
    top: PathBuf,
    path: String,
    _turn: MutexGuard<'static, ()>,
}

struct Told {
    status: Option<i32>,
    stdout: String,
    stderr: Vec<String>,
}

fn path() -> String {
    env::var("PATH").expect("a path")
}

fn write_program(path: &Path, text: &str) {
    fs::write(path, text).and_then(|()| fs::set_permissions(path, Permissions::from_mode(0o755))).expect("a program");
}

impl Drop for Clone {
    fn drop(&mut self) {
        drop(fs::remove_dir_all(&self.folder));
    }
}

impl Clone {
    fn new(name: &str) -> Self {
        let turn = TURN.lock().unwrap_or_else(|poisoned| poisoned.into_inner());
        let folder = env::temp_dir().join(format!("cliffs-{}-{name}", process::id()));
        let (top, kit) = (folder.join("a clone"), folder.join("kit"));
        drop(fs::remove_dir_all(&folder));
        fs::create_dir_all(&kit).expect("a folder");
        for name in ["raise", "wire", "report", "cliffs", "tests"] {
            fs::create_dir_all(top.join(format!("crates/{name}/src"))).expect("a folder");
        }
        fs::write(top.join("crates.txt"), CRATES).expect("a file");
        fs::copy(Path::new(env!("CARGO_MANIFEST_DIR")).join("../cliffs"), top.join("cliffs")).expect("the script");
        write_program(&kit.join("rt"), KIT);
        let path = format!("{}:{}", kit.display(), path());
        Self { folder, top, path, _turn: turn }
    }

    fn command(&self, words: &[&str]) -> Command {
        let mut command = Command::new(self.top.join("cliffs"));
        command.args(words).env("PATH", &self.path).current_dir("/").stdin(Stdio::null());
        command
    }

    fn run(&self, words: &[&str]) -> Told {
        let rules = self.top.join("rules");
        fs::write(&rules, "rules\n").expect("a file");
        let input = File::open(rules).expect("a file");
        let output = self.command(words).stdin(input).output().expect("the script runs");
        let text = |bytes| String::from_utf8(bytes).expect("text");
        let stderr = text(output.stderr).lines().map(str::to_owned).collect();
        Told { status: output.status.code(), stdout: text(output.stdout), stderr }
    }

    /// What was asked of the kit since the last time.
    fn asked(&self) -> String {
        let asked = fs::read_to_string(self.top.join("asked")).unwrap_or_default();
        drop(fs::remove_file(self.top.join("asked")));
        asked
    }

    fn put(&self, file: &str) {
        fs::write(self.top.join("crates").join(file), "").expect("a file");
    }
}

impl Told {
    fn is(&self, status: i32, stdout: &str, stderr: &[&str]) {
        assert_eq!((self.status, self.stdout.as_str()), (Some(status), stdout), "{:?}", self.stderr);
        assert_eq!(self.stderr.len(), stderr.len(), "{:?}", self.stderr);
        for (line, part) in self.stderr.iter().zip(stderr) {
            assert!(line.starts_with(part), "{line}, expected {part}");
        }
    }
}

const ALL: &str = "raise lib\nwire lib\nreport lib\ncliffs run -- --help\n";
const FIRST: &str = "cliffs: it is not built yet";
const TOLD: &str = "told of - 1300\nrules\n";

#[test]
fn it_is_built_once_from_the_lowest_crate_on() {
    let clone = Clone::new("once");
    clone.run(&["-", "1300"]).is(0, TOLD, &[&[FIRST], &TURNS[..]].concat());
    assert_eq!(clone.asked(), ALL);
    clone.run(&["-", "1300"]).is(0, TOLD, &[]);
    assert_eq!(clone.asked(), "");
}

#[test]
fn newer_sources_are_told_and_built_when_that_is_asked() {
    let clone = Clone::new("newer");
    clone.run(&[]);
    let later = |file: &str| {
        let file = File::create(clone.top.join("crates").join(file)).expect("a file");
        file.set_modified(SystemTime::now() + Duration::from_secs(60)).expect("a time");
    };
    later("tests/src/lib.rt");
    clone.run(&["-", "1300"]).is(0, TOLD, &[]);
    later("wire/src/lib.rt");
    clone.asked();
    clone.run(&["-", "1300"]).is(0, TOLD, &["cliffs: the sources are newer than this program; ./cliffs --rebuild builds it anew"]);
    assert_eq!(clone.asked(), "");
    clone.run(&["--rebuild"]).is(0, "", &[&TURNS[..], &["cliffs: it is built"]].concat());
    clone.run(&["--rebuild", "-", "1300"]).is(0, TOLD, &TURNS);
    assert_eq!(clone.asked(), ALL.repeat(2));
}

#[test]
fn a_crate_that_is_refused() {
    let clone = Clone::new("refused");
    clone.put("report/refused");
    let refused =
        [&TURNS[..3], &["lib.rt:1:1: error[unknown-name]: unit", "cliffs: it could not be built: rt failed in crates/report"]]
            .concat();
    clone.run(&["-"]).is(1, "", &[&[FIRST], &refused[..]].concat());
    fs::remove_file(clone.top.join("crates/report/refused")).expect("a file");
    clone.run(&["-"]).is(0, "told of -\nrules\n", &[&[FIRST], &TURNS[..]].concat());
    clone.put("report/refused");
    clone.run(&["--rebuild", "-"]).is(1, "", &refused);
    clone.run(&["-"]).is(0, "told of -\nrules\n", &[]);
}

#[test]
fn without_the_kit() {
    let mut clone = Clone::new("kit");
    clone.run(&[]);
    clone.path = clone.top.join("tools").display().to_string();
    fs::create_dir(&clone.path).expect("a folder");
    for tool in ["bash", "dirname", "readlink", "find", "grep", "sh", "cat"] {
        let path = path();
        let found = path.split(':').map(|folder| Path::new(folder).join(tool)).find(|path| path.exists());
        symlink(found.expect("the tool"), Path::new(&clone.path).join(tool)).expect("a link");
    }
    clone.run(&["-", "1300"]).is(0, TOLD, &[]);
    let missing = "cliffs: rt, of the Rattle kit, is not on the path";
    clone.run(&["--rebuild", "-"]).is(1, "", &[missing]);
    fs::remove_dir_all(clone.top.join("crates/cliffs/out")).expect("a folder");
    clone.run(&["-"]).is(1, "", &[FIRST, missing]);
}

#[test]
fn through_a_link() {
    let mut clone = Clone::new("link");
    let real = clone.top.clone();
    clone.top = real.with_file_name("links");
    fs::create_dir(&clone.top).expect("a folder");
    symlink("../a clone/cliffs", clone.top.join("cliffs")).expect("a link");
    clone.run(&["-", "1300"]).is(0, TOLD, &[&[FIRST], &TURNS[..]].concat());
    assert!(real.join("crates/cliffs/out/cliffs").exists());
}

fn is_running(process: &str) -> bool {
    let stat = fs::read_to_string(format!("/proc/{process}/stat")).unwrap_or_default();
    stat.rsplit_once(") ").is_some_and(|(_, rest)| !rest.starts_with('Z'))
}

/// Asks again and again, for ten seconds at most.
fn waits_for(mut ready: impl FnMut() -> bool) -> bool {
    (0..1000).any(|_| {
        ready() || {
            thread::sleep(Duration::from_millis(10));
            false
        }
    })
}

#[test]
fn nothing_is_left_behind_where_it_is_interrupted() {
    let clone = Clone::new("interrupted");
    clone.put("wire/slow");
    let mut script = clone.command(&[]).stderr(Stdio::null()).spawn().expect("the script runs");
    let mut process = String::new();
    assert!(waits_for(|| {
        process = fs::read_to_string(clone.top.join("crates/wire/pid")).unwrap_or_default();
        process.ends_with('\n') && is_running(process.trim())
    }));
    let stopped = Command::new("kill").arg(script.id().to_string()).status().expect("kill runs");
    assert!(stopped.success());
    assert_eq!(script.wait().expect("it ends").code(), Some(130));
    assert!(waits_for(|| !is_running(process.trim())), "{process} runs on");
}
