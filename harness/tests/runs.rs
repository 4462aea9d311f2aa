//! The programs, run as the folders of `runs/` say. A word on the command line leaves only those whose names have it in them.

use harness::stage::Stage;
use std::env;
use std::path::Path;
use std::process::ExitCode;
use std::time::Duration;

fn main() -> ExitCode {
    let top = Path::new(env!("CARGO_MANIFEST_DIR")).join("..");
    let program = |name: &str| (name.to_owned(), top.join(format!("crates/{name}/out/{name}")));
    let stage = Stage {
        programs: ["answer", "cliffs"].map(program).into(),
        beside: Some(top.join("examples")),
        scratch: Path::new(env!("CARGO_TARGET_TMPDIR")).join("runs"),
        limit: Duration::from_secs(60),
    };
    let word = env::args().skip(1).find(|word| !word.starts_with('-')).unwrap_or_default();
    let told = stage.all(&top.join("runs"), &word).unwrap_or_else(|why| vec![("of all folders".into(), Err(why))]);
    for (name, result) in &told {
        match result {
            Ok(()) => println!("run {name}: ok"),
            Err(why) => println!("run {name}: FAILED\n  {}", why.replace('\n', "\n  ")),
        }
    }
    let failed = told.iter().filter(|(_, result)| result.is_err()).count();
    println!("test result: {}. {} passed; {failed} failed", if failed == 0 { "ok" } else { "FAILED" }, told.len() - failed);
    if failed == 0 { ExitCode::SUCCESS } else { ExitCode::FAILURE }
}
