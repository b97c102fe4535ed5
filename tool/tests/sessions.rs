//! Transcripts are played, those of `tests/sessions` and the examples of the man page: `$ COMMAND`, what it prints on standard output and
//! standard error, and `[STATUS]` if that is not 0. Each session has its own folder with the files of `tests/sessions/files`.

mod common;

use common::{Folder, TOOL};
use std::fs;
use std::path::Path;
use std::process::Command;

/// A command of a session and what follows it.
struct Step {
    command: String,
    prints: String,
}

fn steps(session: &str) -> Vec<Step> {
    let mut steps: Vec<Step> = Vec::new();
    for line in session.lines() {
        match (line.strip_prefix("$ "), steps.last_mut()) {
            (Some(command), _) => steps.push(Step { command: command.into(), prints: String::new() }),
            (None, Some(step)) => step.prints.push_str(&format!("{line}\n")),
            (None, None) => panic!("a session begins with a command: {line}"),
        }
    }
    steps
}

fn play(name: &str, session: &str) {
    let folder = Folder::new(name);
    let files = Path::new(env!("CARGO_MANIFEST_DIR")).join("tests/sessions/files");
    for file in fs::read_dir(files).unwrap().map(|f| f.unwrap()) {
        fs::copy(file.path(), folder.path().join(file.file_name())).unwrap();
    }
    let tool = Path::new(TOOL).parent().unwrap();
    let path = format!("{}:{}", tool.display(), std::env::var("PATH").unwrap());
    for Step { command, prints } in steps(session) {
        let script = format!("{{ {command}\n}} 2>&1");
        let out =
            Command::new("sh").args(["-c", &script]).current_dir(folder.path()).env("PATH", &path).output().unwrap();
        let mut is = String::from_utf8_lossy(&out.stdout).into_owned();
        match out.status.code() {
            Some(0) => {}
            status => is.push_str(&format!("[{}]\n", status.expect("no signal"))),
        }
        assert_eq!(is, prints, "{name}: $ {command}");
    }
}

#[test]
fn sessions() {
    let folder = Path::new(env!("CARGO_MANIFEST_DIR")).join("tests/sessions");
    let mut played = 0;
    for file in fs::read_dir(folder).unwrap().map(|f| f.unwrap().path()) {
        if file.extension().is_some_and(|e| e == "session") {
            play(file.file_stem().unwrap().to_str().unwrap(), &fs::read_to_string(&file).unwrap());
            played += 1;
        }
    }
    assert!(played >= 3);
}

/// The examples of the man page: its blocks that begin with a command.
#[test]
fn man_page() {
    let page = fs::read_to_string(Path::new(env!("CARGO_MANIFEST_DIR")).join("ghatumri.1")).unwrap();
    let blocks = page.split(".Bd -literal\n").skip(1).map(|rest| rest.split(".Ed\n").next().unwrap());
    let session: String =
        blocks.filter(|b| b.starts_with("$ ")).map(|b| b.replace("\\-", "-").replace("\\e", "\\")).collect();
    assert!(session.lines().filter(|l| l.starts_with("$ ")).count() >= 8);
    play("man-page", &session);
}
