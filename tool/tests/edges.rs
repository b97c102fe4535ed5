//! A pipe that is closed, a disk that is full, ends of lines, odd bytes, large inputs, and what is written with `-o`.

mod common;

use common::{text, Folder, TOOL};
use std::fs;
use std::io::Read;
use std::process::{Command, Stdio};

#[test]
fn a_closed_pipe_is_no_fault() {
    let folder = Folder::new("pipe");
    let list: String = (0..4096).map(|k| format!("10.{}.{}.0/24 1\n", k / 256, k % 256)).collect();
    folder.write("list.txt", list);
    let mut child = Command::new(TOOL)
        .args(["room", "list.txt"])
        .current_dir(folder.path())
        .stdout(Stdio::piped())
        .spawn()
        .unwrap();
    let mut stdout = child.stdout.take().unwrap();
    stdout.read_exact(&mut [0; 5]).unwrap();
    drop(stdout);
    assert_eq!(child.wait().unwrap().code(), Some(0));
}

#[test]
fn a_full_disk_is_reported() {
    let Ok(full) = fs::OpenOptions::new().write(true).open("/dev/full") else { return };
    let out = Command::new(TOOL).args(["text"]).stdin(Stdio::null()).stdout(full).output().unwrap();
    assert_eq!(out.status.code(), Some(0), "nothing to write");
    let folder = Folder::new("full");
    folder.write("list.txt", "10.0.0.0/8 20\n");
    let full = fs::OpenOptions::new().write(true).open("/dev/full").unwrap();
    let out = Command::new(TOOL).args(["text", "list.txt"]).current_dir(folder.path()).stdout(full).output().unwrap();
    assert_eq!(out.status.code(), Some(2));
    assert_eq!(
        String::from_utf8_lossy(&out.stderr),
        "ghatumri: standard output: No space left on device (os error 28)\n"
    );
    assert_eq!(folder.run(&["text", "list.txt", "-o", "/dev/full"]).0, 2);
    assert!(fs::metadata("/dev/full").is_ok_and(|d| !d.is_file()), "a device is not replaced");
}

#[test]
fn ends_of_lines() {
    let folder = Folder::new("lines");
    for list in [
        "10.0.0.0/8 20",
        "10.0.0.0/8 20\n",
        "10.0.0.0/8\t20\r\n\r\n",
        "\n# all\n 10.0.0.0/8  20  # one",
        "routes 1 second 0 third 0\n10.0.0.0/8 20\n",
    ] {
        assert_eq!(folder.pipe(&["text"], list.as_bytes()), (0, b"10.0.0.0/8 20\n".to_vec()), "{list:?}");
    }
    for list in [
        "10.0.0.0/08 20\n",
        "010.0.0.0/8 20\n",
        "10.0.0.0/8 +20\n",
        "10.0.0.0/8 20 Attached\n",
        "10.0.0.0/8 20\n\nroutes 1 second 0 third 0\n",
    ] {
        assert_eq!(folder.pipe(&["text"], list.as_bytes()), (1, Vec::new()), "{list:?}");
    }
}

#[test]
fn odd_bytes() {
    let folder = Folder::new("bytes");
    // A remark in another encoding is a remark.
    assert_eq!(folder.pipe(&["text"], b"10.0.0.0/8 20 # Z\xfcrich\n").0, 0);
    assert_eq!(folder.pipe(&["text"], b"10.0.0.0/8 20 Z\xfcrich\n").0, 1);
    assert_eq!(folder.pipe(&["text"], b""), (0, Vec::new()));
    assert_eq!(folder.pipe(&["records"], b""), (0, Vec::new()));
}

#[test]
fn large_inputs() {
    let folder = Folder::new("large");
    assert_eq!(folder.pipe(&["text"], &vec![b' '; 16 << 20]), (0, Vec::new()));
    assert_eq!(folder.pipe(&["text"], &vec![b' '; 32 << 20]), (0, Vec::new()));
    assert_eq!(folder.pipe(&["text"], &vec![b' '; (32 << 20) + 1]).0, 2);
    let faults = "x\n".repeat(30);
    let mut child = Command::new(TOOL)
        .arg("text")
        .stdin(Stdio::piped())
        .stdout(Stdio::piped())
        .stderr(Stdio::piped())
        .spawn()
        .unwrap();
    std::io::Write::write_all(&mut child.stdin.take().unwrap(), faults.as_bytes()).unwrap();
    let out = child.wait_with_output().unwrap();
    let said = String::from_utf8(out.stderr).unwrap();
    assert_eq!((said.lines().count(), said.lines().last()), (21, Some("ghatumri: standard input: 10 more faults")));
}

/// The largest table that can be lent is read back.
#[test]
fn the_largest_table() {
    let folder = Folder::new("largest");
    folder.write("list.txt", "10.1.2.128/25 57\n");
    folder.accepted(&["table", "-g", "small", "list.txt", "-o", "large.tbl"]);
    assert_eq!(text(folder.accepted(&["text", "large.tbl"])), "10.1.2.128/25 57\n");
}

#[test]
fn written_files() {
    let folder = Folder::new("written");
    folder.write("list.txt", "10.0.0.0/8 20\n");
    folder.accepted(&["text", "list.txt", "-o", "list.txt"]);
    assert_eq!(folder.read("list.txt"), b"10.0.0.0/8 20\n");
    // The same file twice, and nothing left behind by a refusal.
    folder.accepted(&["diff", "list.txt", "list.txt"]);
    folder.write("bad.txt", "10.0.0.0/8\n");
    assert_eq!(folder.run(&["records", "bad.txt", "-o", "list.txt"]).0, 1);
    assert_eq!(folder.read("list.txt"), b"10.0.0.0/8 20\n");
    assert_eq!(folder.run(&["text", "list.txt", "-o", "no/such/folder"]).0, 2);
    assert_eq!(fs::read_dir(folder.path()).unwrap().count(), 2);
}

#[test]
fn options_in_any_place() {
    let folder = Folder::new("options");
    folder.write("-x", "10.0.0.0/8 20\n");
    assert_eq!(folder.accepted(&["text", "--", "-x"]), b"10.0.0.0/8 20\n");
    assert_eq!(folder.accepted(&["-c", "text", "--", "-x"]), b"10.0.0.0/8 20\n");
    assert_eq!(folder.run(&["text", "-x"]).0, 2);
    assert_eq!(folder.run(&[]).0, 2);
    for help in ["-h", "--help"] {
        assert!(text(folder.accepted(&["why", help])).starts_with("usage: ghatumri "));
    }
    assert_eq!(text(folder.accepted(&["--version"])), concat!("ghatumri ", env!("CARGO_PKG_VERSION"), "\n"));
}
