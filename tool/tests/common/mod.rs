//! Running the command in a temporary folder.
#![allow(dead_code)]

use differential::gen::{Field, Rng};
use differential::plain::Route;
use std::fs;
use std::io::Write;
use std::path::{Path, PathBuf};
use std::process::{Command, Stdio};

pub const TOOL: &str = env!("CARGO_BIN_EXE_ghatumri");

/// A folder that is removed in the end.
pub struct Folder(PathBuf);

impl Folder {
    pub fn new(name: &str) -> Folder {
        let path = std::env::temp_dir().join(format!("ghatumri-{name}-{}", std::process::id()));
        let _ = fs::remove_dir_all(&path);
        fs::create_dir_all(&path).unwrap();
        Folder(path)
    }

    pub fn path(&self) -> &Path {
        &self.0
    }

    pub fn write(&self, name: &str, bytes: impl AsRef<[u8]>) {
        fs::write(self.0.join(name), bytes).unwrap();
    }

    pub fn read(&self, name: &str) -> Vec<u8> {
        fs::read(self.0.join(name)).unwrap()
    }

    /// Runs the command here, and gives its status and standard output.
    pub fn run(&self, args: &[&str]) -> (i32, Vec<u8>) {
        let out = Command::new(TOOL).args(args).current_dir(&self.0).stdin(Stdio::null()).output().unwrap();
        (out.status.code().expect("no signal"), out.stdout)
    }

    /// Runs it with standard input.
    pub fn pipe(&self, args: &[&str], input: &[u8]) -> (i32, Vec<u8>) {
        let mut command = Command::new(TOOL);
        command.args(args).current_dir(&self.0).stdin(Stdio::piped()).stdout(Stdio::piped()).stderr(Stdio::null());
        let mut child = command.spawn().unwrap();
        let mut stdin = child.stdin.take().unwrap();
        let input = input.to_vec();
        let writer = std::thread::spawn(move || stdin.write_all(&input));
        let out = child.wait_with_output().unwrap();
        let _ = writer.join().unwrap();
        (out.status.code().expect("no signal"), out.stdout)
    }

    /// What an accepted run prints.
    pub fn accepted(&self, args: &[&str]) -> Vec<u8> {
        let (status, out) = self.run(args);
        assert_eq!(status, 0, "{args:?}: {}", String::from_utf8_lossy(&out));
        out
    }
}

impl Drop for Folder {
    fn drop(&mut self) {
        let _ = fs::remove_dir_all(&self.0);
    }
}

pub fn text(bytes: Vec<u8>) -> String {
    String::from_utf8(bytes).unwrap()
}

/// Routes as the comparison draws them.
pub fn drawn(rng: &mut Rng, n: usize) -> Vec<Route> {
    Field::new(rng, 16, 24).routes(rng, n)
}

/// A route as a line.
pub fn line(r: &Route) -> String {
    let attached = if r.mark == 1 { " attached" } else { "" };
    format!("{}/{} {}{attached}\n", std::net::Ipv4Addr::from(r.addr), r.len, r.hop)
}
