//! Runs a program and gives everything that it printed.
#![allow(dead_code)] // each test file uses a part

pub mod list;

use std::ffi::OsStr;
use std::fs;
use std::io::Write;
use std::path::{Path, PathBuf};
use std::process::{Command, Stdio};

/// What a run came to.
#[derive(Debug, PartialEq, Eq)]
pub struct Ran {
    pub status: i32,
    pub out: String,
    pub err: String,
}

pub fn ran(status: i32, out: &str, err: &str) -> Ran {
    Ran { status, out: out.into(), err: err.into() }
}

/// A folder of this test's own, empty at the start and gone at the end, since `rt ci` refuses a checkout with
/// links in it; the programs run in it.
pub struct Folder(PathBuf);

impl Drop for Folder {
    fn drop(&mut self) {
        let _ = fs::remove_dir_all(&self.0);
    }
}

impl Folder {
    pub fn new(name: &str) -> Folder {
        let path = PathBuf::from(env!("CARGO_TARGET_TMPDIR")).join(name);
        let _ = fs::remove_dir_all(&path);
        fs::create_dir_all(&path).unwrap();
        Folder(path)
    }

    pub fn path(&self, name: impl AsRef<Path>) -> PathBuf {
        self.0.join(name)
    }

    pub fn write(&self, name: impl AsRef<Path>, bytes: impl AsRef<[u8]>) {
        fs::write(self.path(name), bytes).unwrap();
    }

    pub fn read(&self, name: impl AsRef<Path>) -> Vec<u8> {
        fs::read(self.path(name)).unwrap()
    }

    /// The names of all files there, in order.
    pub fn names(&self) -> Vec<String> {
        let name = |entry: fs::DirEntry| entry.file_name().to_string_lossy().into_owned();
        let mut names: Vec<String> = fs::read_dir(&self.0).unwrap().map(|e| name(e.unwrap())).collect();
        names.sort();
        names
    }

    pub fn run(&self, program: &str, arguments: &[&str]) -> Ran {
        self.run_with(program, arguments, b"")
    }

    /// A line of the shell.
    pub fn shell(&self, line: &str) -> Ran {
        self.run("sh", &["-c", line])
    }

    pub fn run_with(&self, program: &str, arguments: &[&str], input: &[u8]) -> Ran {
        let arguments: Vec<&OsStr> = arguments.iter().map(OsStr::new).collect();
        self.run_on(program, &arguments, input)
    }

    pub fn run_on(&self, program: &str, arguments: &[&OsStr], input: &[u8]) -> Ran {
        let mut child = Command::new(program)
            .args(arguments)
            .current_dir(&self.0)
            .stdin(Stdio::piped())
            .stdout(Stdio::piped())
            .stderr(Stdio::piped())
            .spawn()
            .unwrap();
        // a program that stops before it has read all is no fault of this test
        let _ = child.stdin.take().unwrap().write_all(input);
        let output = child.wait_with_output().unwrap();
        Ran {
            status: output.status.code().unwrap(),
            out: String::from_utf8(output.stdout).unwrap(),
            err: String::from_utf8(output.stderr).unwrap(),
        }
    }

    /// A map of a list of zones, built by `zonemap`.
    pub fn map(&self, name: &str, zones: &str, epoch: &str) {
        self.write("zones.txt", zones);
        let made = self.run(env!("CARGO_BIN_EXE_zonemap"), &["--empty", "zones.txt", name, epoch]);
        assert_eq!((made.status, &*made.err), (0, ""));
    }
}

pub const NO_SUCH_FILE: &str = "No such file or directory (os error 2)";
