//! The program of the tests: TOPZERAD_PROGRAM, or the stand-in. It makes and serves pools in files of a test's own.
#![allow(dead_code)] // each test uses some of these

use std::ffi::OsString;
use std::path::{Path, PathBuf};
use std::process::Command;
use topzerad::{Error, Pool, Refusal};

const STAND_IN: &str = concat!(env!("CARGO_MANIFEST_DIR"), "/../stand_in");
/// Runs the program, and writes the number of its process to the file of the pool and `.pid`.
pub const WITH_PID: &str = concat!(env!("CARGO_MANIFEST_DIR"), "/tests/with_pid");
/// Says nothing, and does not end.
pub const SILENT: &str = concat!(env!("CARGO_MANIFEST_DIR"), "/tests/silent");
pub const SIZE: u64 = 8 << 20;

pub fn program() -> OsString {
    std::env::var_os("TOPZERAD_PROGRAM").unwrap_or_else(|| STAND_IN.into())
}

/// A path where no file is.
pub fn new_path(name: &str) -> PathBuf {
    let path = Path::new(env!("CARGO_TARGET_TMPDIR")).join(name);
    let _ = std::fs::remove_file(&path);
    path
}

/// A new pool with guid 77, and the file that it is in.
pub fn new_pool(name: &str) -> PathBuf {
    let path = new_path(name);
    Pool::create(program(), &path, "tank", 77, SIZE).unwrap();
    path
}

/// Sends a signal to the process that WITH_PID started for a file.
pub fn signal(name: &str, path: &Path) {
    let process = std::fs::read_to_string(path.with_extension("pid")).unwrap();
    let sent = Command::new("kill").args(["-s", name, process.trim()]).output();
    // A test that ignores SIGCHLD isn't told how it ended.
    assert!(sent.map_or_else(|error| error.raw_os_error() == Some(10), |sent| sent.status.success()));
}

pub fn refusal<T>(came: Result<T, Error>) -> Option<Refusal> {
    match came {
        Err(Error::Refused { refusal, .. }) => Some(refusal),
        _ => None,
    }
}

pub fn text<T>(came: Result<T, Error>) -> String {
    came.err().unwrap().to_string()
}
