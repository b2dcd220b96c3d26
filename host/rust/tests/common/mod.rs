//! Runs `drive` as a person does.
#![allow(dead_code)] // each test file uses some of these
use std::fs;
use std::io::Write;
use std::path::PathBuf;
use std::process::{Command, Stdio};

/// Exit status, standard output and standard error of `drive` with these words and this input.
pub fn drive(words: &[&str], input: impl AsRef<[u8]>) -> (i32, String, String) {
    let mut child = Command::new(env!("CARGO_BIN_EXE_drive"))
        .args(words)
        .stdin(Stdio::piped())
        .stdout(Stdio::piped())
        .stderr(Stdio::piped())
        .spawn()
        .unwrap();
    let mut pipe = child.stdin.take().unwrap();
    // a program that ends before it has read all of its input closes the pipe
    let _ = pipe.write_all(input.as_ref());
    drop(pipe);
    let done = child.wait_with_output().unwrap();
    (done.status.code().unwrap(), String::from_utf8(done.stdout).unwrap(), String::from_utf8(done.stderr).unwrap())
}

/// A file of this test alone.
pub fn file(name: &str, content: impl AsRef<[u8]>) -> String {
    let path = PathBuf::from(env!("CARGO_TARGET_TMPDIR")).join(name);
    fs::write(&path, content).unwrap();
    path.to_str().unwrap().to_string()
}

/// What `drive` says of a script, which is not good.
pub fn said(command: &str, script: impl AsRef<[u8]>) -> String {
    let (status, out, err) = drive(&[command, "-"], script);
    assert_eq!((status, err.as_str()), (1, ""));
    assert!(out.bytes().all(|b| b == b'\n' || (b' '..=b'~').contains(&b)), "{out:?}");
    out
}
