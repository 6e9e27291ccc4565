//! A program on an input.

use std::ffi::OsStr;
use std::io::Write;
use std::process::{Child, ChildStdin, Command, Output, Stdio};
use std::thread;

/// The program called by these words, and its standard input.
pub fn start<W: AsRef<OsStr>>(program: &str, words: &[W]) -> (Child, ChildStdin) {
    let mut child = Command::new(program)
        .args(words)
        .stdin(Stdio::piped())
        .stdout(Stdio::piped())
        .stderr(Stdio::piped())
        .spawn()
        .expect("the program is built");
    let to = child.stdin.take().expect("it is piped");
    (child, to)
}

/// What the program called by these words writes for the input, and how it ends. A program that stops reading is seen by what it writes.
pub fn run(program: &str, words: &[&str], input: Vec<u8>) -> Output {
    let (child, mut to) = start(program, words);
    let writer = thread::spawn(move || {
        let _ = to.write_all(&input);
    });
    let output = child.wait_with_output().expect("it ends");
    writer.join().expect("the writer ends");
    output
}
