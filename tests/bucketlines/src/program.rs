//! The program, run on bytes.

use std::io::{ErrorKind, Write};
use std::path::PathBuf;
use std::process::{Child, ChildStdin, Command, Output, Stdio};

/// A file or folder of the repository.
pub fn in_repository(path: &str) -> PathBuf {
    PathBuf::from(concat!(env!("CARGO_MANIFEST_DIR"), "/../..")).join(path)
}

/// All that the program prints for a list on its standard input.
pub fn printed(list: &[u8]) -> String {
    printed_from(|input| input.write_all(list))
}

/// All that the program prints for what is written to its standard input.
pub fn printed_from(write: impl FnOnce(&mut ChildStdin) -> std::io::Result<()>) -> String {
    let mut program = start(Stdio::piped(), Stdio::piped());
    let mut input = program.stdin.take().expect("a pipe");
    match write(&mut input) {
        // The program reads no more than it needs to refuse a long list.
        Err(error) if error.kind() != ErrorKind::BrokenPipe => panic!("{error}"),
        _ => drop(input),
    }
    output(program)
}

/// All that the program prints for a standard input of any kind.
pub fn printed_on(input: impl Into<Stdio>) -> String {
    output(start(input.into(), Stdio::piped()))
}

/// What the program leaves for a standard input and a standard output of any kind.
pub fn run_on(input: impl Into<Stdio>, output: impl Into<Stdio>) -> Output {
    let program = start(input.into(), output.into());
    program.wait_with_output().expect("the program ends")
}

/// The program, started.
fn start(input: Stdio, output: Stdio) -> Child {
    let path = in_repository("target/bin/bucketlines");
    let mut command = Command::new(&path);
    command.stdin(input).stdout(output).stderr(Stdio::piped());
    let started = command.spawn();
    started.unwrap_or_else(|error| panic!("{}: {error}", path.display()))
}

/// What it prints; it ends well and says nothing else.
fn output(program: Child) -> String {
    let output = program.wait_with_output().expect("the program ends");
    assert!(output.status.success(), "{}", output.status);
    assert_eq!(output.stderr, b"", "nothing on the standard error");
    String::from_utf8(output.stdout).expect("plain text")
}
