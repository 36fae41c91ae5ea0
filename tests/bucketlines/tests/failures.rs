//! A read or a write that fails is said on standard error; the program ends with 0 all the same.

use bucketlines::program::{in_repository, run_on};
use bucketlines::stored::vector;
use std::fs::File;
use std::io::Write;
use std::os::fd::OwnedFd;
use std::os::unix::net::UnixStream;
use std::process::{Output, Stdio};

/// Nothing is printed, and this is said.
fn hold(output: &Output, said: &str) {
    assert_eq!(String::from_utf8_lossy(&output.stdout), "");
    assert_eq!(String::from_utf8_lossy(&output.stderr), said);
    assert!(output.status.success());
}

/// A folder can be opened, and not read.
#[test]
fn read() {
    let folder = File::open(in_repository("examples")).expect("a folder");
    let output = run_on(folder, Stdio::piped());
    hold(&output, "bucketlines: a read failed\n");
}

/// After a whole list the next read fails, where the input has not ended: the other end is open, and
/// a read does not wait.
#[test]
fn read_after_a_list() {
    let (mut here, there) = UnixStream::pair().expect("two sockets");
    here.write_all(&vector("place", "p1").list).expect("room");
    there.set_nonblocking(true).expect("a socket");
    let output = run_on(OwnedFd::from(there), Stdio::piped());
    hold(&output, "bucketlines: a read failed\n");
    drop(here);
}

/// A device that is full.
#[test]
fn write() {
    let list = File::open(in_repository("crates/bucketlines/stdin")).expect("a list");
    let full = File::options().write(true).open("/dev/full");
    let output = run_on(list, full.expect("a device"));
    hold(&output, "bucketlines: a write failed\n");
}
