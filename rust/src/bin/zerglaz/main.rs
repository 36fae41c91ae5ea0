//! zerglaz: makes calls on lists of bytes, and shows lists and volumes.

mod failure;
mod generations;
mod input;
mod lines;
mod lists;
mod picture;
mod table;

use failure::Failure;
use std::io::{self, Write};
use std::process::ExitCode;
use zerglaz::Bucket;

/// What the program takes and does.
const USAGE: &str = "\
usage: zerglaz COMMAND [--hex] [FILE ..]

  call LIST            makes the call that a call list asks for, and writes its change list
  apply VOLUME CHANGE  writes the volume that a change list leads to
  sort LIST            writes the sorted form of a call list
  lines CHANGE         prints a change list, a line a field, as bucketlines does
  show VOLUME          prints a table of a volume's buckets
  draw VOLUME          writes a picture of a volume, as SVG: a cell for each bucket
  generations VOLUME BUCKET ..
                       prints the generations of buckets of a volume, a line a bucket, and
                       then how many keys were visited for them

A FILE is a list of bytes, or the same in hexadecimal text, where # begins a comment. A last
FILE that is left out, or -, is the standard input; generations wants its VOLUME named. The
fields of a LIST or a VOLUME may stand in any order. A VOLUME may be a call list: its requests
are left out. BUCKETs are up to 1,024 numbers, which ascend. With --hex, call, apply and sort
write hexadecimal text.

Exit status: 0; 1 where a call refuses, or bytes are no list of the kind or a volume that no
history reaches; 2 for other words than these; 3 where a file cannot be read or written.
";

/// Run the command that the words name, and end with its status.
fn main() -> ExitCode {
    let words: Vec<String> = std::env::args().skip(1).collect();
    let words: Vec<&str> = words.iter().map(String::as_str).collect();
    match run(&words) {
        Ok(()) => ExitCode::SUCCESS,
        Err(failure) => {
            // Where the standard error is closed too, the status still tells.
            let _ = writeln!(io::stderr(), "zerglaz: {failure}");
            ExitCode::from(failure.status())
        }
    }
}

/// Do what the words ask for.
fn run(words: &[&str]) -> Result<(), Failure> {
    match words {
        ["--help" | "-h" | "help"] => write_out(USAGE.as_bytes()),
        ["--version" | "-V"] => write_out(format!("zerglaz {}\n", zerglaz::VERSION).as_bytes()),
        ["call", rest @ ..] => {
            let (hex, [list]) = files(rest)?;
            write_list(&lists::call(&input::read(list)?)?, hex)
        }
        ["apply", rest @ ..] => {
            let (hex, [volume, change]) = files(rest)?;
            let (volume, change) = (input::read(volume)?, input::read(change)?);
            write_list(&lists::apply(&volume, &change)?, hex)
        }
        ["sort", rest @ ..] => {
            let (hex, [list]) = files(rest)?;
            write_list(&lists::sort(&input::read(list)?)?, hex)
        }
        ["lines", rest @ ..] => {
            let [change] = only_files(rest)?;
            write_out(lines::lines(&input::read(change)?)?.as_bytes())
        }
        ["show", rest @ ..] => {
            let [volume] = only_files(rest)?;
            shown(&input::read(volume)?, table::table)
        }
        ["draw", rest @ ..] => {
            let [volume] = only_files(rest)?;
            shown(&input::read(volume)?, picture::picture)
        }
        ["generations", volume, buckets @ ..] => {
            let ([volume], buckets) = (only_files(&[volume])?, numbers(buckets)?);
            let found = lists::generations(&input::read(volume)?, &buckets)?;
            write_out(generations::lines(&buckets, &found).as_bytes())
        }
        _ => Err(Failure::Usage(USAGE)),
    }
}

/// Show a volume. One that no history reaches is shown too, and is a failure afterwards.
fn shown(bytes: &[u8], show: fn(&zerglaz::CallListRef) -> String) -> Result<(), Failure> {
    let list = lists::volume(bytes)?;
    write_out(show(&list).as_bytes())?;
    Ok(list.check()?)
}

/// Whether `--hex` is there, and the files; the last is the standard input where it is left out.
fn files<'a, const N: usize>(words: &[&'a str]) -> Result<(bool, [&'a str; N]), Failure> {
    let hex = words.contains(&"--hex");
    let mut files: Vec<&str> = words.iter().copied().filter(|&w| w != "--hex").collect();
    if files.len() + 1 == N {
        files.push("-");
    }
    let dashes = files.iter().filter(|&&file| file == "-").count();
    let unknown = files.iter().any(|file| file.starts_with("--"));
    match files.try_into() {
        Ok(files) if dashes < 2 && !unknown => Ok((hex, files)),
        _ => Err(Failure::Usage(USAGE)),
    }
}

/// The files of a command that writes text anyway.
fn only_files<'a, const N: usize>(words: &[&'a str]) -> Result<[&'a str; N], Failure> {
    match files(words)? {
        (false, files) => Ok(files),
        (true, _) => Err(Failure::Usage(USAGE)),
    }
}

/// The buckets that words name.
fn numbers(words: &[&str]) -> Result<Vec<Bucket>, Failure> {
    let number = |word: &&str| word.parse().map(Bucket);
    let numbers: Result<_, _> = words.iter().map(number).collect();
    numbers.map_err(|_| Failure::Usage(USAGE))
}

/// Write a list, in bytes or in hexadecimal text.
fn write_list(list: &[u8], hex: bool) -> Result<(), Failure> {
    if hex {
        return write_out(input::hex_text(list).as_bytes());
    }
    write_out(list)
}

/// Write to the standard output.
fn write_out(bytes: &[u8]) -> Result<(), Failure> {
    let mut out = io::stdout().lock();
    let written = out.write_all(bytes).and_then(|()| out.flush());
    written.map_err(|error| Failure::File("standard output".into(), error))
}
