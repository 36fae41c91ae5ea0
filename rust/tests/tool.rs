//! The program `zerglaz`: what it writes and how it ends, on files and the standard input.

#[path = "../../tests/bucketlines/src/lines.rs"]
#[allow(dead_code)]
mod lines;

use lists::order::{doubled, shuffled, without_requests};
use lists::rng::Rng;
use lists::sort::sorted_form;
use lists::vectors::{applies, calls};
use std::fs::File;
use std::io::Write;
use std::path::PathBuf;
use std::process::{Command, Output, Stdio};
use zerglaz::{FileSector, Format, Piece, Volume};

/// Run the program with words and bytes on its standard input.
fn run(words: &[&str], input: &[u8]) -> Output {
    let mut command = Command::new(env!("CARGO_BIN_EXE_zerglaz"));
    command.args(words).stdin(Stdio::piped());
    command.stdout(Stdio::piped()).stderr(Stdio::piped());
    let mut program = command.spawn().expect("the program starts");
    let mut stdin = program.stdin.take().expect("a pipe");
    // A program that ends at its words reads nothing.
    let written = stdin.write_all(input);
    assert!(written.is_ok() || !words.is_empty());
    drop(stdin);
    program.wait_with_output().expect("the program ends")
}

/// What it writes where it ends well, and says nothing else.
fn written(words: &[&str], input: &[u8]) -> Vec<u8> {
    let output = run(words, input);
    let told = String::from_utf8_lossy(&output.stderr);
    assert!(
        output.status.success() && told.is_empty(),
        "{words:?}: {told}"
    );
    output.stdout
}

/// The text that it writes.
fn text(words: &[&str], input: &[u8]) -> String {
    String::from_utf8(written(words, input)).expect("text")
}

/// How it fails: the exit status, and what it tells. Nothing is written.
fn failure(words: &[&str], input: &[u8]) -> (i32, String) {
    let output = run(words, input);
    assert!(output.stdout.is_empty(), "{words:?}");
    let told = String::from_utf8(output.stderr).expect("text");
    (output.status.code().expect("a status"), told)
}

/// A file for a test, with these bytes.
fn file(name: &str, bytes: &[u8]) -> String {
    let path = PathBuf::from(env!("CARGO_TARGET_TMPDIR")).join(name);
    std::fs::write(&path, bytes).expect("a file of the test");
    path.into_os_string().into_string().expect("a plain name")
}

/// A file of the repository.
fn in_repository(path: &str) -> String {
    format!("{}/../{path}", env!("CARGO_MANIFEST_DIR"))
}

/// The text of a file of vectors.
fn vectors(name: &str) -> String {
    let path = in_repository(&format!("vectors/{name}.txt"));
    std::fs::read_to_string(&path).expect(name)
}

/// A volume with two buckets in use, one waiting, and 37 free.
fn volume() -> Volume {
    let mut volume = Volume::format(&Format::new(128, 40)).expect("a clean volume");
    let pieces = [128, 128, 40].map(|n| Piece::plain(n, 7));
    let saved = volume.save(9, FileSector(0), &pieces).expect("room");
    volume.delete(&saved[1..2]).expect("a live piece");
    volume
}

/// The lines of stored answers, made apart from the program.
#[test]
fn lines_of_answers() {
    for name in ["place", "release", "discard"] {
        let accepted = calls(&vectors(name)).into_iter().filter(|v| v.number == 0);
        for v in accepted.step_by(5) {
            assert_eq!(
                text(&["lines"], &v.answer),
                lines::accepted(&v.answer),
                "{}",
                v.id
            );
        }
    }
    assert_eq!(text(&["lines", "-"], &[]), "");
    assert_eq!(text(&["lines"], &[76, 0, 0]), "end\n");
}

/// The calls and apply give the stored bytes, from files and from the standard input, in both
/// forms.
#[test]
fn calls_and_applies() {
    for name in ["place", "release", "discard"] {
        let stored = calls(&vectors(name));
        let v = stored
            .iter()
            .find(|v| v.number == 0 && !v.answer.is_empty());
        let v = v.expect("an accepted list");
        assert_eq!(written(&["call"], &v.list), v.answer, "{}", v.id);
        let hex = text(&["call", "--hex"], &v.list);
        assert_eq!(text(&["lines"], hex.as_bytes()), lines::accepted(&v.answer));
    }
    let stored = applies(&vectors("apply"));
    let accepted = stored.iter().filter(|v| v.number == 0).take(9);
    for (at, v) in accepted.enumerate() {
        let volume = file(&format!("volume-{at}"), &v.volume);
        let hex = lists::vectors::hex(&v.change).replace('-', "");
        let change = file(&format!("change-{at}"), hex.as_bytes());
        assert_eq!(
            written(&["apply", &volume, &change], &[]),
            v.next,
            "{}",
            v.id
        );
        assert_eq!(written(&["apply", &volume], &v.change), v.next, "{}", v.id);
        assert_eq!(
            written(&["apply", "-", &change], &v.volume),
            v.next,
            "{}",
            v.id
        );
    }
}

/// Lists and volumes in any order: the calls and apply give the stored bytes, sort the sorted form, and a
/// volume is shown as it is in order.
#[test]
fn any_order() {
    let mut rng = Rng::new(22);
    for name in ["place", "release", "discard"] {
        let accepted = calls(&vectors(name)).into_iter().filter(|v| v.number == 0);
        for v in accepted.step_by(25) {
            let other = shuffled(&mut rng, &v.list);
            assert_eq!(written(&["call"], &other), v.answer, "{}", v.id);
            let sorted = sorted_form(&v.list).expect("whole fields");
            assert_eq!(written(&["sort"], &other), sorted, "{}", v.id);
            let hex = text(&["sort", "--hex"], &other);
            assert_eq!(written(&["sort"], hex.as_bytes()), sorted, "{}", v.id);
            let list = file(&format!("list-{}", v.id), &other);
            let next = written(&["apply", &list], &v.answer);
            let due = lists::apply::apply(&without_requests(&v.list), &v.answer, usize::MAX);
            assert_eq!((0, next), due, "{}", v.id);
        }
    }
    let volume = volume().into_bytes();
    let other = shuffled(&mut rng, &volume);
    for command in ["show", "draw"] {
        assert_eq!(text(&[command], &other), text(&[command], &volume));
    }
}

/// The examples are hexadecimal text; a call list's requests are left out where a volume is asked
/// for.
#[test]
fn examples() {
    let example = in_repository("examples/1-place.hex");
    let change = written(&["call", &example], &[]);
    let next = written(&["apply", &example], &change);
    let volume = Volume::open(&next).expect("a volume");
    assert_eq!((volume.usage().in_use, volume.live().count()), (2, 2));
    let table = text(&["show", &example], &[]);
    assert!(table.contains("40 free (32 kept back)"), "{table}");
}

/// The table of a volume.
#[test]
fn table() {
    let mut clean = Format::new(128, 40);
    clean.reserved = vec![zerglaz::Bucket(50)];
    let clean = Volume::format(&clean).expect("a clean volume");
    let due = "\
buckets of 128 sectors, blocks of 1, checksum option 1, journal number 1
40 free (32 kept back), 0 in use, 0 waiting (0 retired), 1 reserved
live pieces: 0

buckets   state        sectors  full  generation  pieces
0 to 39   free
40 to 49  not offered
50        reserved
";
    assert_eq!(text(&["show"], clean.bytes()), due);
    let due = "\
buckets of 128 sectors, blocks of 1, checksum option 1, journal number 3
37 free (32 kept back), 2 in use, 1 waiting (0 retired), 0 reserved
live pieces: 2

buckets  state    sectors  full  generation  pieces
0        in use   128      100%  0           1
1        waiting                 1
2        in use   40       31%   0           1
3 to 39  free
";
    assert_eq!(text(&["show"], volume().bytes()), due);
}

/// The picture of a volume.
#[test]
fn picture() {
    let svg = text(&["draw"], volume().bytes());
    assert!(svg.starts_with("<svg xmlns=") && svg.ends_with("</svg>\n"));
    assert!(svg.contains("40 buckets of 128 sectors, 2 live pieces"));
}

/// The generations of buckets, a line each, and how many keys were visited: of a file, of the standard
/// input in any order, and of a call list's volume.
#[test]
fn generations() {
    let bytes = volume().into_bytes();
    let file = file("volume-of-generations", &bytes);
    let due = "\
bucket 0 generation 0
bucket 1 generation 1
bucket 65535 generation 0
visited 1
";
    let asked = |volume| text(&["generations", volume, "0", "1", "65535"], &bytes);
    assert_eq!((asked(&file), asked("-")), (due.into(), due.into()));
    let other = shuffled(&mut Rng::new(6), &bytes);
    let words = ["generations", "-", "0", "1", "65535"];
    assert_eq!(text(&words, &other), due);
    assert_eq!(text(&["generations", &file], &[]), "visited 0\n");
    let example = in_repository("examples/1-place.hex");
    let told = text(&["generations", &example, "3"], &[]);
    assert_eq!(told, "bucket 3 generation 0\nvisited 0\n");
}

/// A volume that no history reaches is shown, and the status tells.
#[test]
fn faults() {
    let mut list = zerglaz::CallList::read(volume().bytes()).expect("a volume");
    list.insert_run(zerglaz::Bucket(1)..zerglaz::Bucket(2));
    list.unreserve(zerglaz::Bucket(1));
    for command in ["show", "draw"] {
        let output = run(&[command], &list.to_bytes());
        assert_eq!(output.status.code(), Some(1));
        let shown = String::from_utf8_lossy(&output.stdout);
        assert!(shown.contains("in two states"), "{shown}");
        let told = String::from_utf8_lossy(&output.stderr);
        assert!(
            told.contains("bucket 1 is not in exactly one state"),
            "{told}"
        );
    }
}

/// Refusals and broken lists: status 1.
#[test]
fn refusals() {
    let too_much = in_repository("examples/6-place-too-much.hex");
    let told = "zerglaz: refused 11: too few buckets are free\n";
    assert_eq!(failure(&["call", &too_much], &[]), (1, told.into()));
    let change = [76, 0, 1];
    let bytes = volume().into_bytes();
    let volume = file("volume-of-refusals", &bytes);
    let told = "zerglaz: refused 2: a list breaks its layout or is another call's, or buckets do not ascend\n";
    assert_eq!(failure(&["apply", &volume], &change), (1, told.into()));
    assert_eq!(failure(&["call"], &change), (1, told.into()));
    for command in ["show", "draw", "sort"] {
        assert_eq!(failure(&[command], &change), (1, told.into()));
    }
    let generations = |words: &[&str], input| failure(&[&["generations"], words].concat(), input);
    assert_eq!(generations(&["-", "0"], &change), (1, told.into()));
    assert_eq!(generations(&[&volume, "7", "7"], &[]), (1, told.into()));
    let past = "zerglaz: refused 3: a limit is passed\n";
    assert_eq!(generations(&[&volume, "65536"], &[]), (1, past.into()));
    let twice = doubled(&mut Rng::new(1), &bytes);
    let told = "zerglaz: refused 22: a position of a tree or a reserved bucket stands twice\n";
    for command in ["call", "show", "draw", "sort"] {
        assert_eq!(failure(&[command], &twice), (1, told.into()));
    }
    assert_eq!(generations(&["-", "0"], &twice), (1, told.into()));
    assert_eq!(
        failure(&["apply", &file("twice", &twice)], &[]),
        (1, told.into())
    );
    let told = "zerglaz: the list breaks its layout\n";
    assert_eq!(failure(&["lines"], &change), (1, told.into()));
    let told = "zerglaz: line 2 is no hexadecimal text\n";
    assert_eq!(failure(&["lines"], b"4c 00 00\nxy"), (1, told.into()));
}

/// Other words than the commands: status 2, with what the program takes.
#[test]
fn usage() {
    let wrong: [&[&str]; 15] = [
        &[],
        &["list"],
        &["lines", "a", "b"],
        &["lines", "--hex"],
        &["show", "--color"],
        &["apply"],
        &["apply", "-", "-"],
        &["call", "a", "b"],
        &["sort", "a", "b"],
        &["generations"],
        &["generations", "--hex", "1"],
        &["generations", "-", "--hex"],
        &["generations", "-", "one"],
        &["generations", "-", "4294967296"],
        &["--help", "me"],
    ];
    for words in wrong {
        let (status, told) = failure(words, &[]);
        assert!(
            status == 2 && told.contains("usage: zerglaz COMMAND"),
            "{words:?}"
        );
    }
    assert!(text(&["--help"], &[]).starts_with("usage: zerglaz COMMAND"));
    let version = format!("zerglaz {}\n", env!("CARGO_PKG_VERSION"));
    assert_eq!(text(&["--version"], &[]), version);
}

/// A file that is not there, and an output that takes nothing: status 3.
#[test]
fn failed_reads_and_writes() {
    let missing = format!("{}/no-such-file", env!("CARGO_TARGET_TMPDIR"));
    let (status, told) = failure(&["lines", &missing], &[]);
    assert!(status == 3 && told.contains("no-such-file"), "{told}");
    let folder = env!("CARGO_TARGET_TMPDIR");
    assert_eq!(failure(&["show", folder], &[]).0, 3);
    let Ok(full) = File::options().write(true).open("/dev/full") else {
        println!("there is no device that is always full");
        return;
    };
    let mut command = Command::new(env!("CARGO_BIN_EXE_zerglaz"));
    let command = command.arg("--help").stdout(full).stderr(Stdio::piped());
    let output = command.output().expect("the program ends");
    assert_eq!(output.status.code(), Some(3));
    let told = String::from_utf8_lossy(&output.stderr);
    assert!(told.starts_with("zerglaz: standard output: "), "{told}");
}
