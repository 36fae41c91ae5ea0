//! The examples of the folder `examples`: their lists, and what is shown of them.

use bucketlines::examples::{examples, placed_over_another};
use bucketlines::program::{in_repository, printed};
use bucketlines::{due, hex_text};
use std::process::Command;

/// A file of the folder.
fn stored(name: &str) -> String {
    let path = in_repository("examples").join(name);
    std::fs::read_to_string(path).expect(name)
}

/// Each stored list is the one that the builders make, and there is no other.
#[test]
fn lists() {
    let mut names = Vec::new();
    for example in examples() {
        let (name, list) = (format!("{}.hex", example.name), example.list);
        assert_eq!(stored(&name), hex_text::text(example.title, &list));
        assert_eq!(hex_text::bytes(&stored(&name)), list, "{name}");
        names.push(name);
    }
    let folder = std::fs::read_dir(in_repository("examples")).expect("examples");
    let files = folder.map(|file| file.expect("a file").file_name());
    let files = files.map(|name| name.into_string().expect("a plain name"));
    let mut found: Vec<String> = files.filter(|name| name.ends_with(".hex")).collect();
    found.sort();
    assert_eq!(found, names);
}

/// The program prints what is due for each: six are accepted, the others refused 18, 11 and 22; what it
/// prints for the first it prints for the same fields in another order.
#[test]
fn lines() {
    let (mut numbers, mut shown) = (Vec::new(), Vec::new());
    for example in examples() {
        let list = example.list;
        shown.push(printed(&list));
        assert_eq!(shown.last(), Some(&due::lines(&list)), "{}", example.name);
        numbers.push(due::number(&list));
    }
    assert_eq!(numbers, [0, 0, 0, 0, 18, 11, 0, 0, 22]);
    assert_eq!(shown[0], shown[7]);
}

/// What follows example 7: the next placement lies over the piece that no call has released, of 64
/// sectors from device sector 64 on.
#[test]
fn second_release_lays_one_piece_over_another() {
    let list = placed_over_another().to_bytes();
    let lines = printed(&list);
    assert_eq!(lines, due::lines(&list));
    let placed: Vec<&str> = lines.lines().filter(|l| l.starts_with("placed")).collect();
    assert_eq!(placed, ["placed 0 96 0 1"]);
    let numbers = placed[0].split(' ').filter_map(|word| word.parse().ok());
    let numbers: Vec<u64> = numbers.collect();
    let (first, end) = (numbers[0], numbers[0] + numbers[1]);
    assert!(first < 64 + 64 && 64 < end);
}

/// What `examples/run` prints is the stored text.
#[test]
fn shown() {
    let mut run = Command::new("bash");
    let output = run.arg(in_repository("examples/run")).output();
    let output = output.expect("examples/run");
    assert!(output.status.success() && output.stderr.is_empty());
    assert_eq!(String::from_utf8_lossy(&output.stdout), stored("shown.txt"));
}

/// Each line of the program stands in the stored text with its meaning under it; of a value no more
/// than eight words.
#[test]
fn every_line_is_explained() {
    let shown = stored("shown.txt");
    let mut rest = shown.lines();
    for example in examples() {
        let heading = format!("== {}.hex: {}", example.name, example.title);
        assert_eq!(rest.next(), Some(&heading[..]));
        for line in printed(&example.list).lines() {
            let words: Vec<&str> = line.split(' ').take(13).collect();
            assert!(rest.next().is_some_and(|l| l.starts_with(&words.join(" "))));
            let meaning = rest.next().expect("a meaning");
            assert!(meaning.starts_with("    ") && meaning.len() > 12, "{line}");
        }
        assert_eq!(rest.next(), Some(""));
    }
    assert_eq!(rest.next(), None);
}
