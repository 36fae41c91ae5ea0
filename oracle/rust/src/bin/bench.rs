//! bench CHART [SECONDS]: place, release and discard beside the Rust's own functions, and apply beside
//! a copy of its volume. Each pair is first held to the same bytes. The works of a row are timed in
//! turn for SECONDS (else 3); prints tables as Markdown and writes the chart to the file CHART. Where
//! valgrind is found, the instructions of one call are counted too: it runs `bench once ROW SIDE`.

use lists::call_list::{DISCARD, PLACE, RELEASE};
use lists::timed::{self, Volume};
use oracle::chart::{chart, Bar, Group};
use oracle::compare::accepted;
use oracle::{run, Outcome, Ready};
use std::hint::black_box;
use std::process::{Command, ExitCode};
use std::time::{Duration, Instant};
use zerglaz::SUMS;

/// The rows, and those of them that are no applies.
const ROWS: usize = 18;
const CALL_ROWS: usize = 12;
/// Repetitions of a row: at least, and at most.
const LEAST: usize = 101;
const MOST: usize = 20_001;
/// Bytes of a page.
const PAGE: usize = 4_096;
/// The most bytes that an answer has here.
const ROOM: usize = 1 << 23;
/// The calls, by name.
const CALLS: [(u8, &str); 3] = [(PLACE, "place"), (RELEASE, "release"), (DISCARD, "discard")];
/// How many keys of a full volume an apply replaces.
const REPLACED: [(usize, &str); 3] = [(1, "1 key"), (64, "64 keys"), (1_024, "1,024 keys")];
/// The kinds of bars, by name and colour.
const KINDS: [(&str, &str); 4] = [
    ("Zerglaz", "#1f6fb2"),
    ("the Rust (release: and the clearing)", "#d9822b"),
    ("the Rust's functions alone", "#f0c48a"),
    ("copy of the volume's bytes", "#9a9a9a"),
];

/// What a row does.
enum Work {
    Call { call: u8, list: Vec<u8> },
    Apply { volume: Vec<u8>, change: Vec<u8> },
}

/// A row of a table.
struct Row {
    name: String,
    volume: Volume,
    work: Work,
}

/// What a caller lends.
struct Lent {
    out: Vec<u8>,
    scratch: Vec<u32>,
}

/// Microseconds of repetitions, sorted.
struct Times(Vec<f64>);

/// The times of a row: Zerglaz, the Rust or a copy, the Rust's functions alone, a clearing.
struct Timed {
    row: Row,
    read: usize,
    written: usize,
    times: Vec<Times>,
}

fn main() -> ExitCode {
    let args: Vec<String> = std::env::args().skip(1).collect();
    let words: Vec<&str> = args.iter().map(String::as_str).collect();
    match words.as_slice() {
        ["once", row, side] => once(row, side),
        [file] => bench(file, 3.0),
        [file, seconds] => bench(file, seconds.parse().unwrap_or(3.0)),
        _ => {
            eprintln!("bench CHART [SECONDS]");
            return ExitCode::FAILURE;
        }
    }
    ExitCode::SUCCESS
}

/// Time every row, print the tables and write the chart.
fn bench(file: &str, seconds: f64) {
    let rows: Vec<Timed> = (0..ROWS).map(|i| time(row(i), seconds)).collect();
    let (calls, applies) = rows.split_at(CALL_ROWS);
    println!("{}", machine());
    println!();
    print_calls(calls);
    println!();
    print_applies(applies);
    println!();
    print_counts(&rows);
    let groups: Vec<Group> = rows.iter().map(Timed::group).collect();
    let drawn = chart("Median time of a call", &KINDS, &groups);
    std::fs::write(file, drawn).expect("the chart is written");
}

/// The row with a number: 12 calls, then 6 applies.
fn row(number: usize) -> Row {
    match number.checked_sub(CALL_ROWS) {
        None => call_row(number),
        Some(apply) => apply_row(apply),
    }
}

/// A call on a bare or full volume, with one or 1,024 requests.
fn call_row(number: usize) -> Row {
    let (call, name) = CALLS[number / 4];
    let volume = [Volume::Bare, Volume::Full][number / 2 % 2];
    let (count, many) = [(1, "1"), (1_024, "1,024")][number % 2];
    let list = timed::list(call, volume, count).bytes();
    Row {
        name: format!("{name} {many}"),
        volume,
        work: Work::Call { call, list },
    }
}

/// An apply on a full volume, or of what a call of 1,024 wrote on its own bare volume.
fn apply_row(number: usize) -> Row {
    match number.checked_sub(REPLACED.len()) {
        None => replaced_row(number),
        Some(call) => followed_row(call),
    }
}

/// An apply of what a call of 1,024 on a bare volume wrote.
fn followed_row(number: usize) -> Row {
    let (call, name) = CALLS[number];
    let list = timed::list(call, Volume::Bare, 1_024);
    Row {
        name: format!("apply what {name} 1,024 wrote"),
        volume: Volume::Bare,
        work: Work::Apply {
            volume: list.volume().bytes(),
            change: rust(&list.bytes()),
        },
    }
}

/// An apply that replaces keys of a full volume.
fn replaced_row(number: usize) -> Row {
    let (count, many) = REPLACED[number];
    let volume = timed::volume();
    let change = timed::change(&volume, count);
    let volume = volume.bytes();
    Row {
        name: format!("apply {many}"),
        volume: Volume::Full,
        work: Work::Apply { volume, change },
    }
}

impl Work {
    /// Zerglaz's answer into what is lent: its length.
    fn zerglaz(&self, lent: &mut Lent) -> usize {
        let Lent { out, scratch } = lent;
        let answered = match self {
            Work::Apply { volume, change } => {
                zerglaz::apply(black_box(volume), black_box(change), out)
            }
            Work::Call { call, list } => match *call {
                PLACE => zerglaz::place(black_box(list), out),
                RELEASE => zerglaz::release(black_box(list), scratch, out),
                _ => zerglaz::discard(black_box(list), out),
            },
        };
        answered.expect("it is accepted")
    }

    /// The answer that is due: the Rust's, or the model's apply.
    fn due(&self) -> Vec<u8> {
        match self {
            Work::Call { list, .. } => {
                accepted(list, &run(list)).expect("the Rust accepts the list")
            }
            Work::Apply { volume, change } => lists::apply::apply(volume, change, usize::MAX).1,
        }
    }

    /// The bytes that are read: the call list, or the volume and the change list.
    fn read(&self) -> usize {
        match self {
            Work::Call { list, .. } => list.len(),
            Work::Apply { volume, change } => volume.len() + change.len(),
        }
    }
}

impl Lent {
    /// An output of `ROOM` bytes and a scratch of 65,536 sums.
    fn new() -> Lent {
        Lent {
            out: vec![1; ROOM],
            scratch: vec![1; SUMS],
        }
    }
}

/// The Rust's answer to a list.
fn rust(list: &[u8]) -> Vec<u8> {
    match run(black_box(list)) {
        Outcome::Accepted(answer) => answer,
        other => panic!("the Rust gives {other:?}"),
    }
}

/// Hold a row to the answer that is due, then time its works in turn.
fn time(row: Row, seconds: f64) -> Timed {
    let mut lent = Lent::new();
    let due = row.work.due();
    let written = row.work.zerglaz(&mut lent);
    assert!(written > 0, "{}: an answer has bytes", row.name);
    assert_eq!(lent.out[..written], due, "{}: the bytes differ", row.name);
    let mut sums = vec![1; SUMS];
    let mut zerglaz = || clock(|| row.work.zerglaz(&mut lent));
    let mut clearing = || {
        clock(|| {
            black_box(&mut sums).fill(0u32);
            black_box(&mut sums);
        })
    };
    let times = match &row.work {
        Work::Call { call, list } => {
            let mut beside = || clock(|| rust(list));
            let mut alone = || alone(list);
            let mut works: Vec<&mut dyn FnMut() -> Duration> =
                vec![&mut zerglaz, &mut beside, &mut alone];
            if *call == RELEASE {
                works.push(&mut clearing);
            }
            interleave(seconds, &mut works)
        }
        Work::Apply { volume, .. } => {
            let mut copy = copying(volume);
            interleave(seconds, &mut [&mut zerglaz, &mut copy])
        }
    };
    Timed {
        read: row.work.read(),
        written,
        row,
        times,
    }
}

/// How long a work takes; what it gives is dropped after.
fn clock<T>(work: impl FnOnce() -> T) -> Duration {
    let start = Instant::now();
    let made = black_box(work());
    let taken = start.elapsed();
    drop(made);
    taken
}

/// The Rust's function alone: the list is read before, and no bytes are written.
fn alone(list: &[u8]) -> Duration {
    let mut ready = Ready::read(list).expect("it is read");
    clock(|| ready.batches().expect("it is accepted"))
}

/// A copy of bytes. It lands half a page off its source's place in a page: at a distance of a few
/// bytes a copy can take many times as long.
fn copying(bytes: &[u8]) -> impl FnMut() -> Duration + '_ {
    let mut room = vec![1; bytes.len() + PAGE];
    let wanted = bytes.as_ptr() as usize + PAGE / 2;
    let pad = wanted.wrapping_sub(room.as_ptr() as usize) % PAGE;
    move || {
        let to = &mut room[pad..pad + bytes.len()];
        clock(|| {
            to.copy_from_slice(black_box(bytes));
            black_box(&mut *to);
        })
    }
}

/// Do the works in turn, every second time from the last to the first.
fn interleave(seconds: f64, works: &mut [&mut dyn FnMut() -> Duration]) -> Vec<Times> {
    let start = Instant::now();
    let mut times: Vec<Vec<f64>> = vec![Vec::new(); works.len()];
    for repetition in 0..MOST {
        if repetition >= LEAST && start.elapsed().as_secs_f64() > seconds {
            break;
        }
        for at in 0..works.len() {
            let i = match repetition % 2 {
                0 => at,
                _ => works.len() - 1 - at,
            };
            times[i].push(works[i]().as_secs_f64() * 1e6);
        }
    }
    for row in &mut times {
        row.sort_by(f64::total_cmp);
    }
    times.into_iter().map(Times).collect()
}

impl Times {
    /// The time below which so many tenths lie.
    fn tenths(&self, tenths: usize) -> f64 {
        self.0[self.0.len() * tenths / 10]
    }

    /// The median.
    fn median(&self) -> f64 {
        self.tenths(5)
    }

    /// Median and spread as two cells.
    fn cells(&self) -> String {
        let (low, mid, high) = (self.tenths(1), self.median(), self.tenths(9));
        format!("{mid:.1} | {low:.1} to {high:.1}")
    }

    /// The bar of this kind, `more` microseconds longer.
    fn bar(&self, kind: usize, more: f64) -> Bar {
        Bar {
            kind,
            low: self.tenths(1) + more,
            mid: self.median() + more,
            high: self.tenths(9) + more,
        }
    }
}

impl Timed {
    /// The median of a clearing, which only a release has.
    fn clearing(&self) -> Option<f64> {
        self.times.get(3).map(Times::median)
    }

    /// How many times as fast Zerglaz is as the Rust, with the clearing.
    fn gain(&self) -> f64 {
        (self.times[1].median() + self.clearing().unwrap_or(0.0)) / self.times[0].median()
    }

    /// The aim of this row.
    fn aim(&self) -> f64 {
        match self.row.volume {
            Volume::Bare => 1.0,
            Volume::Full => 2.0,
        }
    }

    /// The row's bars.
    fn group(&self) -> Group {
        let beside = match self.row.work {
            Work::Call { .. } => 1,
            Work::Apply { .. } => 3,
        };
        let more = self.clearing().unwrap_or(0.0);
        let mut bars = vec![self.times[0].bar(0, 0.0), self.times[1].bar(beside, more)];
        bars.extend(self.times.get(2).map(|t| t.bar(2, 0.0)));
        Group {
            name: format!("{}, {}", self.row.name, volume_name(self.row.volume)),
            bars,
        }
    }
}

/// A volume in words.
fn volume_name(volume: Volume) -> &'static str {
    match volume {
        Volume::Bare => "bare volume",
        Volume::Full => "at the limits",
    }
}

/// The table of the three calls.
fn print_calls(rows: &[Timed]) {
    println!("| call | volume | bytes read | written | Zerglaz µs | a tenth to nine tenths | the Rust µs | a tenth to nine tenths | its functions alone µs | clearing µs | times as fast | aim | met |");
    println!("|---|---|---|---|---|---|---|---|---|---|---|---|---|");
    for t in rows {
        let cleared = t.clearing().map_or(String::new(), |c| format!("{c:.1}"));
        println!(
            "| {} | {} | {} | {} | {} | {} | {:.1} | {cleared} | {:.2} | {} | {} |",
            t.row.name,
            volume_name(t.row.volume),
            t.read,
            t.written,
            t.times[0].cells(),
            t.times[1].cells(),
            t.times[2].median(),
            t.gain(),
            t.aim(),
            if t.gain() >= t.aim() { "yes" } else { "no" },
        );
    }
}

/// The table of apply.
fn print_applies(rows: &[Timed]) {
    println!("| call | bytes read | written | Zerglaz µs | a tenth to nine tenths | copy µs | a tenth to nine tenths | copies |");
    println!("|---|---|---|---|---|---|---|---|");
    for t in rows {
        println!(
            "| {} | {} | {} | {} | {} | {:.1} |",
            t.row.name,
            t.read,
            t.written,
            t.times[0].cells(),
            t.times[1].cells(),
            1.0 / t.gain(),
        );
    }
}

/// The table of instructions, where valgrind is found.
fn print_counts(rows: &[Timed]) {
    if count(0, "zerglaz").is_none() {
        println!("No instructions are counted: valgrind is not found or gives no number.");
        return;
    }
    println!("| call | volume | Zerglaz, thousands of instructions | the Rust | times as few |");
    println!("|---|---|---|---|---|");
    for (i, t) in rows.iter().enumerate() {
        let made = count(i, "zerglaz").unwrap_or(0) as f64 / 1e3;
        let volume = volume_name(t.row.volume);
        let beside = match t.row.work {
            Work::Call { .. } => count(i, "rust").unwrap_or(0) as f64 / 1e3,
            Work::Apply { .. } => {
                println!("| {} | {volume} | {made:.1} | | |", t.row.name);
                continue;
            }
        };
        let few = beside / made;
        println!(
            "| {} | {volume} | {made:.1} | {beside:.1} | {few:.2} |",
            t.row.name
        );
    }
}

/// The instructions of one call of a row's side, by valgrind.
fn count(row: usize, side: &str) -> Option<u64> {
    let program = std::env::current_exe().ok()?;
    let made = Command::new("valgrind")
        .args([
            "--tool=callgrind",
            "--callgrind-out-file=/dev/null",
            "--toggle-collect=bench::counted*",
        ])
        .arg(program)
        .args(["once", &row.to_string(), side])
        .output()
        .ok()?;
    let text = String::from_utf8(made.stderr).ok()?;
    let line = text.lines().find(|l| l.contains("Collected :"))?;
    let number = line.rsplit(' ').next()?.parse().ok()?;
    (number > 0).then_some(number)
}

/// Make one call of a row's side twice, of which the second is counted.
fn once(number: &str, side: &str) {
    let work = &self::row(number.parse().expect("a row's number")).work;
    let mut lent = Lent::new();
    let mut made = || match (side, work) {
        ("rust", Work::Call { list, .. }) => rust(list).len(),
        _ => work.zerglaz(&mut lent),
    };
    let length = made();
    assert_eq!(counted(&mut made), length);
}

/// Where instructions are counted.
#[inline(never)]
fn counted(work: &mut dyn FnMut() -> usize) -> usize {
    black_box(work())
}

/// The processor, its cores and how busy they are.
fn machine() -> String {
    let info = std::fs::read_to_string("/proc/cpuinfo").unwrap_or_default();
    let values = |name: &'static str| {
        info.lines()
            .filter(move |l| l.starts_with(name))
            .filter_map(|l| l.split(':').nth(1))
    };
    let model = values("model name").next().unwrap_or("not known").trim();
    let cores = values("processor").count();
    let load = std::fs::read_to_string("/proc/loadavg").unwrap_or_default();
    let load = load.split(' ').next().unwrap_or("");
    format!("{model}, cores: {cores}, load after the timing: {load}")
}
