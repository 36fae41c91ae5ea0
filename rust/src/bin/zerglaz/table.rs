//! A table of a volume's buckets.

use zerglaz::{Bucket, CallListRef, State, Status, Usage};

/// The heads of the columns.
const COLUMNS: [&str; 6] = [
    "buckets",
    "state",
    "sectors",
    "full",
    "generation",
    "pieces",
];

/// A row: the buckets it is of, and its other cells.
struct Row {
    first: Bucket,
    last: Bucket,
    cells: [String; 5],
}

/// The table of a volume: what is said of all, then a row for each bucket, or for neighbours of
/// which the same is said.
pub fn table(list: &CallListRef) -> String {
    let bucket_sectors = list.head().bucket_sectors;
    let mut rows: Vec<Row> = Vec::new();
    for (bucket, status) in list.buckets().iter() {
        let cells = cells(status, bucket_sectors);
        match rows.last_mut() {
            Some(row) if row.cells == cells => row.last = bucket,
            _ => rows.push(Row {
                first: bucket,
                last: bucket,
                cells,
            }),
        }
    }
    let mut lines = vec![COLUMNS.map(str::to_string)];
    lines.extend(rows.into_iter().map(texts));
    summary(list) + "\n" + &aligned(&lines)
}

/// What is said of the whole volume.
fn summary(list: &CallListRef) -> String {
    let head = list.head();
    let Usage {
        free,
        kept_back,
        in_use,
        waiting,
        retired,
        reserved,
    } = list.usage();
    format!(
        "buckets of {} sectors, blocks of {}, checksum option {}, journal number {}\n\
         {free} free ({kept_back} kept back), {in_use} in use, {waiting} waiting ({retired} retired), \
         {reserved} reserved\n\
         live pieces: {}\n",
        head.bucket_sectors,
        head.block_sectors,
        head.checksum_option,
        head.journal,
        list.live().count(),
    )
}

/// The cells of a bucket beside its number.
fn cells(status: &Status, bucket_sectors: u16) -> [String; 5] {
    let state = match status.state() {
        Some(State::Free) => "free",
        Some(State::InUse) => "in use",
        Some(State::Waiting) if status.is_retired() => "retired",
        Some(State::Waiting) => "waiting",
        Some(State::Reserved) => "reserved",
        Some(State::Outside) => "not offered",
        None => "in two states",
    };
    let generation = status.alloc.map(|alloc| alloc.generation.to_string());
    let mut cells: [String; 5] = Default::default();
    cells[0] = state.to_string();
    cells[3] = generation.unwrap_or_default();
    if status.is_in_use() {
        let full = status.live_sectors * 100 / u64::from(bucket_sectors).max(1);
        cells[1] = status.live_sectors.to_string();
        cells[2] = format!("{full}%");
        cells[4] = status.pieces.to_string();
    }
    cells
}

/// The texts of a row.
fn texts(row: Row) -> [String; 6] {
    let buckets = if row.first == row.last {
        row.first.0.to_string()
    } else {
        format!("{} to {}", row.first.0, row.last.0)
    };
    let [state, sectors, full, generation, pieces] = row.cells;
    [buckets, state, sectors, full, generation, pieces]
}

/// Lines whose columns stand under each other, with no blanks at their ends.
fn aligned(lines: &[[String; 6]]) -> String {
    let width = |column: usize| lines.iter().map(|line| line[column].len()).max();
    let widths: Vec<usize> = (0..6).map(|column| width(column).unwrap_or(0)).collect();
    let padded = |line: &[String; 6]| {
        let cells = line.iter().zip(&widths);
        let cells: Vec<String> = cells.map(|(cell, &w)| format!("{cell:w$}")).collect();
        cells.join("  ").trim_end().to_string() + "\n"
    };
    lines.iter().map(padded).collect()
}
