//! A picture of a volume: a cell for each bucket, in rows from the lowest on.

use std::fmt::Write;
use zerglaz::{Bucket, CallListRef, State, Status};

/// What a cell may show, each with its colour and its words.
const SHADES: [(&str, &str); 10] = [
    ("#d9ead3", "free"),
    ("#c6dcf0", "in use, up to a quarter"),
    ("#89b8e0", "in use, up to a half"),
    ("#4a8cc7", "in use, up to three quarters"),
    ("#1d5a96", "in use, more"),
    ("#f2b134", "waiting for their discard"),
    ("#a8672a", "retired"),
    ("#b5b5b5", "reserved"),
    ("#f3f3f3", "not offered"),
    ("#d62828", "in two states"),
];

/// Where each shade stands.
const FREE: usize = 0;
const IN_USE: usize = 1;
const WAITING: usize = 5;
const RETIRED: usize = 6;
const RESERVED: usize = 7;
const OUTSIDE: usize = 8;
const TWO_STATES: usize = 9;

/// The grid's corner, and the width of the list of shades beside it.
const LEFT: usize = 64;
const TOP: usize = 64;
const LEGEND: usize = 300;
/// From one line of the list of shades to the next.
const LINE: usize = 24;

/// The cells' places.
struct Grid {
    columns: usize,
    rows: usize,
    cell: usize,
}

impl Grid {
    /// A grid for so many buckets, wider than high, with cells that can be told apart.
    fn of(buckets: usize) -> Grid {
        let columns = (2 * buckets).isqrt().next_power_of_two().clamp(8, 256);
        Grid {
            columns,
            rows: buckets.div_ceil(columns).max(1),
            cell: (768 / columns).clamp(4, 24),
        }
    }

    /// How wide the cells are together.
    fn width(&self) -> usize {
        self.columns * self.cell
    }

    /// How high the cells are together.
    fn height(&self) -> usize {
        self.rows * self.cell
    }
}

/// The picture as SVG.
pub fn picture(list: &CallListRef) -> String {
    let bucket_sectors = list.head().bucket_sectors;
    let shade_of = |(_, status): (Bucket, &Status)| shade(status, bucket_sectors);
    let shades: Vec<usize> = list.buckets().iter().map(shade_of).collect();
    let grid = Grid::of(shades.len());
    let title = title(list, shades.len());
    let mut svg = opening(&grid, &title);
    svg += &heading(&title, &note(list, &grid));
    svg += &cells(&grid, &shades);
    svg += &row_numbers(&grid);
    svg += &legend(&grid, &shades);
    svg + "</svg>\n"
}

/// The shade of a bucket.
fn shade(status: &Status, bucket_sectors: u16) -> usize {
    match status.state() {
        Some(State::Free) => FREE,
        Some(State::InUse) => {
            let quarters = (status.live_sectors * 4).div_ceil(u64::from(bucket_sectors).max(1));
            IN_USE + quarters.clamp(1, 4) as usize - 1
        }
        Some(State::Waiting) if status.is_retired() => RETIRED,
        Some(State::Waiting) => WAITING,
        Some(State::Reserved) => RESERVED,
        Some(State::Outside) => OUTSIDE,
        None => TWO_STATES,
    }
}

/// What the picture is of.
fn title(list: &CallListRef, buckets: usize) -> String {
    let sectors = grouped(list.head().bucket_sectors.into());
    let (buckets, pieces) = (grouped(buckets), list.live().count());
    let noun = if pieces == 1 { "piece" } else { "pieces" };
    let pieces = grouped(pieces);
    format!("{buckets} buckets of {sectors} sectors, {pieces} live {noun}")
}

/// A number with its thousands apart.
fn grouped(number: usize) -> String {
    let digits = number.to_string();
    let mut text = String::new();
    for (at, digit) in digits.char_indices() {
        if at > 0 && (digits.len() - at) % 3 == 0 {
            text.push(',');
        }
        text.push(digit);
    }
    text
}

/// What else is said of the volume.
fn note(list: &CallListRef, grid: &Grid) -> String {
    let kept = grouped(list.usage().kept_back as usize);
    let columns = grid.columns;
    format!("a row has {columns} buckets; of the free ones {kept} are kept back")
}

/// The picture's opening: its size, its title for programs that read aloud, its background.
fn opening(grid: &Grid, title: &str) -> String {
    let legend_height = SHADES.len() * LINE;
    let width = LEFT + grid.width() + LEGEND;
    let height = TOP + grid.height().max(legend_height) + 24;
    format!(
        "<svg xmlns=\"http://www.w3.org/2000/svg\" role=\"img\" width=\"{width}\" height=\"{height}\" \
         viewBox=\"0 0 {width} {height}\" font-family=\"sans-serif\" fill=\"#222\">\n\
         <title>{title}</title>\n\
         <rect width=\"{width}\" height=\"{height}\" fill=\"#fff\"/>\n"
    )
}

/// The title and the note.
fn heading(title: &str, note: &str) -> String {
    format!(
        "<text x=\"{LEFT}\" y=\"28\" font-size=\"18\">{title}</text>\n\
         <text x=\"{LEFT}\" y=\"48\" font-size=\"12\" fill=\"#666\">{note}</text>\n"
    )
}

/// The cells: a path for each shade, of stretches within a row, and white lines between the cells.
fn cells(grid: &Grid, shades: &[usize]) -> String {
    let mut paths = vec![String::new(); SHADES.len()];
    for (row, shades) in shades.chunks(grid.columns).enumerate() {
        let mut column = 0;
        for stretch in shades.chunk_by(|a, b| a == b) {
            let (x, y) = (LEFT + column * grid.cell, TOP + row * grid.cell);
            let (width, height) = (stretch.len() * grid.cell, grid.cell);
            let path = &mut paths[stretch[0]];
            write!(path, "M{x} {y}h{width}v{height}h-{width}z").expect("a string takes all");
            column += stretch.len();
        }
    }
    let mut svg = String::new();
    for (path, (colour, _)) in paths.iter().zip(SHADES) {
        if !path.is_empty() {
            svg += &["<path fill=\"", colour, "\" d=\"", path, "\"/>\n"].concat();
        }
    }
    svg + &lines_between(grid)
}

/// The lines between the cells, and one around them all.
fn lines_between(grid: &Grid) -> String {
    let (cell, width, height) = (grid.cell, grid.width(), grid.height());
    let line = if cell < 12 { 0.5 } else { 1.0 };
    format!(
        "<defs><pattern id=\"lines\" x=\"{LEFT}\" y=\"{TOP}\" width=\"{cell}\" height=\"{cell}\" \
         patternUnits=\"userSpaceOnUse\"><path d=\"M0 0H{cell}M0 0V{cell}\" fill=\"none\" \
         stroke=\"#fff\" stroke-width=\"{}\"/></pattern></defs>\n\
         <rect x=\"{LEFT}\" y=\"{TOP}\" width=\"{width}\" height=\"{height}\" fill=\"url(#lines)\"/>\n\
         <rect x=\"{LEFT}\" y=\"{TOP}\" width=\"{width}\" height=\"{height}\" fill=\"none\" stroke=\"#999\"/>\n",
        line * 2.0
    )
}

/// The number of the first bucket beside each row, or beside every few where rows are low.
fn row_numbers(grid: &Grid) -> String {
    let every = 20_usize.div_ceil(grid.cell).next_power_of_two();
    let number = |row: usize| {
        let (x, y) = (LEFT - 8, TOP + row * grid.cell + grid.cell.min(20) / 2 + 4);
        let bucket = grouped(row * grid.columns);
        format!("<text x=\"{x}\" y=\"{y}\">{bucket}</text>\n")
    };
    let numbers: String = (0..grid.rows).step_by(every).map(number).collect();
    format!("<g font-size=\"11\" fill=\"#666\" text-anchor=\"end\">\n{numbers}</g>\n")
}

/// The shades with their words, and how many buckets have each; those in two states only where
/// there are any.
fn legend(grid: &Grid, shades: &[usize]) -> String {
    let x = LEFT + grid.width() + 24;
    let count = |shade: usize| shades.iter().filter(|&&of| of == shade).count();
    let told = |&shade: &usize| shade != TWO_STATES || count(shade) > 0;
    let line = |shade: usize| {
        let (colour, words) = SHADES[shade];
        let (y, count) = (TOP + shade * LINE, grouped(count(shade)));
        let (words_x, count_x, base) = (x + 26, x + LEGEND - 48, y + 13);
        format!(
            "<rect x=\"{x}\" y=\"{y}\" width=\"16\" height=\"16\" fill=\"{colour}\" stroke=\"#999\"/>\
             <text x=\"{words_x}\" y=\"{base}\">{words}</text>\
             <text x=\"{count_x}\" y=\"{base}\" text-anchor=\"end\">{count}</text>\n"
        )
    };
    let lines: String = (0..SHADES.len()).filter(told).map(line).collect();
    format!("<g font-size=\"13\">\n{lines}</g>\n")
}

#[cfg(test)]
mod tests {
    use super::{picture, Grid};
    use zerglaz::{CallListRef, FileSector, Format, Piece, Volume};

    /// The picture of a volume's bytes.
    fn drawn(bytes: &[u8]) -> String {
        picture(&CallListRef::read(bytes).expect("a volume"))
    }

    /// Grids from one bucket to all of them have a cell for each and stay of a size to look at.
    #[test]
    fn grids() {
        for buckets in [0, 1, 40, 400, 4_096, 65_535, 65_536] {
            let grid = Grid::of(buckets);
            assert!(grid.columns * grid.rows >= buckets);
            assert!(grid.width() <= 1_024 && grid.height() <= 1_024);
        }
        let small = Grid::of(40);
        assert_eq!((small.columns, small.rows, small.cell), (8, 5, 24));
        let large = Grid::of(65_536);
        assert_eq!((large.columns, large.rows, large.cell), (256, 256, 4));
    }

    /// A volume's cells are counted under the words of their shade.
    #[test]
    fn counts() {
        let mut volume = Volume::format(&Format::new(128, 40)).expect("a clean volume");
        let pieces = [Piece::plain(128, 0), Piece::plain(40, 0)];
        let saved = volume.save(1, FileSector(0), &pieces).expect("room");
        volume.delete(&saved[..1]).expect("a live piece");
        let svg = drawn(volume.bytes());
        for (words, count) in [
            ("free", 38),
            ("in use, up to a half", 1),
            ("in use, more", 0),
            ("waiting for their discard", 1),
            ("retired", 0),
        ] {
            let line = svg
                .lines()
                .find(|line| line.contains(&format!(">{words}<")));
            let counted = line.is_some_and(|line| line.ends_with(&format!(">{count}</text>")));
            assert!(counted, "{words}");
        }
        assert!(svg.contains("40 buckets of 128 sectors, 1 live piece<"));
        assert!(!svg.contains("two states") && svg.ends_with("</svg>\n"));
    }

    /// Thousands stand apart.
    #[test]
    fn thousands() {
        let grouped = [0, 7, 999, 1_000, 65_536, 1_000_000].map(super::grouped);
        assert_eq!(grouped, ["0", "7", "999", "1,000", "65,536", "1,000,000"]);
    }

    /// The largest volume's picture has few bytes where neighbours are alike.
    #[test]
    fn largest() {
        let volume = Volume::format(&Format::new(8, 65_536)).expect("a clean volume");
        let svg = drawn(volume.bytes());
        assert!(svg.len() < 20_000 && svg.contains(">65,536</text>"));
    }
}
