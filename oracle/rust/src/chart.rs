//! A chart of horizontal bars over a logarithmic scale of time, as SVG text.

use std::fmt::Write;

/// A bar: its kind, and its time in microseconds with a tenth and nine tenths.
pub struct Bar {
    pub kind: usize,
    pub low: f64,
    pub mid: f64,
    pub high: f64,
}

/// The bars of one row.
pub struct Group {
    pub name: String,
    pub bars: Vec<Bar>,
}

/// The measures of the drawing.
const LEFT: f64 = 250.0;
const WIDTH: f64 = 560.0;
const TOP: f64 = 64.0;
const BAR: f64 = 11.0;
const GAP: f64 = 10.0;

/// The chart of groups whose bars have the kinds `kinds`, each with a name and a colour.
pub fn chart(title: &str, kinds: &[(&str, &str)], groups: &[Group]) -> String {
    let scale = Scale::of(groups);
    let bars: usize = groups.iter().map(|g| g.bars.len()).sum();
    let end = TOP + bars as f64 * BAR + groups.len() as f64 * GAP;
    let mut svg = head(title, end + 40.0);
    legend(&mut svg, kinds);
    axis(&mut svg, &scale, end);
    let mut y = TOP + GAP / 2.0;
    for group in groups {
        let middle = y + group.bars.len() as f64 * BAR / 2.0 + 4.0;
        text(&mut svg, LEFT - 8.0, middle, "end", &group.name);
        for bar in &group.bars {
            draw(&mut svg, &scale, bar, kinds[bar.kind].1, y);
            y += BAR;
        }
        y += GAP;
    }
    svg.push_str("</svg>\n");
    svg
}

/// The powers of ten at both ends of the scale.
struct Scale {
    first: i32,
    last: i32,
}

impl Scale {
    /// The scale that holds every bar.
    fn of(groups: &[Group]) -> Scale {
        let bars = || groups.iter().flat_map(|g| &g.bars);
        let low = bars().map(|b| b.low).fold(f64::MAX, f64::min);
        let high = bars().map(|b| b.high).fold(f64::MIN, f64::max);
        Scale {
            first: low.log10().floor() as i32,
            last: high.log10().ceil() as i32,
        }
    }

    /// Where a time stands.
    fn x(&self, time: f64) -> f64 {
        let part = (time.log10() - f64::from(self.first)) / f64::from(self.last - self.first);
        LEFT + WIDTH * part
    }
}

/// The opening of the drawing, with its ground and its title.
fn head(title: &str, height: f64) -> String {
    let width = LEFT + WIDTH + 90.0;
    let mut svg = String::new();
    let _ = writeln!(
        svg,
        r##"<svg xmlns="http://www.w3.org/2000/svg" viewBox="0 0 {width} {height}" font-family="sans-serif" font-size="11">
<rect width="{width}" height="{height}" fill="#ffffff"/>
<text x="16" y="22" font-size="14" font-weight="bold">{title}</text>"##
    );
    svg
}

/// What the colours say.
fn legend(svg: &mut String, kinds: &[(&str, &str)]) {
    let mut x = 16.0;
    for (name, colour) in kinds {
        let _ = writeln!(
            svg,
            r#"<rect x="{x}" y="34" width="10" height="10" fill="{colour}"/>"#
        );
        text(svg, x + 14.0, 43.0, "start", name);
        x += 30.0 + 6.2 * name.len() as f64;
    }
}

/// A line for each power of ten.
fn axis(svg: &mut String, scale: &Scale, end: f64) {
    for power in scale.first..=scale.last {
        let time = 10f64.powi(power);
        let x = scale.x(time);
        let _ = writeln!(
            svg,
            r##"<line x1="{x:.1}" y1="{TOP}" x2="{x:.1}" y2="{end:.1}" stroke="#cccccc"/>"##
        );
        text(svg, x, end + 16.0, "middle", &format!("{time} µs"));
    }
}

/// One bar, its spread and its time.
fn draw(svg: &mut String, scale: &Scale, bar: &Bar, colour: &str, y: f64) {
    let (low, mid, high) = (scale.x(bar.low), scale.x(bar.mid), scale.x(bar.high));
    let (width, height) = (mid - LEFT, BAR - 2.0);
    let line = y + height / 2.0;
    let _ = writeln!(
        svg,
        r##"<rect x="{LEFT}" y="{y:.1}" width="{width:.1}" height="{height}" fill="{colour}"/>
<line x1="{low:.1}" y1="{line:.1}" x2="{high:.1}" y2="{line:.1}" stroke="#222222"/>"##
    );
    let time = format!("{:.1}", bar.mid);
    text(svg, high.max(mid) + 4.0, y + 8.5, "start", &time);
}

/// A line of text.
fn text(svg: &mut String, x: f64, y: f64, anchor: &str, words: &str) {
    let _ = writeln!(
        svg,
        r#"<text x="{x:.1}" y="{y:.1}" text-anchor="{anchor}">{words}</text>"#
    );
}
