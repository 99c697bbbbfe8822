//! The figures as a picture, in SVG: bars of the ratios on the left, and on the right the hash's
//! speed over the message's length. A bar starts at 1, to the right where the library is faster and
//! to the left where it is slower, on a log scale: ten times as fast and a tenth are as far away.
//!
//! It has a background of its own, for dark pages, and letters that can be read where a page shrinks
//! it by a seventh. The curves' colours are Okabe and Ito's, which the colour-blind tell apart; their
//! marks differ too.

use crate::figures::{grouped, Curve, Row};

const WIDTH: f64 = 960.0;
/// Where the panels begin, below the title.
const TOP: f64 = 100.0;
/// The left panel: where its labels end and its bars begin, and where its scale ends.
const BARS: (f64, f64) = (264.0, 456.0);
/// The right panel: its scale of lengths.
const LENGTHS: (f64, f64) = (566.0, 920.0);

const INK: &str = "#1f2328";
const FAINT: &str = "#d8dee4";
const BAR: &str = "#56b4e9";
/// White around letters that stand on lines.
const HALO: &str = "stroke='#ffffff' stroke-width='4' paint-order='stroke'";

/// A curve's colour, and its mark, a path around (0, 0).
const CURVES: [(&str, &str); 5] = [
    ("#0072b2", "M-4.5,0a4.5,4.5 0 1,0 9,0a4.5,4.5 0 1,0 -9,0z"),
    ("#d55e00", "M-4,-4h8v8h-8z"),
    ("#009e73", "M0,-5l5,9h-10z"),
    ("#cc79a7", "M0,-5.5l5.5,5.5l-5.5,5.5l-5.5,-5.5z"),
    ("#000000", "M0,5l5,-9h-10z"),
];

/// The whole picture.
pub fn draw(rows: &[Row], curves: &[Curve], commit: &str, runs: usize, rounds: usize) -> String {
    let mut page = Page(String::new());
    let title = format!("The SUNDR client library's speed at commit {commit}");
    page.text(24.0, 34.0, "start", "font-size='19' font-weight='bold'", &title);
    let note = format!(
        "Bars, from 1: the median of {} rounds' ratios. Whiskers: the least and the greatest of {runs} runs' medians.",
        runs * rounds
    );
    page.text(24.0, 60.0, "start", "", &note);
    let bottom = ratios(&mut page, rows);
    lengths(&mut page, curves, bottom);
    let height = bottom + 62.0;
    format!(
        "<svg xmlns='http://www.w3.org/2000/svg' width='{WIDTH}' height='{height}' viewBox='0 0 {WIDTH} {height}' \
         role='img' font-family='Helvetica, Arial, sans-serif' font-size='14' fill='{INK}'>\n\
         <title>{}</title>\n\
         <rect x='0.5' y='0.5' width='{}' height='{}' rx='6' fill='#ffffff' stroke='{FAINT}'/>\n{}</svg>\n",
        escaped(&title),
        WIDTH - 1.0,
        height - 1.0,
        page.0
    )
}

/// The left panel; gives its lower end.
fn ratios(page: &mut Page, rows: &[Row]) -> f64 {
    let groups = groups(rows);
    let bars = groups.iter().flat_map(|group| &group.bars);
    let ticks = ticks(bars.clone().flat_map(|bar| [bar.least, 1.0, bar.greatest]));
    let scale = Scale::log(&ticks, BARS.0, BARS.1);
    let one = scale.place(1.0);
    let bottom = TOP + 34.0 + groups.len() as f64 * 28.0 + bars.count() as f64 * 23.0;

    page.heading(24.0, "Its speed over others'");
    for tick in ticks {
        let x = scale.place(tick);
        page.line((x, TOP + 18.0), (x, bottom), if tick == 1.0 { INK } else { FAINT });
        page.text(x, bottom + 19.0, "middle", "", &format!("{tick}"));
    }
    let middle = (BARS.0 + BARS.1) / 2.0;
    page.text(middle, bottom + 42.0, "middle", "", "ratio of speeds, log scale (above 1: the library is faster)");

    let mut y = TOP + 20.0;
    for group in &groups {
        y += 28.0;
        page.text(24.0, y - 8.0, "start", &format!("font-style='italic' {HALO}"), &group.heading);
        for bar in &group.bars {
            y += 23.0;
            page.text(BARS.0 - 8.0, y - 7.0, "end", "", bar.label);
            page.bar(one, scale.place(bar.median), y - 20.0, 17.0);
            let end = scale.place(bar.greatest).max(one);
            page.text(end + 7.0, y - 7.0, "start", HALO, &format!("{:.2}", bar.median));
            page.whiskers(scale.place(bar.least), scale.place(bar.greatest), y - 11.5);
        }
    }
    bottom
}

/// The right panel, down to where the left one ends.
fn lengths(page: &mut Page, curves: &[Curve], bottom: f64) {
    page.heading(LENGTHS.0 - 50.0, "SHA-256, by the message's length");
    let top = legend(page, curves) + 18.0;
    let (across, down) = ((LENGTHS.0 + LENGTHS.1) / 2.0, (top + bottom) / 2.0);
    page.text(across, bottom + 42.0, "middle", "", "length of the message, bytes (log scale)");
    let turned = format!("transform='rotate(-90 {} {down})'", LENGTHS.0 - 52.0);
    page.text(LENGTHS.0 - 52.0, down, "middle", &turned, "speed, MB/s (log scale)");

    let bytes: Vec<f64> = curves[0].points.iter().map(|&(bytes, _)| bytes as f64).collect();
    let length = Scale::log(&bytes, LENGTHS.0, LENGTHS.1);
    for &tick in &bytes {
        let x = length.place(tick);
        page.line((x, top), (x, bottom), FAINT);
        page.text(x, bottom + 19.0, "middle", "", &grouped(tick));
    }
    let ticks = ticks(curves.iter().flat_map(|curve| &curve.points).map(|&(_, speed)| speed / 1e6));
    let speed = Scale::log(&ticks, bottom, top);
    for &tick in &ticks {
        let y = speed.place(tick);
        page.line((LENGTHS.0, y), (LENGTHS.1, y), FAINT);
        page.text(LENGTHS.0 - 8.0, y + 5.0, "end", "", &grouped(tick));
    }

    // The library last, over the others.
    for (curve, (colour, mark)) in curves.iter().zip(CURVES).rev() {
        let place = |&(bytes, speeds): &(usize, f64)| (length.place(bytes as f64), speed.place(speeds / 1e6));
        let places: Vec<(f64, f64)> = curve.points.iter().map(place).collect();
        page.curve(&places, colour);
        places.iter().for_each(|&place| page.mark(place, colour, mark));
    }
}

/// The curves' names; gives the lower end.
fn legend(page: &mut Page, curves: &[Curve]) -> f64 {
    let mut y = TOP + 16.0;
    for (curve, (colour, mark)) in curves.iter().zip(CURVES) {
        y += 21.0;
        page.curve(&[(LENGTHS.0 - 50.0, y - 5.0), (LENGTHS.0 - 14.0, y - 5.0)], colour);
        page.mark((LENGTHS.0 - 32.0, y - 5.0), colour, mark);
        page.text(LENGTHS.0 - 4.0, y, "start", "", curve.name);
    }
    y
}

/// A log scale for these: from the last of its ticks that is below all to the first that is above.
fn ticks(values: impl Iterator<Item = f64> + Clone) -> Vec<f64> {
    let tens = [1e-1, 1e0, 1e1, 1e2, 1e3, 1e4];
    let ticks: Vec<f64> = tens.iter().flat_map(|ten| [1.0, 2.0, 5.0].map(|n| n * ten)).collect();
    let (least, greatest) = (values.clone().fold(f64::MAX, f64::min), values.fold(0.0, f64::max));
    let from = ticks.iter().rposition(|&tick| tick <= least).unwrap_or(0);
    let to = ticks.iter().position(|&tick| tick >= greatest).unwrap_or(ticks.len() - 1);
    ticks[from..=to].to_vec()
}

struct Bar<'a> {
    label: &'a str,
    median: f64,
    least: f64,
    greatest: f64,
}

/// Bars under one heading.
struct Group<'a> {
    heading: String,
    bars: Vec<Bar<'a>>,
}

/// A work with several others beside it is a heading over them; works with the same one beside
/// them are under its name.
fn groups(rows: &[Row]) -> Vec<Group<'_>> {
    let mut groups: Vec<Group> = Vec::new();
    for row in rows {
        for beside in &row.besides {
            let (heading, label) = match row.besides.len() {
                1 => (format!("beside {}:", beside.name), row.work.as_str()),
                _ => (format!("{}, beside:", row.work), beside.name),
            };
            if groups.last().is_none_or(|group| group.heading != heading) {
                groups.push(Group { heading, bars: Vec::new() });
            }
            let ratio = &beside.ratio;
            let bar = Bar { label, median: ratio.median, least: ratio.least, greatest: ratio.greatest };
            groups.last_mut().expect("a group").bars.push(bar);
        }
    }
    groups
}

/// A scale of values by their logarithms, drawn from a place to another.
struct Scale {
    low: f64,
    high: f64,
    from: f64,
    to: f64,
}

impl Scale {
    /// From the first value to the last.
    fn log(values: &[f64], from: f64, to: f64) -> Scale {
        Scale { low: values[0], high: values[values.len() - 1], from, to }
    }

    fn place(&self, value: f64) -> f64 {
        self.from + (self.to - self.from) * (value / self.low).ln() / (self.high / self.low).ln()
    }
}

/// What has been drawn.
struct Page(String);

impl Page {
    fn text(&mut self, x: f64, y: f64, anchor: &str, more: &str, words: &str) {
        let words = escaped(words);
        self.0 += &format!("<text x='{x:.1}' y='{y:.1}' text-anchor='{anchor}' {more}>{words}</text>\n");
    }

    /// A panel's heading.
    fn heading(&mut self, x: f64, words: &str) {
        self.text(x, TOP, "start", "font-size='16' font-weight='bold'", words);
    }

    fn line(&mut self, (x, y): (f64, f64), (to_x, to_y): (f64, f64), colour: &str) {
        self.0 += &format!("<path d='M{x:.1},{y:.1}L{to_x:.1},{to_y:.1}' stroke='{colour}'/>\n");
    }

    /// To the right or to the left.
    fn bar(&mut self, x: f64, to_x: f64, y: f64, height: f64) {
        let (x, width) = (x.min(to_x), (to_x - x).abs());
        self.0 += &format!(
            "<rect x='{x:.1}' y='{y:.1}' width='{width:.1}' height='{height:.1}' fill='{BAR}' fill-opacity='0.8'/>\n"
        );
    }

    fn whiskers(&mut self, x: f64, to_x: f64, y: f64) {
        self.line((x, y), (to_x, y), INK);
        self.line((x, y - 4.0), (x, y + 4.0), INK);
        self.line((to_x, y - 4.0), (to_x, y + 4.0), INK);
    }

    fn curve(&mut self, places: &[(f64, f64)], colour: &str) {
        let places: Vec<String> = places.iter().map(|(x, y)| format!("{x:.1},{y:.1}")).collect();
        let places = places.join(" ");
        self.0 += &format!("<polyline points='{places}' fill='none' stroke='{colour}' stroke-width='2'/>\n");
    }

    fn mark(&mut self, (x, y): (f64, f64), colour: &str, mark: &str) {
        self.0 += &format!("<path d='{mark}' transform='translate({x:.1} {y:.1})' fill='{colour}'/>\n");
    }
}

fn escaped(words: &str) -> String {
    words.replace('&', "&amp;").replace('<', "&lt;")
}
