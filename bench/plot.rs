//! Draws the series over words that bench/decode writes: time over the number of words, both axes by powers of ten.

use std::process::ExitCode;

const WIDTH: f64 = 640.0;
const HEIGHT: f64 = 420.0;
const LEFT: f64 = 80.0;
const RIGHT: f64 = 620.0;
const TOP: f64 = 60.0;
const BOTTOM: f64 = 360.0;

/// The columns of the file after series and size, and how their lines are drawn.
const LINES: [(&str, &str); 3] = [
    ("graph (Wundaleth)", "#1b5e8c"),
    ("graph (plain C)", "#8a8a8a"),
    ("word by word (plain C)", "#c0392b"),
];

/// A number of words and the times of each decoder in microseconds, where it was timed.
struct Row {
    words: f64,
    times: Vec<Option<f64>>,
}

/// Powers of ten from one to another along a stretch.
struct Axis {
    low: i32,
    high: i32,
    from: f64,
    to: f64,
}

impl Axis {
    /// The fewest powers of ten that hold all values.
    fn of(values: impl Iterator<Item = f64> + Clone, from: f64, to: f64) -> Axis {
        let low = values.clone().fold(f64::INFINITY, f64::min);
        let high = values.fold(1.0, f64::max);
        Axis {
            low: low.log10().floor() as i32,
            high: high.log10().ceil() as i32,
            from,
            to,
        }
    }

    fn at(&self, value: f64) -> f64 {
        let part = (value.log10() - f64::from(self.low)) / f64::from(self.high - self.low);
        self.from + part * (self.to - self.from)
    }

    fn powers(&self) -> impl Iterator<Item = f64> {
        (self.low..=self.high).map(|power| 10f64.powi(power))
    }
}

fn rows_of(table: &str) -> Vec<Row> {
    let of_words = table.lines().filter_map(|line| line.strip_prefix("words,"));
    let row = |line: &str| {
        let mut cells = line.split(',').map(|cell| cell.parse().ok());
        let words = cells.next().flatten()?;
        let times = cells.collect();
        Some(Row { words, times })
    };
    of_words.filter_map(row).collect()
}

fn microseconds(value: f64) -> String {
    match value {
        value if value >= 1e6 => format!("{} s", value / 1e6),
        value if value >= 1e3 => format!("{} ms", value / 1e3),
        value => format!("{value} µs"),
    }
}

fn text(x: f64, y: f64, anchor: &str, words: &str) -> String {
    format!("<text x=\"{x:.1}\" y=\"{y:.1}\" text-anchor=\"{anchor}\">{words}</text>\n")
}

fn grid(across: &Axis, up: &Axis) -> String {
    let mut svg = String::new();
    let line = |x1: f64, y1: f64, x2: f64, y2: f64| {
        format!("<path d=\"M{x1:.1} {y1:.1}L{x2:.1} {y2:.1}\" stroke=\"#dddddd\"/>\n")
    };
    for words in across.powers() {
        let x = across.at(words);
        svg += &line(x, TOP, x, BOTTOM);
        svg += &text(x, BOTTOM + 18.0, "middle", &format!("{words}"));
    }
    for time in up.powers() {
        let y = up.at(time);
        svg += &line(LEFT, y, RIGHT, y);
        svg += &text(LEFT - 8.0, y + 4.0, "end", &microseconds(time));
    }
    svg + &text(
        (LEFT + RIGHT) / 2.0,
        BOTTOM + 42.0,
        "middle",
        "words in the lexicon",
    )
}

fn curve(rows: &[Row], k: usize, across: &Axis, up: &Axis) -> String {
    let (name, colour) = LINES[k];
    let time = |row: &Row| row.times.get(k).copied().flatten();
    let point = |row: &Row| time(row).map(|time| (across.at(row.words), up.at(time)));
    let points: Vec<(f64, f64)> = rows.iter().filter_map(point).collect();
    let path: Vec<String> = points
        .iter()
        .map(|(x, y)| format!("{x:.1},{y:.1}"))
        .collect();
    let mut svg = format!(
        "<polyline points=\"{}\" fill=\"none\" stroke=\"{colour}\" stroke-width=\"2\"/>\n",
        path.join(" ")
    );
    for (x, y) in points {
        svg += &format!("<circle cx=\"{x:.1}\" cy=\"{y:.1}\" r=\"3\" fill=\"{colour}\"/>\n");
    }
    let y = TOP + 18.0 + 18.0 * k as f64;
    svg += &format!(
        "<path d=\"M{0} {1}h24\" stroke=\"{colour}\" stroke-width=\"2\"/>\n",
        LEFT + 12.0,
        y - 4.0
    );
    svg + &text(LEFT + 44.0, y, "start", name)
}

fn drawn(rows: &[Row]) -> String {
    let times = rows
        .iter()
        .flat_map(|row| row.times.iter().copied().flatten());
    let across = Axis::of(rows.iter().map(|row| row.words), LEFT, RIGHT);
    let up = Axis::of(times, BOTTOM, TOP);
    let mut svg = format!(
        "<svg xmlns=\"http://www.w3.org/2000/svg\" viewBox=\"0 0 {WIDTH} {HEIGHT}\" font-family=\"sans-serif\" font-size=\"12\">\n"
    );
    svg += &format!("<rect width=\"{WIDTH}\" height=\"{HEIGHT}\" fill=\"#ffffff\"/>\n");
    let title = "Time of one decoding: 80 nodes and 160 arcs each time, 50 frames, n = 3";
    svg += &text(WIDTH / 2.0, 30.0, "middle", title);
    svg += &grid(&across, &up);
    for k in 0..LINES.len() {
        svg += &curve(rows, k, &across, &up);
    }
    svg + "</svg>\n"
}

fn main() -> ExitCode {
    let mut words = std::env::args().skip(1);
    let (Some(from), Some(to)) = (words.next(), words.next()) else {
        println!("plot SERIES.csv DRAWING.svg");
        return ExitCode::FAILURE;
    };
    let rows = rows_of(&std::fs::read_to_string(&from).unwrap_or_default());
    if rows.is_empty() {
        println!("no series over words in {from}: run bench/decode first");
        return ExitCode::FAILURE;
    }
    match std::fs::write(&to, drawn(&rows)) {
        Ok(()) => ExitCode::SUCCESS,
        Err(error) => {
            println!("{to}: {error}");
            ExitCode::FAILURE
        }
    }
}
