//! Draws the graph of a lexicon: each vertex with its letter and number, each arc with its increment, and below them
//! the words with their codes.

#[allow(dead_code)]
#[path = "../tests/running/image.rs"]
mod image;

mod graph_layout;
mod graph_words;
#[path = "../include/wundaleth.rs"]
mod wundaleth;

use graph_layout::{distance, labels, Curve, Label, Layout, Place, DIGIT, RADIUS};
use graph_words::{words_of, Graph, Word};
use std::process::ExitCode;

const LEAST_WIDTH: f64 = 800.0;
const MARGIN: f64 = 50.0;
const TOP: f64 = 120.0;
const LAYER_GAP: f64 = 120.0;
/// Between two lines of words, and between two columns.
const LINE: f64 = 20.0;
const COLUMN_GAP: f64 = 20.0;
/// How wide a print byte is.
const PRINT_BYTE: f64 = 9.0;

/// A drawing of more is too large to be read.
const NODES: usize = 100;
const ARCS: usize = 200;
/// One increment in so many may cover another arc than its own. With more of them, arcs cannot be followed.
const COVERING: usize = 10;

const CAPTION: [&str; 2] = [
    "On each arc its increment: the number of paths to the sink through the successors stored before it.",
    "A word's code is the sum of the increments on its path from root to sink.",
];

fn text(x: f64, y: f64, anchor: &str, words: &str) -> String {
    format!("<text x=\"{x:.1}\" y=\"{y:.1}\" text-anchor=\"{anchor}\">{words}</text>\n")
}

fn escaped(words: &str) -> String {
    words
        .replace('&', "&amp;")
        .replace('<', "&lt;")
        .replace('>', "&gt;")
}

fn arrow(samples: &[Place]) -> String {
    let Some(tip) = samples.last() else {
        return String::new();
    };
    let is_back = |place: &&Place| distance(**place, *tip) > 9.0;
    let back = samples.iter().rev().find(is_back).unwrap_or(&samples[0]);
    let long = distance(*back, *tip).max(1.0);
    let (x, y) = (3.5 * (tip.0 - back.0) / long, 3.5 * (tip.1 - back.1) / long);
    format!(
        "<path d=\"M{:.1} {:.1}L{:.1} {:.1}L{:.1} {:.1}Z\"/>\n",
        tip.0,
        tip.1,
        back.0 - y,
        back.1 + x,
        back.0 + y,
        back.1 - x
    )
}

fn vertex(graph: &Graph, vertex: usize, (x, y): Place) -> String {
    let ring = format!(
        "<circle cx=\"{x:.1}\" cy=\"{y:.1}\" r=\"{RADIUS}\" fill=\"#ffffff\" stroke=\"#000000\"/>\n"
    );
    let number = format!(
        "<text x=\"{x:.1}\" y=\"{:.1}\" text-anchor=\"middle\" font-size=\"10\" fill=\"#555555\">{vertex}</text>\n",
        y + 15.0
    );
    let name = match vertex {
        0 => text(x, y + 2.0, "middle", "root"),
        v if v == graph.sink() => text(x, y + 2.0, "middle", "sink"),
        v => format!(
            "<text x=\"{x:.1}\" y=\"{:.1}\" text-anchor=\"middle\" font-size=\"17\" font-weight=\"bold\">{}</text>\n",
            y + 1.0,
            escaped(&graph.letters[v].to_string())
        ),
    };
    ring + &name + &number
}

/// White, so that no line runs through the label.
fn ground(label: &Label) -> String {
    let (middle, half) = (label.middle, label.half);
    format!(
        "<rect x=\"{:.1}\" y=\"{:.1}\" width=\"{:.1}\" height=\"{:.1}\" fill=\"#ffffff\"/>\n",
        middle.0 - half.0,
        middle.1 - half.1,
        2.0 * half.0,
        2.0 * half.1
    )
}

/// The words in columns, from the height y on: each with the sum that is its code, if the sums are short. Answers their
/// height too.
fn table(words: &[Word], count: u64, y: f64, width: f64) -> (String, f64) {
    let longest = |of: &dyn Fn(&Word) -> usize| words.iter().map(of).max().unwrap_or(0) as f64;
    let word_width = PRINT_BYTE * longest(&|word| word.letters.len()) + 12.0;
    let sum_width = DIGIT * longest(&|word| word.sum().len());
    let has_sums = sum_width < 220.0;
    let code_width = DIGIT * longest(&|word| word.code().to_string().len());
    let (sum_width, gap) = if has_sums {
        (sum_width, COLUMN_GAP)
    } else {
        (0.0, 2.0 * COLUMN_GAP)
    };
    let cell = word_width + sum_width + code_width + gap;
    let most = ((width - 2.0 * MARGIN + gap) / cell).max(1.0) as usize;
    let rows = words.len().div_ceil(most);
    let mut svg = String::new();
    for (k, word) in words.iter().enumerate() {
        let x = MARGIN + cell * (k / rows) as f64;
        let y = y + LINE * (k % rows) as f64;
        let sum = if has_sums { word.sum() } else { String::new() };
        let code = format!("<tspan font-weight=\"bold\">{}</tspan>", word.code());
        svg += &format!(
            "<text x=\"{x:.1}\" y=\"{y:.1}\" font-weight=\"bold\">{}</text>\n",
            escaped(&word.letters)
        );
        svg += &text(x + word_width, y, "start", &format!("{sum}{code}"));
    }
    let mut height = LINE * rows as f64;
    if count > words.len() as u64 {
        let more = format!("and {} more", count - words.len() as u64);
        svg += &text(MARGIN, y + height, "start", &more);
        height += LINE;
    }
    (svg, height)
}

/// Where each point stands: the layers from left to right over the whole width.
fn places(layout: &Layout, width: f64) -> Vec<Place> {
    let heights = layout.heights();
    let (left, right) = (MARGIN + RADIUS, width - MARGIN - RADIUS);
    let gap = (right - left) / (layout.layers.len() - 1) as f64;
    let mut places = vec![(0.0, 0.0); heights.len()];
    for (k, layer) in layout.layers.iter().enumerate() {
        for point in layer {
            places[*point] = (left + gap * k as f64, TOP + heights[*point]);
        }
    }
    places
}

/// The arcs with their increments, and the vertices over them; or why they could not be read.
fn picture(
    graph: &Graph,
    layout: &Layout,
    places: &[Place],
    increments: &[String],
) -> Result<String, String> {
    let curve = |row: &Vec<usize>| Curve {
        places: row.iter().map(|point| places[*point]).collect(),
    };
    let curves: Vec<Curve> = layout.arcs.iter().map(curve).collect();
    let samples: Vec<Vec<Place>> = curves.iter().map(Curve::samples).collect();
    let vertices = &places[..layout.vertices];
    let mut svg = String::new();
    for (curve, samples) in curves.iter().zip(&samples) {
        let path = curve.path();
        svg += &format!("<path d=\"{path}\" fill=\"none\" stroke=\"#000000\"/>\n");
        svg += &arrow(samples);
    }
    let labels = labels(increments, &samples, vertices);
    let (all, covering) = (labels.len(), labels.iter().filter(|l| !l.is_alone).count());
    if covering * COVERING > all {
        return Err(format!(
            "not drawn: {covering} of {all} increments would cover other arcs"
        ));
    }
    for (label, increment) in labels.iter().zip(increments) {
        svg += &ground(label);
        svg += &text(label.middle.0, label.middle.1 + 4.0, "middle", increment);
    }
    for (k, place) in vertices.iter().enumerate() {
        svg += &vertex(graph, k, *place);
    }
    Ok(svg)
}

fn heading(graph: &Graph, arcs: usize, words: u64, middle: f64) -> String {
    let nodes = graph.sink() - 1;
    let title = format!("{nodes} nodes, {arcs} arcs, {words} words");
    let mut svg = text(middle, 30.0, "middle", &title);
    for (line, words) in CAPTION.iter().enumerate() {
        svg += &text(middle, 52.0 + 18.0 * line as f64, "middle", words);
    }
    svg
}

fn drawn(graph: &Graph) -> Result<String, String> {
    let counts = graph.path_counts();
    let increments = graph.increments(&counts);
    let on_arcs: Vec<String> = increments.iter().flatten().map(u64::to_string).collect();
    let (nodes, arcs) = (graph.sink() - 1, on_arcs.len());
    if nodes > NODES || arcs > ARCS {
        return Err(format!(
            "not drawn: {nodes} nodes and {arcs} arcs; a drawing can be read up to {NODES} and {ARCS}"
        ));
    }
    let mut layout = Layout::of(graph);
    layout.order();
    let gaps = (layout.layers.len() - 1) as f64;
    let width = LEAST_WIDTH.max(LAYER_GAP * gaps + 2.0 * MARGIN);
    let places = places(&layout, width);

    let lowest = places.iter().map(|place| place.1).fold(0.0, f64::max);
    let below = lowest + RADIUS + 50.0;
    let words = words_of(graph, &increments);
    let (table, table_height) = table(&words, counts[0], below, width);
    let height = below + table_height + 10.0;
    let mut svg = format!(
        "<svg xmlns=\"http://www.w3.org/2000/svg\" width=\"{width}\" height=\"{height:.0}\" \
         viewBox=\"0 0 {width} {height:.0}\" font-family=\"sans-serif\" font-size=\"12\">\n"
    );
    svg += "<rect width=\"100%\" height=\"100%\" fill=\"#ffffff\"/>\n";
    svg += &heading(graph, arcs, counts[0], width / 2.0);
    svg += &picture(graph, &layout, &places, &on_arcs)?;
    Ok(svg + &table + "</svg>\n")
}

/// The small lexicon, or the images in two files, and where the drawing goes.
fn asked(words: &[String]) -> Result<(Vec<u8>, Vec<u8>, &String), String> {
    let read = |name: &String| std::fs::read(name).map_err(|error| format!("{name}: {error}"));
    match words {
        [drawing] => Ok((
            image::small_voice().bytes(),
            image::small_lexicon().bytes(),
            drawing,
        )),
        [voice, lexicon, drawing] => Ok((read(voice)?, read(lexicon)?, drawing)),
        _ => Err("graph [VOICE LEXICON] DRAWING.svg".to_string()),
    }
}

/// The library's verdict on the images: nothing, or its refusal.
fn judged(voice: &[u8], lexicon: &[u8]) -> Result<(), String> {
    let mut work = vec![0; 64_000];
    // Each pointer is valid for its length, and the buffers are memory of their own.
    let answer = unsafe {
        wundaleth::wundaleth_check(
            voice.as_ptr(),
            voice.len(),
            lexicon.as_ptr(),
            lexicon.len(),
            work.as_mut_ptr(),
            work.len(),
        )
    };
    let why = match -answer {
        2 => "the voice model ends inside a field, or has bytes after its last",
        3 => "a field of the voice model is out of its range",
        4 => "the lexicon ends inside a field, or has bytes after its last",
        5 => "a field of the lexicon is out of its range",
        6 => "a node is nobody's successor",
        7 => "there are more than 1,000 places",
        8 => "a word has more than 32 letters",
        9 => "there are more than 1,048,576 words",
        10 => "two different full paths have the same letters",
        _ => return Ok(()),
    };
    Err(format!("refused {}: {why}", -answer))
}

fn draw(words: &[String]) -> Result<(), String> {
    let (voice, lexicon, drawing) = asked(words)?;
    judged(&voice, &lexicon)?;
    let svg = drawn(&Graph::of_accepted(&voice, &lexicon))?;
    std::fs::write(drawing, svg).map_err(|error| format!("{drawing}: {error}"))
}

fn main() -> ExitCode {
    let words: Vec<String> = std::env::args().skip(1).collect();
    match draw(&words) {
        Ok(()) => ExitCode::SUCCESS,
        Err(why) => {
            eprintln!("docs/graph: {why}");
            ExitCode::FAILURE
        }
    }
}
