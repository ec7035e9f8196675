//! Where the vertices, arcs and increments of a graph are drawn: vertices in layers by their longest distance from the
//! root, with few crossings; arcs as curves between the vertices of the layers that they pass; increments on their
//! arcs.

use crate::graph_words::Graph;

/// Of a vertex.
pub const RADIUS: f64 = 20.0;
/// The height that a vertex takes in its layer, and an arc that passes over the layer.
const VERTEX_ROOM: f64 = 90.0;
const BEND_ROOM: f64 = 50.0;
/// How wide a digit is.
pub const DIGIT: f64 = 7.0;

pub type Place = (f64, f64);

/// What is laid out: the vertices, by their numbers, and after them the bends of arcs that pass over layers. Each arc
/// is a row of points, one in each layer from its tail to its head.
pub struct Layout {
    pub layers: Vec<Vec<usize>>,
    pub arcs: Vec<Vec<usize>>,
    before: Vec<Vec<usize>>,
    after: Vec<Vec<usize>>,
    pub vertices: usize,
}

impl Layout {
    pub fn of(graph: &Graph) -> Layout {
        let depths = graph.depths();
        let mut points = graph.letters.len();
        let mut layers = vec![Vec::new(); depths[graph.sink()] + 1];
        let mut arcs = Vec::new();
        layers[0].push(0);
        for vertex in 0..graph.sink() {
            for successor in &graph.successors[vertex] {
                let mut row = vec![vertex];
                for layer in &mut layers[depths[vertex] + 1..depths[*successor]] {
                    layer.push(points);
                    row.push(points);
                    points += 1;
                }
                row.push(*successor);
                arcs.push(row);
                if !layers[depths[*successor]].contains(successor) {
                    layers[depths[*successor]].push(*successor);
                }
            }
        }
        let (mut before, mut after) = (vec![Vec::new(); points], vec![Vec::new(); points]);
        for link in arcs.iter().flat_map(|row| row.windows(2)) {
            after[link[0]].push(link[1]);
            before[link[1]].push(link[0]);
        }
        let vertices = graph.letters.len();
        Layout {
            layers,
            arcs,
            before,
            after,
            vertices,
        }
    }

    fn positions(&self) -> Vec<usize> {
        let mut positions = vec![0; self.after.len()];
        for layer in &self.layers {
            for (position, point) in layer.iter().enumerate() {
                positions[*point] = position;
            }
        }
        positions
    }

    fn crossings(&self) -> usize {
        let positions = self.positions();
        let mut crossings = 0;
        for layer in &self.layers {
            let links = layer
                .iter()
                .flat_map(|p| self.after[*p].iter().map(|q| (*p, *q)));
            let ends: Vec<_> = links.map(|(p, q)| (positions[p], positions[q])).collect();
            for (k, one) in ends.iter().enumerate() {
                let crosses = |other: &&(usize, usize)| {
                    (one.0 < other.0 && one.1 > other.1) || (one.0 > other.0 && one.1 < other.1)
                };
                crossings += ends[k + 1..].iter().filter(crosses).count();
            }
        }
        crossings
    }

    /// Orders each layer by the mean position of its neighbours, to and fro, and keeps the order with the fewest
    /// crossings.
    pub fn order(&mut self) {
        let mut best = (self.crossings(), self.layers.clone());
        for round in 0..24 {
            let forth = round % 2 == 0;
            for k in 0..self.layers.len() {
                let positions = self.positions();
                let (k, neighbours) = if forth {
                    (k, &self.before)
                } else {
                    (self.layers.len() - 1 - k, &self.after)
                };
                let place = |point: &usize| {
                    let of = &neighbours[*point];
                    let sum: usize = of.iter().map(|p| positions[*p]).sum();
                    (1000 * sum).checked_div(of.len()).unwrap_or(0)
                };
                self.layers[k].sort_by_key(place);
            }
            let crossings = self.crossings();
            if crossings < best.0 {
                best = (crossings, self.layers.clone());
            }
        }
        self.layers = best.1;
    }

    fn room(&self, point: usize) -> f64 {
        if point < self.vertices {
            VERTEX_ROOM
        } else {
            BEND_ROOM
        }
    }

    /// How far down each point stands: as near to the mean of its neighbours as order and rooms let it.
    pub fn heights(&self) -> Vec<f64> {
        let mut heights = vec![0.0; self.after.len()];
        for round in 0..40 {
            for k in 0..self.layers.len() {
                let forth = round % 2 == 0;
                let layer = &self.layers[if forth { k } else { self.layers.len() - 1 - k }];
                let wanted = |point: &usize| {
                    let neighbours = self.before[*point].iter().chain(&self.after[*point]);
                    let count = neighbours.clone().count() as f64;
                    neighbours.map(|p| heights[*p]).sum::<f64>() / count
                };
                let wanted: Vec<f64> = layer.iter().map(wanted).collect();
                let rooms: Vec<f64> = layer.iter().map(|p| self.room(*p)).collect();
                for (point, height) in layer.iter().zip(spread(&wanted, &rooms)) {
                    heights[*point] = height;
                }
            }
        }
        let top = heights.iter().copied().fold(f64::INFINITY, f64::min);
        heights.iter().map(|height| height - top).collect()
    }
}

/// The heights nearest to the wanted ones that keep their order and leave each its room: those that come too close form
/// one block around their mean.
fn spread(wanted: &[f64], rooms: &[f64]) -> Vec<f64> {
    let mut offset = 0.0;
    let mut blocks: Vec<(f64, f64)> = Vec::new();
    for (height, room) in wanted.iter().zip(rooms) {
        let mut block = (height - offset - room / 2.0, 1.0);
        offset += room;
        while let Some(last) = blocks
            .last()
            .filter(|last| last.0 / last.1 > block.0 / block.1)
        {
            block = (last.0 + block.0, last.1 + block.1);
            blocks.pop();
        }
        blocks.push(block);
    }
    let starts = blocks
        .iter()
        .flat_map(|(sum, count)| std::iter::repeat_n(sum / count, *count as usize));
    let mut offset = 0.0;
    let middle = |(start, room): (f64, &f64)| {
        offset += room;
        start + offset - room / 2.0
    };
    starts.zip(rooms).map(middle).collect()
}

/// A curve through places: between two of them a cubic with these control places.
pub struct Curve {
    pub places: Vec<Place>,
}

impl Curve {
    fn cubic(&self, k: usize) -> [Place; 4] {
        let (from, to) = (self.places[k], self.places[k + 1]);
        let last = self.places[k.saturating_sub(1)];
        let next = self.places[(k + 2).min(self.places.len() - 1)];
        let first = (
            from.0 + (to.0 - last.0) / 6.0,
            from.1 + (to.1 - last.1) / 6.0,
        );
        let second = (
            to.0 - (next.0 - from.0) / 6.0,
            to.1 - (next.1 - from.1) / 6.0,
        );
        [from, first, second, to]
    }

    pub fn path(&self) -> String {
        let mut path = format!("M{:.1} {:.1}", self.places[0].0, self.places[0].1);
        for k in 0..self.places.len() - 1 {
            let [_, a, b, to] = self.cubic(k);
            path += &format!(
                "C{:.1} {:.1} {:.1} {:.1} {:.1} {:.1}",
                a.0, a.1, b.0, b.1, to.0, to.1
            );
        }
        path
    }

    /// Places along the curve that lie outside its two vertices.
    pub fn samples(&self) -> Vec<Place> {
        let mut samples = Vec::new();
        for k in 0..self.places.len() - 1 {
            let [a, b, c, d] = self.cubic(k);
            for step in 0..100 {
                let t = f64::from(step) / 100.0;
                let u = 1.0 - t;
                let at = |a, b, c, d| {
                    u * u * u * a + 3.0 * u * u * t * b + 3.0 * u * t * t * c + t * t * t * d
                };
                samples.push((at(a.0, b.0, c.0, d.0), at(a.1, b.1, c.1, d.1)));
            }
        }
        let (tail, head) = (self.places[0], self.places[self.places.len() - 1]);
        samples.retain(|place| {
            distance(*place, tail) > RADIUS && distance(*place, head) > RADIUS + 1.0
        });
        samples
    }
}

pub fn distance(one: Place, other: Place) -> f64 {
    (one.0 - other.0).hypot(one.1 - other.1)
}

/// A label's middle and half its size, and whether there is nothing but its own arc under it.
#[derive(Clone, Copy)]
pub struct Label {
    pub middle: Place,
    pub half: Place,
    pub is_alone: bool,
}

impl Label {
    fn meets(&self, place: Place, reach: Place) -> bool {
        (self.middle.0 - place.0).abs() < self.half.0 + reach.0
            && (self.middle.1 - place.1).abs() < self.half.1 + reach.1
    }
}

/// What speaks against a label on arc k: text or a vertex under it, then other arcs, then its distance from where it is
/// looked for, at a third of the arc.
fn cost(
    label: &Label,
    k: usize,
    along: f64,
    labels: &[Label],
    samples: &[Vec<Place>],
    vertices: &[Place],
) -> f64 {
    let over_text = labels
        .iter()
        .any(|other| label.meets(other.middle, other.half));
    let over_vertex = vertices
        .iter()
        .any(|vertex| label.meets(*vertex, (RADIUS, RADIUS)));
    let is_under = |row: &&Vec<Place>| row.iter().any(|place| label.meets(*place, (2.0, 2.0)));
    let arcs = samples.iter().enumerate().filter(|(other, _)| *other != k);
    let over_arcs = arcs.filter(|(_, row)| is_under(row)).count();
    let over = if over_text || over_vertex {
        1000.0
    } else {
        0.0
    };
    over + 2.0 * over_arcs as f64 + (along - 0.3).abs()
}

/// Places each increment on its arc.
pub fn labels(texts: &[String], samples: &[Vec<Place>], vertices: &[Place]) -> Vec<Label> {
    let mut labels: Vec<Label> = Vec::new();
    for (k, text) in texts.iter().enumerate() {
        let half = (DIGIT * text.len() as f64 / 2.0 + 3.0, 8.0);
        let judged = samples[k].iter().enumerate().map(|(step, middle)| {
            let label = Label {
                middle: *middle,
                half,
                is_alone: false,
            };
            let along = step as f64 / samples[k].len() as f64;
            (cost(&label, k, along, &labels, samples, vertices), label)
        });
        let best = judged.min_by(|one, other| one.0.total_cmp(&other.0));
        // an arc under it counts 2, a text or a vertex more
        labels.extend(best.map(|(cost, label)| Label {
            is_alone: cost < 2.0,
            ..label
        }));
    }
    labels
}
