//! Counts of the lists that decoding has to give, for each group of calls: what they hold, and from what links they
//! come.

use super::word_by_word::{Hit, Images, List, Readings};

const OF_HITS: [&str; 7] = [
    "lists",
    "hits",
    "with ties",
    "tie at end",
    "short",
    "empty",
    "written out",
];

const OF_LINKS: [&str; 8] = [
    "one letter",
    "one link",
    "L links",
    "impossible",
    "ends there",
    "read anew",
    "by entered",
    "by first",
];

/// A row of counts for each group.
struct Table<const N: usize> {
    names: [&'static str; N],
    rows: Vec<(&'static str, [u64; N])>,
}

impl<const N: usize> Table<N> {
    fn new(names: [&'static str; N]) -> Table<N> {
        let rows = Vec::new();
        Table { names, rows }
    }

    fn begin(&mut self, group: &'static str) {
        self.rows.push((group, [0; N]));
    }

    fn add(&mut self, counted: [u64; N]) {
        if let Some((_, seen)) = self.rows.last_mut() {
            for (seen, more) in seen.iter_mut().zip(counted) {
                *seen += more;
            }
        }
    }

    fn total(&self, column: usize) -> u64 {
        self.rows.iter().map(|(_, seen)| seen[column]).sum()
    }

    fn print(&self) {
        let line = |name: &str, cells: String| println!("{name:<18}{cells}");
        let cell = |cell: String| format!("{cell:>12}");
        line("", self.names.map(|name| cell(name.to_string())).concat());
        let counted = |row: &&(&str, [u64; N])| row.1.iter().any(|seen| *seen > 0);
        for (group, seen) in self.rows.iter().filter(counted) {
            line(group, seen.map(|n| cell(n.to_string())).concat());
        }
        let totals = (0..N).map(|k| cell(self.total(k).to_string()));
        line("all", totals.collect());
    }

    /// Prints which columns have less than they should; says how many.
    fn missing(&self, least: [u64; N]) -> usize {
        let mut missing = 0;
        for (column, least) in least.into_iter().enumerate() {
            if self.total(column) < least.max(1) {
                println!("seen too rarely: {}", self.names[column]);
                missing += 1;
            }
        }
        missing
    }
}

pub struct Lists {
    hits: Table<7>,
    links: Table<8>,
}

impl Lists {
    pub fn new() -> Lists {
        Lists {
            hits: Table::new(OF_HITS),
            links: Table::new(OF_LINKS),
        }
    }

    pub fn begin(&mut self, group: &'static str) {
        self.hits.begin(group);
        self.links.begin(group);
    }

    pub fn add(&mut self, list: &List, n: u32) {
        let hits = &list.hits;
        let tie_at_end = match (hits.last(), list.next) {
            (Some(last), Some(next)) => last.score == next.score,
            _ => false,
        };
        self.hits.add([
            1,
            hits.len() as u64,
            // the order of two listed hits is by code
            hits.windows(2)
                .any(|two| two[0].score == two[1].score)
                .into(),
            // which of two words is listed is by code
            tie_at_end.into(),
            (hits.len() < n as usize).into(),
            hits.is_empty().into(),
            list.written_out,
        ]);
    }

    /// How the links of a list are stored; and, where these were made, whether other readings of them list otherwise.
    pub fn add_links(&mut self, images: &Images, hits: &[Hit], readings: Option<&Readings>) {
        let one_letter = images.letter_count() == 1;
        let one_link = !one_letter && images.stored_links == 1;
        let some_impossible = images.has_some_impossible_link();
        let ends = |hit: &Hit| images.ends_at_impossible_link(&images.words[hit.code as usize]);
        self.links.add([
            one_letter.into(),
            one_link.into(),
            (!one_letter && !one_link).into(),
            some_impossible.into(),
            (some_impossible && hits.iter().any(ends)).into(),
            readings.is_some().into(),
            readings.is_some_and(|lists| lists.entered != hits).into(),
            readings.is_some_and(|lists| lists.first != hits).into(),
        ]);
    }

    pub fn print(&self) {
        self.hits.print();
        self.links.print();
    }

    /// Prints what was seen too rarely; says how many columns that are. Ties and short lists have to be frequent, and
    /// so have both forms of the links, and lists that another reading of them would change.
    pub fn missing(&self) -> usize {
        let lists = self.hits.total(0);
        let of_hits = [1, 1, lists / 5, lists / 10, lists / 5, lists / 50, 1];
        let again = self.links.total(5);
        let of_links = [
            lists / 20,
            lists / 4,
            lists / 4,
            lists / 20,
            lists / 100,
            lists / 50,
            again / 5,
            again / 5,
        ];
        self.hits.missing(of_hits) + self.links.missing(of_links)
    }
}
