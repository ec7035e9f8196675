//! Counts of answers, for each group of calls: how often a value, and how often each refusal. A group says which
//! answers it has to show; a count of 0 there is a fault of the test. And counts of voice models by the form of their
//! links.

/// Values, and the refusals 1 to 19.
const COLUMNS: usize = 20;

struct Row {
    group: &'static str,
    due: Vec<usize>,
    seen: Vec<u64>,
}

pub struct Counts {
    /// The refusals that the call can answer; column 0 is for values.
    numbers: Vec<usize>,
    rows: Vec<Row>,
}

impl Counts {
    pub fn of(numbers: &[usize]) -> Counts {
        Counts {
            numbers: numbers.to_vec(),
            rows: Vec::new(),
        }
    }

    /// Opens a group; `due` are the refusals that it has to show, 0 for a value.
    pub fn begin(&mut self, group: &'static str, due: &[usize]) {
        self.rows.push(Row {
            group,
            due: due.to_vec(),
            seen: vec![0; COLUMNS],
        });
    }

    pub fn group(&self) -> &'static str {
        self.rows.last().map_or("", |row| row.group)
    }

    pub fn add(&mut self, answer: i32) {
        let column = if answer < 0 { -answer as usize } else { 0 };
        if let Some(row) = self.rows.last_mut() {
            row.seen[column.min(COLUMNS - 1)] += 1;
        }
    }

    fn total(&self, column: usize) -> u64 {
        self.rows.iter().map(|row| row.seen[column]).sum()
    }

    pub fn calls(&self) -> u64 {
        (0..COLUMNS).map(|column| self.total(column)).sum()
    }

    pub fn print(&self, value: &str) {
        let heads: String = self.numbers.iter().map(|k| format!("{k:>8}")).collect();
        println!("{:<18}{value:>9}{heads}   calls", "");
        for row in &self.rows {
            let seen = |column: &usize| format!("{:>8}", row.seen[*column]);
            let cells: String = self.numbers.iter().map(seen).collect();
            let calls: u64 = row.seen.iter().sum();
            println!("{:<18}{:>9}{cells}{calls:>8}", row.group, row.seen[0]);
        }
        let seen = |column: &usize| format!("{:>8}", self.total(*column));
        let cells: String = self.numbers.iter().map(seen).collect();
        println!(
            "{:<18}{:>9}{cells}{:>8}",
            "all",
            self.total(0),
            self.calls()
        );
    }

    /// Prints each answer that was due and never seen; says how many there are.
    pub fn missing(&self) -> usize {
        let mut missing = 0;
        for row in &self.rows {
            for answer in row.due.iter().filter(|answer| row.seen[**answer] == 0) {
                println!("never seen in '{}': {answer}", row.group);
                missing += 1;
            }
        }
        for column in [0].iter().chain(&self.numbers) {
            if self.total(*column) == 0 {
                println!("never seen: {column}");
                missing += 1;
            }
        }
        missing
    }
}

/// Voice models by the form of their links. With one letter both forms are the same.
#[derive(Default)]
pub struct Forms {
    one_letter: u64,
    one_link: u64,
    link_for_each: u64,
}

impl Forms {
    pub fn add(&mut self, (letters, links): (usize, usize)) {
        let form = match (letters, links) {
            (1, _) => &mut self.one_letter,
            (_, 1) => &mut self.one_link,
            _ => &mut self.link_for_each,
        };
        *form += 1;
    }

    pub fn print(&self, what: &str) {
        println!(
            "{what}: {} with one letter; with more, {} with one link and {} with a link for each",
            self.one_letter, self.one_link, self.link_for_each
        );
    }

    /// Says how many were seen too rarely, and prints it then: each form has to be a quarter of all, one letter a
    /// hundredth.
    pub fn missing(&self) -> usize {
        let all = self.one_letter + self.one_link + self.link_for_each;
        let rare = |seen: u64, least: u64| usize::from(seen < least.max(1));
        let missing = rare(self.one_letter, all / 100)
            + rare(self.one_link, all / 4)
            + rare(self.link_for_each, all / 4);
        if missing > 0 {
            self.print("seen too rarely");
        }
        missing
    }
}
