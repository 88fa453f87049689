//! What is printed: the tables of docs/BENCHMARKS.md, or a line for each row with the library's
//! time, for `bench/compare`.

/// The time of one unit of work in nanoseconds, of each matcher that can do it.
pub struct Times {
    pub library: f64,
    pub hyperscan: Option<f64>,
    pub ordinary: Option<f64>,
}

pub struct Page {
    /// Is the library measured alone? Then there are lines of a name, a tab and a time, no tables.
    pub alone: bool,
}

/// Where there is nothing to say.
pub const NONE: &str = "–";

impl Page {
    pub fn say(&self, text: &str) {
        if !self.alone {
            println!("{text}");
        }
    }

    /// Begins a table of such cells, and then the times of a unit.
    pub fn table(&self, title: &str, cells: &[&str], unit: &str, ordinary: bool) {
        let library = format!("Library, {unit}");
        let mut heads = [cells, &[&library, "Hyperscan", "library / Hyperscan"]].concat();
        if ordinary {
            heads.extend(["ordinary Rust", "library / ordinary"]);
        }
        self.say(&format!("\n### {title}\n\n{}", row(&heads)));
        self.say(&format!("|{}", "---|".repeat(heads.len())));
    }

    /// A row: cells that name it, more of them, and the times.
    pub fn row(&self, named: &[&str], more: &[&str], times: &Times) {
        if self.alone {
            println!("{}\t{}", named.join(" "), times.library);
            return;
        }
        let ratio = |time: f64| figure(times.library / time);
        let mut figures = vec![figure(times.library)];
        figures.push(times.hyperscan.map_or(NONE.to_string(), figure));
        figures.push(times.hyperscan.map_or(NONE.to_string(), ratio));
        figures.extend(times.ordinary.map(figure));
        figures.extend(times.ordinary.map(ratio));
        let figures: Vec<&str> = figures.iter().map(String::as_str).collect();
        println!("{}", row(&[named, more, &figures].concat()));
    }
}

/// A row of a table.
pub fn row(cells: &[&str]) -> String {
    format!("| {} |", cells.join(" | "))
}

/// A number to about three digits, and no fewer than its whole part has.
pub fn figure(number: f64) -> String {
    match number {
        _ if number < 0.1 => format!("{number:.3}"),
        _ if number < 10.0 => format!("{number:.2}"),
        _ if number < 100.0 => format!("{number:.1}"),
        _ => whole(number.round() as usize),
    }
}

/// A whole number with its thousands parted.
pub fn whole(number: usize) -> String {
    match number {
        0..1_000 => number.to_string(),
        _ => format!("{},{:03}", whole(number / 1_000), number % 1_000),
    }
}
