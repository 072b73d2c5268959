//! The tables and the chart of what was measured.

use std::fmt::Write;

/// What was measured of an operation, each of ours, the crate's and C's: nanoseconds (the least and the
/// median of the rounds) and instructions of one call. No instructions where valgrind is not there.
pub struct Row {
    pub name: String,
    /// Of bad input the row of good input that it is compared with.
    pub good: String,
    pub nanoseconds: [[f64; 2]; 3],
    pub instructions: Option<[f64; 3]>,
}

impl Row {
    fn is_good(&self) -> bool {
        self.good == "-"
    }

    // Instructions where they were counted, since they are steady, else the least times.
    fn costs(&self) -> [f64; 3] {
        self.instructions
            .unwrap_or(self.nanoseconds.map(|least| least[0]))
    }

    // Ours over the crate's.
    fn ratio(&self) -> f64 {
        self.costs()[0] / self.costs()[1]
    }

    // Ours over C's.
    fn left(&self) -> f64 {
        self.costs()[0] / self.costs()[2]
    }

    // Ours over ours of the row of good input.
    fn of_good(&self, rows: &[Row]) -> Option<f64> {
        let good = rows.iter().find(|row| row.name == self.good)?;
        Some(self.costs()[0] / good.costs()[0])
    }

    fn columns(&self) -> String {
        let times = self.nanoseconds;
        let times = times.map(|[least, median]| format!("{least:.0}/{median:.0}"));
        let counts = match self.instructions {
            Some(counts) => counts.map(|n| format!("{n:.0}")),
            None => [(); 3].map(|_| "not counted".to_string()),
        };
        format!(
            "{}|{}|{}|{:.2}|{:.2}",
            self.name,
            times.join("|"),
            counts.join("|"),
            self.ratio(),
            self.left()
        )
    }
}

fn numbers<const N: usize>(columns: &[&str]) -> [f64; N] {
    std::array::from_fn(|i| columns[i].parse().unwrap())
}

/// Reads the lines of `time`, and those of the counts, both with tabs between their columns.
pub fn read(times: &str, counts: &str) -> Vec<Row> {
    let columns = |line: &'_ str| -> Vec<String> { line.split('\t').map(str::to_string).collect() };
    let counts: Vec<Vec<String>> = counts.lines().map(columns).collect();
    times
        .lines()
        .map(|line| {
            let line: Vec<&str> = line.split('\t').collect();
            let counted = counts.iter().find(|counted| counted[0] == line[0]);
            let [a, b, c, d, e, f] = numbers(&line[2..]);
            Row {
                name: line[0].to_string(),
                good: line[1].to_string(),
                nanoseconds: [[a, b], [c, d], [e, f]],
                instructions: counted
                    .map(|n| numbers(&n[1..].iter().map(String::as_str).collect::<Vec<_>>())),
            }
        })
        .collect()
}

const HEADS: &str = "|operation|ours, ns|crate, ns|C, ns|ours, instructions|crate, instructions|C, instructions|ours / crate|ours / C|";

/// The table in Markdown of the rows that are not of bad input.
pub fn table(rows: &[Row]) -> String {
    let mut text = format!("{HEADS}\n{}\n", "|---".repeat(9) + "|");
    for row in rows.iter().filter(|row| row.is_good()) {
        writeln!(text, "|{}|", row.columns()).unwrap();
    }
    text
}

/// That of bad input, with ours over ours of good input in its last column.
pub fn table_of_bad(rows: &[Row]) -> String {
    let mut text = format!("{HEADS}bad / good|\n{}\n", "|---".repeat(10) + "|");
    for row in rows.iter().filter(|row| !row.is_good()) {
        let of_good = row.of_good(rows).unwrap();
        writeln!(text, "|{}|{of_good:.2}|", row.columns()).unwrap();
    }
    text
}

/// What the bars, the marks and the line of the chart are, in a line of the chart.
fn legend(y: f64) -> String {
    format!(
        "<rect x=\"60\" y=\"{0:.0}\" width=\"26\" height=\"14\" fill=\"#2a7f62\"/>\n<text x=\"92\" y=\"{1:.0}\">instructions of this library / of the crate</text>\n<rect x=\"374\" y=\"{0:.0}\" width=\"2\" height=\"14\" fill=\"black\"/>\n<text x=\"384\" y=\"{1:.0}\">of C written by hand / of the crate</text>\n<line x1=\"640\" y1=\"{0:.0}\" x2=\"640\" y2=\"{1:.0}\" stroke=\"black\" stroke-dasharray=\"4 3\"/>\n<text x=\"650\" y=\"{1:.0}\">1, the crate itself</text>\n",
        y - 12.0,
        y
    )
}

/// A bar for the ratio of each operation that is not on bad input, a mark on it where C's is, a line at 1,
/// and below them what they are.
pub fn chart(rows: &[Row]) -> String {
    let rows: Vec<&Row> = rows.iter().filter(|row| row.is_good()).collect();
    let (left, scale, step) = (330.0, 330.0, 26.0);
    let end = 16.0 + step * rows.len() as f64;
    let height = end + 34.0;
    let mut svg = format!(
        "<svg xmlns=\"http://www.w3.org/2000/svg\" width=\"800\" height=\"{height:.0}\" font-family=\"sans-serif\" font-size=\"13\">\n<rect width=\"800\" height=\"{height:.0}\" fill=\"white\"/>\n"
    );
    for (i, row) in rows.iter().enumerate() {
        let (y, ratio) = (10.0 + step * i as f64, row.ratio());
        let color = if ratio <= 1.0 { "#2a7f62" } else { "#b5541c" };
        let digits = if ratio < 0.095 { 3 } else { 2 };
        writeln!(
            svg,
            "<text x=\"{:.0}\" y=\"{:.0}\" text-anchor=\"end\">{}</text>\n<rect x=\"{left:.0}\" y=\"{y:.0}\" width=\"{:.1}\" height=\"18\" fill=\"{color}\"/>\n<rect x=\"{:.1}\" y=\"{y:.0}\" width=\"2\" height=\"18\" fill=\"black\"/>\n<text x=\"{:.1}\" y=\"{:.0}\">{ratio:.digits$}</text>",
            left - 8.0,
            y + 14.0,
            row.name,
            scale * ratio,
            left + scale * ratio / row.left(),
            left + scale * ratio + 6.0,
            y + 14.0
        )
        .unwrap();
    }
    writeln!(
        svg,
        "<line x1=\"{0:.0}\" y1=\"0\" x2=\"{0:.0}\" y2=\"{end:.0}\" stroke=\"black\" stroke-dasharray=\"4 3\"/>\n{1}</svg>",
        left + scale,
        legend(height - 14.0)
    )
    .unwrap();
    svg
}
