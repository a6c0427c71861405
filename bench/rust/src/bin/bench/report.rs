//! The tables: nanoseconds of each kernel, and times the faster baseline.

use std::ops::Range;

/// One workload's result, a number for each kernel that does it.
pub struct Row {
    pub name: String,
    pub nanoseconds: Vec<f64>,
    /// Nanoseconds as times the faster baseline's.
    pub times: Vec<f64>,
}

impl Row {
    /// The kernels in a range are the baselines.
    pub fn new(name: &str, nanoseconds: Vec<f64>, baselines: Range<usize>) -> Row {
        let faster = nanoseconds[baselines].iter().copied().fold(f64::MAX, f64::min);
        let times = nanoseconds.iter().map(|own| own / faster).collect();
        Row { name: name.into(), nanoseconds, times }
    }

    /// A kernel's nanoseconds, with two digits where they are few.
    pub fn shown(&self, kernel: usize) -> String {
        match self.nanoseconds.get(kernel) {
            None => "-".into(),
            Some(own) if *own < 100.0 => format!("{own:.2}"),
            Some(own) => format!("{own:.0}"),
        }
    }

    /// A line of a table of so many kernels; the ratio is the first kernel's.
    pub fn line(&self, kernels: usize) -> String {
        let cells: String = (0..kernels).map(|k| format!("{:>13}", self.shown(k))).collect();
        format!("{:<44}{cells}{:>9.2}", self.name, self.times[0])
    }
}

/// The heading of a table; the ratio is to the baseline that is named.
pub fn heading(names: &[&str], baseline: &str) -> String {
    let cells: String = names.iter().map(|name| format!("{:>13}", format!("{name} ns"))).collect();
    format!(
        "{:<44}{cells}{:>9}\n{:>width$}",
        "workload",
        names[0],
        format!("/ {baseline}"),
        width = 44 + 13 * names.len() + 9
    )
}
