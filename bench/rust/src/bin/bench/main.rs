//! Measures the kernels side by side, and compares them with the model's
//! vectors.

mod assembler;
mod chance;
mod counting;
mod kernels;
mod lists;
mod measure;
mod picture;
mod programs;
mod report;
mod texts;
mod vectors;
mod workloads;

use report::Row;
use std::env;
use std::fs;
use std::process::ExitCode;

fn main() -> ExitCode {
    let arguments: Vec<String> = env::args().skip(1).collect();
    let outcome = match arguments.iter().map(String::as_str).collect::<Vec<_>>()[..] {
        ["verify", ref files @ ..] if !files.is_empty() => verify(files),
        ["measure", svg] => measure_all(svg),
        ["texts"] => measure_texts(&kernel_names()),
        ["counting"] => measure_counting(),
        _ => Err("use: bench verify FILES, or bench measure SVG, or bench texts, or bench counting".into()),
    };
    match outcome {
        Ok(()) => ExitCode::SUCCESS,
        Err(what) => {
            eprintln!("bench: {what}");
            ExitCode::FAILURE
        }
    }
}

/// Compares every kernel with every file of vectors.
fn verify(files: &[&str]) -> Result<(), String> {
    for kernel in kernels::all() {
        let mut cases = 0;
        for file in files {
            cases += vectors::compare(&kernel, file)?;
        }
        println!("{}: {cases} cases compared, no difference", kernel.name);
    }
    Ok(())
}

fn kernel_names() -> Vec<&'static str> {
    kernels::all().iter().map(|kernel| kernel.name).collect()
}

/// Measures every workload, prints the tables and writes the picture of the
/// first.
fn measure_all(svg: &str) -> Result<(), String> {
    let kernels = kernels::all();
    let names = kernel_names();
    let baselines = kernels.len() - 3..kernels.len() - 1;
    println!("Nanoseconds an event or call, the least of {} rounds.", measure::ROUNDS);
    println!("{}", report::heading(&names, "faster"));
    let mut rows = Vec::new();
    for workload in workloads::all() {
        let row = Row::new(&workload.name, measure::measure(&kernels, &workload)?, baselines.clone());
        println!("{}", row.line(names.len()));
        rows.push(row);
    }
    println!();
    measure_counting()?;
    println!();
    measure_texts(&names)?;
    fs::write(svg, picture::picture(&names, &rows)).map_err(|error| format!("{svg}: {error}"))
}

/// Measures every run of the product once more with counts, and prints the
/// table.
fn measure_counting() -> Result<(), String> {
    println!("Counting: nanoseconds an event of the product, the least of {} rounds.", measure::ROUNDS);
    println!("{}", counting::heading());
    let mut most = 0f64;
    for pair in workloads::all().iter().filter_map(counting::measure) {
        let pair = pair?;
        println!("{}", pair.line());
        most = most.max(pair.ratio());
    }
    println!("{:<70}{most:>9.2}", "the largest ratio");
    Ok(())
}

/// Measures the translations of texts and the printing, and prints their table.
fn measure_texts(names: &[&str]) -> Result<(), String> {
    let translators = kernels::with_texts();
    println!("Texts: nanoseconds a line, the least of {} rounds.", measure::ROUNDS);
    println!("{}", report::heading(names, "Rust"));
    for workload in workloads::texts() {
        let row = Row::new(
            &workload.name,
            measure::measure(&translators, &workload)?,
            translators.len() - 1..translators.len(),
        );
        println!("{}", row.line(names.len()));
    }
    Ok(())
}
