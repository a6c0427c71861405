//! The commands of the model.

#![forbid(unsafe_code)]

use model::events::Answer;
use model::happening::many::{self, Sights};
use model::reporting::{self, shares};
use model::rng::Rng;
use model::{building, cases, happening, lists, looking, ordering, runner_files, running, texts, vectors, wrong};
use std::fs::{self, File};
use std::io::{BufWriter, Write};
use std::path::Path;
use std::process::ExitCode;

const USAGE: &str = "usage: model check-vectors|build-vectors|order-vectors|event-vectors|\
                     run-vectors|text-vectors|print-vectors|look-vectors|broken-vectors|\
                     report-vectors|share-vectors|many-events SEED COUNT FILE\n       model runner-cases FOLDER";

/// The numbers that an event in a file can have.
const EVENT_NUMBERS: [u16; 4] = [0, 7, 8, 9];
/// The numbers that a run in a file can have.
const RUN_NUMBERS: [u16; 10] = [0, 1, 2, 3, 4, 5, 6, 7, 8, 9];
/// The numbers that a translation can have.
const TEXT_NUMBERS: [u16; 5] = [0, 13, 14, 15, 16];
/// The numbers that a print can have.
const PRINT_NUMBERS: [u16; 2] = [0, 16];
/// The numbers that a look can have, and those of the first broken rule.
const LOOK_NUMBERS: [u16; 8] = [0, 1, 2, 3, 4, 5, 6, 65535];
const BROKEN_NUMBERS: [u16; 7] = [0, 1, 2, 3, 4, 5, 6];
/// The numbers that a run that counts can have.
const REPORT_NUMBERS: [u16; 12] = [0, 1, 2, 3, 4, 5, 6, 7, 8, 9, 12, 17];
/// What a share is answered with: that there is none, and that there is one.
const SHARE_ANSWERS: [u16; 2] = [0, 1];
/// The kinds of answer.
const ANSWER_KINDS: [u16; 10] = [0, 1, 2, 3, 4, 5, 6, 7, 8, 9];

/// Of so many events each answer and each number must be often among them.
const A_GREAT_MANY: usize = 1_000_000;
const OFTEN: usize = 1000;
/// So many translations, or prints, of each number are in every file of them.
const SOME: usize = 20;

/// Values, each with how many cases there are of it.
type Tally = Vec<(u16, usize)>;

fn main() -> ExitCode {
    let arguments: Vec<String> = std::env::args().skip(1).collect();
    let arguments: Vec<&str> = arguments.iter().map(String::as_str).collect();
    match run(&arguments) {
        Ok(()) => ExitCode::SUCCESS,
        Err(message) => {
            eprintln!("{message}");
            ExitCode::FAILURE
        }
    }
}

fn run(arguments: &[&str]) -> Result<(), String> {
    match *arguments {
        ["runner-cases", folder] => runner_cases(Path::new(folder)),
        [command, seed, count, file] => {
            let seed = seed.parse().map_err(|_| USAGE)?;
            let count = count.parse().map_err(|_| USAGE)?;
            make_file(command, seed, count, file)
        }
        _ => Err(USAGE.into()),
    }
}

/// Makes the file of a command.
fn make_file(command: &str, seed: u64, count: usize, file: &str) -> Result<(), String> {
    match command {
        "check-vectors" => check_vectors(seed, count, file),
        "build-vectors" => build_vectors(seed, count, file),
        "order-vectors" => order_vectors(seed, count, file),
        "event-vectors" => event_vectors(seed, count, file),
        "run-vectors" => run_vectors(seed, count, file),
        "text-vectors" => text_vectors(seed, count, file),
        "print-vectors" => print_vectors(seed, count, file),
        "look-vectors" => look_vectors(seed, count, file),
        "broken-vectors" => broken_vectors(seed, count, file),
        "report-vectors" => report_vectors(seed, count, file),
        "share-vectors" => share_vectors(seed, count, file),
        "many-events" => many_events(seed, count, file),
        _ => Err(USAGE.into()),
    }
}

/// Writes the check's vectors and prints how many there are of each number.
fn check_vectors(seed: u64, count: usize, file: &str) -> Result<(), String> {
    let cases = cases::collect(seed, count);
    write(file, &cases, vectors::check_record, &wrong::checks())?;
    let rows = cases.iter().map(|case| (case.expected, 1));
    report("number", &tally(&[0, 1, 2, 3, 4, 5, 6], rows));
    total(cases.len());
    Ok(())
}

/// Writes the build's vectors and prints how many there are of each number.
fn build_vectors(seed: u64, count: usize, file: &str) -> Result<(), String> {
    let cases = building::collect(seed, count);
    write(file, &cases, vectors::build_record, &wrong::builds())?;
    report("number", &tally(&[0, 3, 11, 12], cases.iter().map(|case| (case.expected, 1))));
    total(cases.len());
    Ok(())
}

/// Writes the vectors of orders and prints how many there are of each outcome.
fn order_vectors(seed: u64, count: usize, file: &str) -> Result<(), String> {
    let groups = ordering::collect(seed, count);
    write(file, &groups, vectors::order_records, &wrong::orders())?;
    let cases = groups.iter().flat_map(|group| &group.cases);
    let rows = cases.clone().map(|case| (case.expected, case.span));
    report("number", &tally(&[0, 1, 2, 3, 4], rows));
    total(cases.map(|case| case.span).sum());
    Ok(())
}

/// Writes the vectors of events and prints how many there are of each answer
/// and of each number; fails where there is none of one.
fn event_vectors(seed: u64, count: usize, file: &str) -> Result<(), String> {
    let sequences = happening::collect(seed, count);
    write(file, &sequences, vectors::event_records, &wrong::events())?;
    let steps = sequences.iter().flat_map(|sequence| &sequence.steps);
    let outcomes: Vec<_> = steps.map(|step| step.outcome).collect();
    report_outcomes(&outcomes, 1)
}

/// Writes the vectors of runs and prints how many there are of each number and
/// how many events they take; fails where there is none of a number.
fn run_vectors(seed: u64, count: usize, file: &str) -> Result<(), String> {
    let courses = running::collect(seed, count);
    write(file, &courses, vectors::run_records, &wrong::runs())?;
    let cases = courses.iter().flat_map(|course| &course.cases);
    let numbers = tally(&RUN_NUMBERS, cases.clone().map(|case| (case.number, 1)));
    report("number", &numbers);
    total(cases.clone().count());
    println!("{} events taken", cases.map(|case| case.taken).sum::<usize>());
    require_each("number", &numbers, 1)
}

/// Writes the vectors of texts and prints how many there are of each number;
/// fails where there are too few of one.
fn text_vectors(seed: u64, count: usize, file: &str) -> Result<(), String> {
    let cases = texts::collect(seed, count);
    write(file, &cases, vectors::text_record, &wrong::translations())?;
    let numbers = tally(&TEXT_NUMBERS, cases.iter().map(|case| (case.translation.number, 1)));
    report("number", &numbers);
    total(cases.len());
    require_each("number", &numbers, SOME)
}

/// Writes the vectors of prints and prints how many there are of each number;
/// fails where there are too few of one.
fn print_vectors(seed: u64, count: usize, file: &str) -> Result<(), String> {
    let cases = lists::collect(seed, count);
    write(file, &cases, vectors::print_record, &wrong::prints())?;
    let numbers = tally(&PRINT_NUMBERS, cases.iter().map(|case| (case.number, 1)));
    report("number", &numbers);
    total(cases.len());
    require_each("number", &numbers, SOME)
}

/// Writes the vectors of looks and prints how many there are of each number;
/// fails where there are too few of one.
fn look_vectors(seed: u64, count: usize, file: &str) -> Result<(), String> {
    let groups = looking::collect(seed, count);
    write(file, &groups, vectors::look_records, &wrong::looks())?;
    let cases = groups.iter().flat_map(|group| &group.cases);
    let numbers = tally(&LOOK_NUMBERS, cases.clone().map(|case| (case.seen.number, 1)));
    report("number", &numbers);
    total(cases.count());
    require_each("number", &numbers, SOME)
}

/// Writes the vectors of broken rules and prints how many there are of each
/// number and of each rule; fails where there is none of one.
fn broken_vectors(seed: u64, count: usize, file: &str) -> Result<(), String> {
    let groups = looking::collect_broken(seed, count);
    write(file, &groups, vectors::look_records, &wrong::broken())?;
    let seen = groups.iter().flat_map(|group| &group.cases).map(|case| case.seen);
    let numbers = tally(&BROKEN_NUMBERS, seen.clone().map(|seen| (seen.number, 1)));
    let all: Vec<u16> = (1..=looking::RULES).collect();
    let rules = tally(&all, seen.clone().map(|seen| (seen.fields[0], 1)));
    report("number", &numbers);
    report("rule", &rules);
    total(seen.count());
    require_each("number", &numbers, 1)?;
    require_each("rule", &rules, 1)
}

/// Writes the vectors of runs that count and prints how many there are of each
/// number and how many events they take; fails where there is none of a number.
fn report_vectors(seed: u64, count: usize, file: &str) -> Result<(), String> {
    let nights = reporting::collect(seed, count);
    write(file, &nights, vectors::report_records, &wrong::reports())?;
    let cases = nights.iter().flat_map(|night| &night.courses).flat_map(|course| &course.cases);
    let numbers = tally(&REPORT_NUMBERS, cases.clone().map(|case| (case.number, 1)));
    report("number", &numbers);
    total(cases.clone().count());
    println!("{} events taken", cases.map(|case| case.taken).sum::<usize>());
    require_each("number", &numbers, 1)
}

/// Writes the vectors of shares and prints how many there are and how many have
/// none; fails where there are too few of either.
fn share_vectors(seed: u64, count: usize, file: &str) -> Result<(), String> {
    let groups = shares::collect(seed, count);
    write(file, &groups, vectors::share_records, &wrong::shares())?;
    let cases = groups.iter().flat_map(|group| &group.cases);
    let answers = tally(&SHARE_ANSWERS, cases.clone().map(|case| (case.share.is_some().into(), 1)));
    report("answer", &answers);
    total(cases.count());
    require_each("answer", &answers, SOME)
}

/// Writes at least `count` random events and prints how many there are of each
/// answer and of each number, and before how many of them some things stood.
/// Fails where one of these is rare among a great many.
fn many_events(seed: u64, count: usize, file: &str) -> Result<(), String> {
    let mut sights = Sights::default();
    let outcomes = write_events(seed, count, file, &mut sights).map_err(|error| format!("{file}: {error}"))?;
    let least = if count < A_GREAT_MANY { 0 } else { OFTEN };
    for (name, events) in sights.rows() {
        println!("{name}: {events} cases");
        require(events >= least, &format!("{name}: too few cases"))?;
    }
    println!("{} words of an image, on the average", sights.words / outcomes.len().max(1));
    report_outcomes(&outcomes, least)
}

/// Writes sequences until there are so many events, and gives their outcomes.
fn write_events(seed: u64, count: usize, file: &str, sights: &mut Sights) -> std::io::Result<Vec<Result<Answer, u16>>> {
    let mut rng = Rng::new(seed);
    let mut out = BufWriter::new(File::create(file)?);
    let mut outcomes = Vec::new();
    while outcomes.len() < count {
        let sequence = many::sequence(&mut rng, sights);
        outcomes.extend(sequence.steps.iter().map(|step| step.outcome));
        out.write_all(&vectors::encode(&[sequence], vectors::event_records))?;
    }
    out.flush()?;
    Ok(outcomes)
}

/// Writes the runner's files, a folder for each case, and prints each case's
/// name and then the lines that the runner prints. The folder must be new.
fn runner_cases(folder: &Path) -> Result<(), String> {
    let said = |error| format!("{}: {error}", folder.display());
    fs::create_dir(folder).map_err(said)?;
    for case in runner_files::all() {
        let own = folder.join(&case.name);
        fs::create_dir(&own).map_err(said)?;
        for (file, bytes) in [("plan.bin", &case.plan), ("events.bin", &case.events)] {
            if let Some(bytes) = bytes {
                fs::write(own.join(file), bytes).map_err(said)?;
            }
        }
        print!("{}\n{}", case.name, case.lines);
    }
    Ok(())
}

/// Writes a file of cases and of wrong records, and prints its size and how many
/// are wrong.
fn write<C>(file: &str, cases: &[C], record: fn(&C) -> Vec<u16>, wrong: &[Vec<u16>]) -> Result<(), String> {
    let bytes = vectors::encode_with(cases, record, wrong);
    fs::write(file, &bytes).map_err(|error| format!("{file}: {error}"))?;
    println!("{} bytes", bytes.len());
    println!("{} wrong ones", wrong.len());
    Ok(())
}

/// Prints how many events there are of each answer and of each number; fails
/// where there are too few of one.
fn report_outcomes(outcomes: &[Result<Answer, u16>], least: usize) -> Result<(), String> {
    let answers = outcomes.iter().filter_map(|outcome| outcome.ok());
    let kinds = tally(&ANSWER_KINDS, answers.map(|answer| (answer.kind, 1)));
    let rows = outcomes.iter().map(|outcome| (outcome.err().unwrap_or(0), 1));
    let numbers = tally(&EVENT_NUMBERS, rows);
    report("kind", &kinds);
    report("number", &numbers);
    total(outcomes.len());
    require_each("kind", &kinds, least)?;
    require_each("number", &numbers, least)
}

/// How many cases there are of each value. A row is a value and how many cases
/// have it.
fn tally(values: &[u16], rows: impl Iterator<Item = (u16, usize)>) -> Tally {
    let rows: Tally = rows.collect();
    let cases_of = |value: u16| {
        let of_value = rows.iter().filter(|(other, _)| *other == value);
        of_value.map(|(_, cases)| cases).sum()
    };
    values.iter().map(|&value| (value, cases_of(value))).collect()
}

/// Fails where there are too few cases of some value.
fn require_each(name: &str, tally: &Tally, least: usize) -> Result<(), String> {
    tally.iter().try_for_each(|&(value, cases)| require(cases >= least, &format!("{name} {value}: too few cases")))
}

/// Fails with a message where a condition does not hold.
fn require(holds: bool, message: &str) -> Result<(), String> {
    if holds {
        Ok(())
    } else {
        Err(message.into())
    }
}

/// Prints how many cases there are of each value.
fn report(name: &str, tally: &Tally) {
    for (value, cases) in tally {
        println!("{name} {value}: {cases} cases");
    }
}

/// Prints how many cases there are in all.
fn total(cases: usize) {
    println!("{cases} cases");
}
