//! Three tasks: one sends two characters and a newline and then divides by zero, one puts out what it is sent, and one
//! loops for ever. Prints the characters that come to the second one's port, and then how each task stands.

use kernel::{Port, Refusal, Status, OUTPUT_DONE, TICK};
use std::error::Error;
use std::process::ExitCode;

/// The second task, whose device is looked at.
const WRITER: u16 = 1;

const TICKS: usize = 200;

/// The slice, and the capacities of input, output and message buffers.
const SLICE_AND_CAPACITIES: [u16; 4] = [4, 1, 1, 2];

/// More words than any of the scripts has.
const MOST_WORDS: usize = 64;

/// The names that the scripts share: the tasks' numbers.
const NAMES: &str = "sender = 0
writer = 1
";

const SCRIPTS: [&str; 3] = [
    "      load r2 writer    ; to whom it sends
           load r3 72        ; H
           send
           load r3 105       ; i
           send
           load r3 10        ; the newline
           send
           load r4 0
           quotient r3 r4    ; a fault: the task is stopped
    ",
    "      load r2 sender    ; from whom it receives
     next: receive           ; the word comes in r3 ..
           output            ; .. and goes to the device from there
           jump next
    ",
    "loop: jump loop",
];

/// The plan of the scripts, a segment of its own length for each.
fn plan() -> Result<Vec<u16>, Box<dyn Error>> {
    let mut plan = vec![u16::try_from(SCRIPTS.len())?];
    plan.extend(SLICE_AND_CAPACITIES);
    let mut programs = Vec::new();
    for script in SCRIPTS {
        let mut words = [0; MOST_WORDS];
        let count = kernel::translate(NAMES.as_bytes(), script.as_bytes(), &mut words)?;
        plan.extend([u16::try_from(count)?; 2]);
        programs.extend_from_slice(&words[..count]);
    }
    plan.extend(programs);
    Ok(plan)
}

/// The plan's image.
fn built(plan: &[u16]) -> Result<Vec<u16>, Refusal> {
    let mut image = vec![0; kernel::size(plan)?];
    kernel::build(plan, &mut image)?;
    Ok(image)
}

/// Prints the character that a device puts out, if it does, and tells the kernel that it is out.
fn put_out(image: &mut [u16], device: u16) -> Result<(), Refusal> {
    if let Some(Port::Busy(character)) = kernel::port(image, device)? {
        print!("{}", char::from(character));
        kernel::event(image, OUTPUT_DONE, device, 0)?;
    }
    Ok(())
}

/// How a task stands: of one that waits for another, for which, and of a stopped one, its R0 and why.
fn standing(image: &[u16], number: u16) -> Result<String, Box<dyn Error>> {
    let task = kernel::task(image, number)?.ok_or("no such task")?;
    let next = kernel::register(image, number, 0)?.ok_or("no such register")?;
    Ok(match (task.status, task.peer, task.error) {
        (Status::WaitsToSend, Some(peer), _) => format!("{} to task {peer}", task.status),
        (Status::WaitsToReceive, Some(peer), _) => format!("{} from task {peer}", task.status),
        (Status::Stopped, _, Some(error)) => format!("{}, R0 = {next}: {error}", task.status),
        _ => task.status.to_string(),
    })
}

fn run() -> Result<(), Box<dyn Error>> {
    let mut image = built(&plan()?)?;
    for _ in 0..TICKS {
        kernel::event(&mut image, TICK, 0, 0)?;
        put_out(&mut image, WRITER)?;
    }
    for number in 0..image[kernel::AT_TASKS] {
        println!("task {number}: {}", standing(&image, number)?);
    }
    Ok(())
}

fn main() -> ExitCode {
    match run() {
        Ok(()) => ExitCode::SUCCESS,
        Err(error) => {
            eprintln!("three: {error}");
            ExitCode::FAILURE
        }
    }
}
