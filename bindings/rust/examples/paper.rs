//! The paper's example: its plan is built, its eleven events are sent one by one, then all of them in one run.

use kernel::{Answer, Refusal, Stopped, EVENT_WORDS, INPUT, OUTPUT_DONE, TICK};

/// One task, slice 2, buffers of one word; a segment of 4 words with a program of 2: input, output.
const PLAN: [u16; 9] = [1, 2, 1, 1, 1, 4, 2, 4656, 4672];

const EVENTS: [[u16; EVENT_WORDS]; 11] = [
    [TICK, 0, 0],
    [TICK, 0, 0],
    [TICK, 0, 0],
    [INPUT, 0, 65],
    [TICK, 0, 0],
    [TICK, 0, 0],
    [TICK, 0, 0],
    [TICK, 0, 0],
    [TICK, 0, 0],
    [OUTPUT_DONE, 0, 0],
    [OUTPUT_DONE, 0, 0],
];

/// The plan's image.
fn built() -> Result<Vec<u16>, Refusal> {
    let mut image = vec![0; kernel::size(&PLAN)?];
    kernel::build(&PLAN, &mut image)?;
    Ok(image)
}

/// The numbers of an answer; an idle one has task 0 in the paper.
fn numbers(answer: Answer) -> String {
    format!("{} {}", answer.kind.number(), answer.task.unwrap_or(0))
}

/// Sends the events one by one, and prints a line for each, up to the first that is refused.
fn print_events(image: &mut [u16]) {
    for (k, [kind, device, character]) in EVENTS.into_iter().enumerate() {
        match kernel::event(image, kind, device, character) {
            Ok(answer) => println!("{} {}", k + 1, numbers(answer)),
            Err(refusal) => {
                println!("{} refused {}", k + 1, refusal.number());
                return;
            }
        }
    }
}

/// Sends all events in one run, and prints how it ended.
fn print_run(image: &mut [u16]) {
    let (taken, number) = match kernel::run(image, &EVENTS.concat()) {
        Ok(taken) => (taken, 0),
        Err(Stopped { taken, refusal }) => (taken, refusal.number()),
    };
    println!("taken {taken}, number {number}");
}

fn main() -> Result<(), Refusal> {
    print_events(&mut built()?);
    print_run(&mut built()?);
    Ok(())
}
