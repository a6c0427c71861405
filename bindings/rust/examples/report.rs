//! Who used the machine: two lists of events are run one after the other with the same counts, and after each the table
//! is printed: what each task used under each heading, its share of all ticks, and the idle ticks.

use kernel::{Counts, Heading, EVENT_WORDS, INPUT, TICK};
use std::error::Error;

const TASKS: u16 = 2;

/// Two tasks, slice 2, buffers of one word; two segments of 3 words, which the programs fill. The first task divides by
/// zero: load r4 0, quotient r3 r4. The second takes characters for ever: input, jump 0.
const PLAN: [u16; 15] = [TASKS, 2, 1, 1, 1, 3, 3, 3, 3, 320, 0, 2100, 4656, 3584, 0];

const EIGHT_TICKS: [[u16; EVENT_WORDS]; 8] = [[TICK, 0, 0]; 8];

const PERCENT: f64 = 100.0;

/// Prints a line a task, and the idle ticks.
fn print_table(counts: &Counts) -> Result<(), Box<dyn Error>> {
    for task in 0..TASKS {
        print!("task {task}:");
        for heading in Heading::ALL {
            print!(" {heading} {},", counts.of(task, *heading).ok_or("no such task")?);
        }
        match kernel::share(counts, task) {
            Some(share) => println!(" {:.2} percent", PERCENT * share),
            None => println!(" no ticks were counted"),
        }
    }
    println!("idle {}", counts.idle());
    Ok(())
}

fn main() -> Result<(), Box<dyn Error>> {
    let mut image = vec![0; kernel::size(&PLAN)?];
    kernel::build(&PLAN, &mut image)?;
    let mut counts = Counts::new();
    print_table(&counts)?;
    for list in [EIGHT_TICKS.concat(), [&[[INPUT, 1, 65]], &EIGHT_TICKS[..]].concat().concat()] {
        println!("events taken: {}", kernel::report(&mut image, &list, &mut counts)?);
        print_table(&counts)?;
    }
    Ok(())
}
