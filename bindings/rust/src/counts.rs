//! Who used the machine: a run that counts, and a task's share of all ticks.

use crate::{c, count, unless_refused, Heading, Stopped, MOST_TASKS};

/// How many headings a task has.
pub const HEADINGS: usize = 6;

/// How many counts there are, whatever an image's number of tasks is.
pub const COUNTS: usize = 97;

/// Where the count of the idle ticks stands, after the rows of the tasks.
pub const AT_IDLE_COUNT: usize = 96;

/// How many ticks each of sixteen tasks used under each [`Heading`], and how many found no task ready. Each count ends
/// at [`u32::MAX`] by itself; the sum of them may be larger.
#[derive(Clone, Copy, Debug, PartialEq, Eq, Hash)]
pub struct Counts {
    numbers: [u32; COUNTS],
}

impl Counts {
    /// Nothing is counted yet.
    #[must_use]
    pub const fn new() -> Counts {
        Counts { numbers: [0; COUNTS] }
    }

    /// The counts as they are kept in a file, say: the row of each task in turn, its headings by their numbers, then
    /// the idle ticks at [`AT_IDLE_COUNT`].
    #[must_use]
    pub const fn with_numbers(numbers: [u32; COUNTS]) -> Counts {
        Counts { numbers }
    }

    /// The same numbers again.
    #[must_use]
    pub const fn numbers(&self) -> &[u32; COUNTS] {
        &self.numbers
    }

    /// What a task used under a heading; `None` of a task of 16 or more.
    #[must_use]
    pub fn of(&self, task: u16, heading: Heading) -> Option<u32> {
        let place = HEADINGS * usize::from(task) + usize::from(heading.number());
        (task < MOST_TASKS).then(|| self.numbers[place])
    }

    /// How many ticks found no task ready.
    #[must_use]
    pub const fn idle(&self) -> u32 {
        self.numbers[AT_IDLE_COUNT]
    }
}

impl Default for Counts {
    fn default() -> Counts {
        Counts::new()
    }
}

/// A run that counts: [`run`](crate::run), and each tick that is taken is added to its count. Counts that a run left go
/// on with the next, of the same image or of another.
///
/// # Errors
///
/// As [`run`](crate::run); and [`Refusal::CountFull`](crate::Refusal::CountFull) where a tick is accepted else, and the
/// count that it belongs to is at its end. Image and counts hold exactly the events that were taken.
///
/// # Example
///
/// Who used the machine, in percent:
///
/// ```
/// use kernel::{Counts, Heading, TICK};
///
/// // One task, which jumps to itself for ever.
/// let plan = [1, 3, 1, 1, 1, 2, 2, 3584, 0];
/// let mut image = vec![0; kernel::size(&plan)?];
/// kernel::build(&plan, &mut image)?;
///
/// // With a slice of 3, every fourth tick passes the turn on.
/// let mut counts = Counts::new();
/// assert_eq!(kernel::report(&mut image, &[TICK, 0, 0, TICK, 0, 0, TICK, 0, 0, TICK, 0, 0], &mut counts), Ok(4));
/// assert_eq!(counts.of(0, Heading::Orders), Some(3));
/// assert_eq!(counts.of(0, Heading::PassedTurns), Some(1));
/// assert_eq!(kernel::share(&counts, 0), Some(1.0));
/// # Ok::<(), kernel::Refusal>(())
/// ```
pub fn report(image: &mut [u16], events: &[u16], counts: &mut Counts) -> Result<usize, Stopped> {
    let numbers = &mut counts.numbers;
    // SAFETY: as lib.rs says.
    let ran = unsafe {
        c::kernel_report(
            image.as_mut_ptr(),
            image.len(),
            events.as_ptr(),
            events.len(),
            numbers.as_mut_ptr(),
            numbers.len(),
        )
    };
    let taken = count(ran.taken);
    unless_refused(ran.number, taken).map_err(|refusal| Stopped { taken, refusal })
}

/// A task's share of all ticks that were counted, the idle ones among them: its six headings together, divided by the
/// sum of all counts, and rounded once. It is 0 of a task without ticks and of a task of 16 or more; `None` where no
/// ticks were counted, whatever the task.
#[must_use]
pub fn share(counts: &Counts, task: u16) -> Option<f64> {
    let numbers = counts.numbers();
    let mut share = 0.0;
    // SAFETY: as lib.rs says; `share` is one number, lent for writing.
    let told = unsafe { c::kernel_share(numbers.as_ptr(), numbers.len(), task, &mut share) };
    (told == c::TOLD).then_some(share)
}
