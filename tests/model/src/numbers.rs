//! The numbers that come back, by the paper's table.

/// A check or a build that succeeds, or an event or a text that is accepted.
pub const GOOD: u16 = 0;
/// The image has under 18 words.
pub const UNDER_HEADER: u16 = 1;
/// The mark or the edition is wrong.
pub const MARK_OR_EDITION: u16 = 2;
/// N, S or a capacity is out of range, in an image or in a plan.
pub const OUT_OF_RANGE: u16 = 3;
/// An offset is not the packed one.
pub const OFFSET: u16 = 4;
/// A segment's base or length, T, or the count of the image's words is wrong.
pub const SEGMENT_OR_TOTAL: u16 = 5;
/// Another rule of the image is broken.
pub const OTHER_RULE: u16 = 6;
/// The event is malformed.
pub const EVENT: u16 = 7;
/// An input finds its input buffer full.
pub const INPUT_FULL: u16 = 8;
/// An output is done on a port that is idle.
pub const PORT_IDLE: u16 = 9;
/// The plan is too short, too long, or one of its lengths is wrong.
pub const PLAN: u16 = 11;
/// The target of a build is not T words; through C also a list of counts of
/// another length than 97.
pub const TARGET: u16 = 12;
/// A line of a text is not one of the grammar.
pub const GRAMMAR: u16 = 13;
/// A line uses a name that is not given, or gives one that was given before.
pub const NAME: u16 = 14;
/// A number, a label that a line uses, or a partial result is over 65535 or
/// under 0.
pub const VALUE: u16 = 15;
/// A script gives more words than its target has.
pub const ROOM: u16 = 16;
/// A tick's own count is at its end.
pub const COUNT_FULL: u16 = 17;
/// The task, device, register, queue or place that is looked for is not there.
pub const NOT_THERE: u16 = 65535;

/// Gives the number where the condition does not hold.
pub fn require(holds: bool, number: u16) -> Result<(), u16> {
    if holds {
        Ok(())
    } else {
        Err(number)
    }
}
