//! Plans: the size of one, and building one in a target.

use crate::layout::*;
use crate::numbers;
use crate::queues::{CAPACITY, LENGTH, SLOTS};
use crate::Size;

/// A plan that is not refused.
struct Accepted<'a> {
    frame: [u16; 5],
    layout: Layout,
    pairs: &'a [[u16; 2]],
    programs: &'a [u16],
    total: usize,
}

/// The words that a plan needs.
pub fn size(plan: &[u16]) -> Size {
    match accept(plan) {
        Ok(accepted) => Size { words: accepted.total as u64, number: 0 },
        Err(number) => Size { words: 0, number },
    }
}

/// Builds a plan's fresh image in a target.
pub fn build(plan: &[u16], target: &mut [u16]) -> u16 {
    match accept(plan) {
        Ok(accepted) if accepted.total == target.len() => {
            write(&accepted, target);
            0
        }
        Ok(_) => numbers::TARGET,
        Err(number) => number,
    }
}

/// Tests a plan in the paper's order.
#[inline]
fn accept(plan: &[u16]) -> Result<Accepted<'_>, u16> {
    let (frame, rest) = plan.split_first_chunk::<5>().ok_or(numbers::PLAN)?;
    let layout = Layout::new(*frame).ok_or(numbers::OUT_OF_RANGE)?;
    let (pairs, programs) = rest.split_at_checked(2 * layout.tasks).ok_or(numbers::PLAN)?;
    let pairs = pairs.as_chunks().0;
    let mut total = layout.first_segment;
    let mut used = 0;
    for [length, words] in pairs {
        if *length == 0 || words > length {
            return Err(numbers::PLAN);
        }
        total += usize::from(*length);
        used += usize::from(*words);
    }
    if used != programs.len() || total > LARGEST_TOTAL {
        return Err(numbers::PLAN);
    }
    Ok(Accepted { frame: *frame, layout, pairs, programs, total })
}

/// Writes the fresh image.
#[inline]
fn write(plan: &Accepted, target: &mut [u16]) {
    let layout = &plan.layout;
    let (tables, segments) = target.split_at_mut(layout.first_segment);
    tables[HEADER_WORDS..].fill(0);
    write_header(plan, tables);
    write_ready(&mut tables[layout.ready..layout.status], layout.tasks);
    write_capacities(&mut tables[layout.inputs..layout.outputs], layout.input_capacity);
    write_capacities(&mut tables[layout.outputs..layout.messages], layout.output_capacity);
    write_capacities(&mut tables[layout.messages..layout.ports], layout.message_capacity);
    write_tasks(plan, tables);
    write_segments(plan, segments);
}

#[inline]
fn write_header(plan: &Accepted, tables: &mut [u16]) {
    tables[..2].copy_from_slice(&[MARK, EDITION]);
    tables[2..7].copy_from_slice(&plan.frame);
    tables[7..16].copy_from_slice(&plan.layout.offsets());
    tables[TOTAL] = plan.total as u16;
    tables[CLOCK] = plan.layout.slice;
}

/// All tasks ready in order.
#[inline]
fn write_ready(queue: &mut [u16], tasks: usize) {
    queue[LENGTH] = tasks as u16;
    queue[CAPACITY] = tasks as u16;
    for (task, slot) in (0..).zip(&mut queue[SLOTS..]) {
        *slot = task;
    }
}

#[inline]
fn write_capacities(part: &mut [u16], capacity: usize) {
    for queue in part.chunks_exact_mut(SLOTS + capacity) {
        queue[CAPACITY] = capacity as u16;
    }
}

/// Stack pointers and the segment table.
#[inline]
fn write_tasks(plan: &Accepted, tables: &mut [u16]) {
    let mut base = plan.layout.first_segment;
    for (task, [length, _]) in plan.pairs.iter().enumerate() {
        tables[plan.layout.row(task) + STACK] = *length;
        tables[plan.layout.segment(task)] = base as u16;
        tables[plan.layout.segment(task) + 1] = *length;
        base += usize::from(*length);
    }
}

/// The programs, each followed by zeros.
#[inline]
fn write_segments(plan: &Accepted, mut segments: &mut [u16]) {
    let mut programs = plan.programs;
    for [length, words] in plan.pairs {
        let (segment, later) = segments.split_at_mut(usize::from(*length));
        let (program, rest) = programs.split_at(usize::from(*words));
        let (code, zeros) = segment.split_at_mut(program.len());
        code.copy_from_slice(program);
        zeros.fill(0);
        (segments, programs) = (later, rest);
    }
}
