//! The check of an image: numbers 1 to 6.

#[cfg(test)]
mod tests;

use crate::layout::*;
use crate::numbers;
use crate::queues::{HEAD, LENGTH, SLOTS, TAIL};

/// The number of any words, 0 for a good image.
pub fn check(image: &[u16]) -> u16 {
    inspect(image).err().unwrap_or(0)
}

/// The layout of a good image, or the number that refuses it.
#[inline]
pub fn inspect(image: &[u16]) -> Result<Layout, u16> {
    let Some(header) = image.first_chunk::<HEADER_WORDS>() else {
        return Err(numbers::UNDER_HEADER);
    };
    if header[..2] != [MARK, EDITION] {
        return Err(numbers::MARK_OR_EDITION);
    }
    let frame = [header[2], header[3], header[4], header[5], header[6]];
    let layout = Layout::new(frame).ok_or(numbers::OUT_OF_RANGE)?;
    if !layout.offsets().iter().zip(&header[7..16]).all(|(packed, given)| packed == given) {
        return Err(numbers::OFFSET);
    }
    if !segments_packed(image, usize::from(header[TOTAL]), &layout) {
        return Err(numbers::SEGMENT_OR_TOTAL);
    }
    if !rules_hold(image, header[CLOCK], &layout) {
        return Err(numbers::OTHER_RULE);
    }
    Ok(layout)
}

/// Whether the segments follow one another to T, and the image ends there.
#[inline]
fn segments_packed(image: &[u16], total: usize, layout: &Layout) -> bool {
    if total > LARGEST_TOTAL || image.len() != total || total < layout.first_segment {
        return false;
    }
    let mut end = layout.first_segment;
    for pair in pairs(image, layout.segments, layout) {
        if usize::from(pair[0]) != end || pair[1] == 0 {
            return false;
        }
        end += usize::from(pair[1]);
    }
    end == total
}

/// The pairs of a part that has one for each task.
#[inline]
fn pairs<'a>(image: &'a [u16], at: usize, layout: &Layout) -> &'a [[u16; 2]] {
    image[at..at + 2 * layout.tasks].as_chunks().0
}

/// The rules behind number 6.
#[inline]
fn rules_hold(image: &[u16], clock: u16, layout: &Layout) -> bool {
    let ready = &image[layout.ready..layout.status];
    let inputs = &image[layout.inputs..layout.outputs];
    let outputs = &image[layout.outputs..layout.messages];
    let messages = &image[layout.messages..layout.ports];
    if !queue_stands(ready, layout.tasks) {
        return false;
    }
    let most = if ready[LENGTH] == 0 { 0 } else { layout.slice };
    clock <= most
        && queues_stand(inputs, layout.input_capacity, LARGEST_CHARACTER)
        && queues_stand(outputs, layout.output_capacity, LARGEST_CHARACTER)
        && queues_stand(messages, layout.message_capacity, u16::MAX)
        && free_are_clear(ready, layout.tasks)
        && tasks_stand(image, layout, held_tasks(ready, layout.tasks), ready[LENGTH])
}

/// The header's capacity, head and tail below it, length at most it, and head
/// + length the tail, once round or not.
#[inline(always)]
fn queue_stands(queue: &[u16], capacity: usize) -> bool {
    let Some(words) = queue.first_chunk::<SLOTS>() else {
        return false;
    };
    let capacity = capacity as u32;
    let [head, tail, length, own] = words.map(u32::from);
    let distance = (head + length).wrapping_sub(tail);
    head < capacity
        && tail < capacity
        && length <= capacity
        && own == capacity
        && (distance == 0 || distance == capacity)
}

/// Slots that are looked at together.
const LANES: usize = 8;

/// Whether the queues of a part stand, with 0 in free slots and no bits but
/// these in words held.
#[inline(always)]
fn queues_stand(part: &[u16], capacity: usize, bits: u16) -> bool {
    match capacity.div_ceil(LANES) {
        1 => few_stand(part, capacity, bits),
        2 => looks_stand::<2>(part, capacity, bits),
        3 => looks_stand::<3>(part, capacity, bits),
        _ => looks_stand::<4>(part, capacity, bits),
    }
}

/// The same for queues of at most as many slots as a look has.
#[inline(always)]
fn few_stand(part: &[u16], capacity: usize, bits: u16) -> bool {
    let mut left = part;
    while let Some((queue, later)) = left.split_at_checked(SLOTS + capacity) {
        left = later;
        let slots = &queue[SLOTS..];
        if leading(queue) == (capacity as u64) << 48 {
            if slots.iter().any(|word| *word != 0) {
                return false;
            }
        } else if !queue_stands(queue, capacity) || faults(queue, slots, bits) != 0 {
            return false;
        }
    }
    true
}

/// The bits of a sound queue's slots that must not be set, slot by slot.
#[inline(always)]
fn faults(queue: &[u16], slots: &[u16], bits: u16) -> u16 {
    let mut found = 0;
    let mut at = usize::from(queue[HEAD]);
    for k in 0..slots.len() {
        let held = k < usize::from(queue[LENGTH]);
        found |= slots[at] & if held { !bits } else { u16::MAX };
        at = if at + 1 == slots.len() { 0 } else { at + 1 };
    }
    found
}

/// The same for queues of so many looks of slots, the last of which may overlap
/// the one before. As many marks are 0 as there are slots: those from
/// `MOST_CAPACITY` less the head on, and those from there past the free slots
/// on, differ where a slot is free.
#[inline(never)]
fn looks_stand<const LOOKS: usize>(part: &[u16], capacity: usize, bits: u16) -> bool {
    let mut marks = [u16::MAX; 3 * MOST_CAPACITY];
    marks[MOST_CAPACITY..2 * MOST_CAPACITY].fill(0);
    marks[MOST_CAPACITY + capacity..][..MOST_CAPACITY].fill(u16::MAX);
    let mut found = [0; LANES];
    let mut left = part;
    while let Some((queue, later)) = left.split_at_checked(SLOTS + capacity) {
        left = later;
        let slots = &queue[SLOTS..];
        if leading(queue) == (capacity as u64) << 48 {
            for k in 0..LOOKS {
                let words = look(slots, k, LOOKS);
                (0..LANES).for_each(|lane| found[lane] |= words[lane]);
            }
            continue;
        }
        if !queue_stands(queue, capacity) {
            return false;
        }
        let heads = &marks[MOST_CAPACITY - usize::from(queue[HEAD])..];
        let tails = &heads[capacity - usize::from(queue[LENGTH])..][..capacity];
        for k in 0..LOOKS {
            let [words, head, tail] = [slots, &heads[..capacity], tails].map(|from| look(from, k, LOOKS));
            (0..LANES).for_each(|lane| found[lane] |= words[lane] & (head[lane] ^ tail[lane] | !bits));
        }
    }
    found == [0; LANES]
}

/// The words of one look; the last looks at the last words.
#[inline(always)]
fn look(words: &[u16], k: usize, looks: usize) -> &[u16; LANES] {
    let at = if k + 1 < looks { LANES * k } else { words.len() - LANES };
    words[at..].first_chunk().expect("a look")
}

/// The four leading words of a queue in one.
#[inline(always)]
fn leading(queue: &[u16]) -> u64 {
    let [head, tail, length, own] = queue.first_chunk::<SLOTS>().expect("a queue").map(u64::from);
    head | tail << 16 | length << 32 | own << 48
}

/// The tasks that a sound ready queue holds, a bit for each, or all bits where
/// one is no task.
#[inline(always)]
fn held_tasks(queue: &[u16], tasks: usize) -> u64 {
    let slots = &queue[SLOTS..];
    let mut at = usize::from(queue[HEAD]);
    let (mut held, mut numbers) = (0, 0);
    for _ in 0..queue[LENGTH] {
        let task = slots[at];
        numbers |= task;
        held |= 1 << (task & 63);
        at = if at + 1 == tasks { 0 } else { at + 1 };
    }
    if numbers < 64 {
        held
    } else {
        u64::MAX
    }
}

/// Whether the free slots of a sound ready queue are 0.
#[inline(always)]
fn free_are_clear(queue: &[u16], tasks: usize) -> bool {
    let slots = &queue[SLOTS..];
    let mut at = usize::from(queue[TAIL]);
    let mut bits = 0;
    for _ in usize::from(queue[LENGTH])..tasks {
        bits |= slots[at];
        at = if at + 1 == tasks { 0 } else { at + 1 };
    }
    bits == 0
}

/// The rules of every task, and that the tasks of status 0 are those held, of
/// which there are so many.
#[inline(always)]
fn tasks_stand(image: &[u16], layout: &Layout, held: u64, length: u16) -> bool {
    let rows = image[layout.rows..layout.ready].as_chunks::<ROW_WORDS>().0;
    let entries = pairs(image, layout.status, layout);
    let ports = pairs(image, layout.ports, layout);
    let (mut ready, mut count) = (0, 0);
    for (task, ((row, entry), port)) in rows.iter().zip(entries).zip(ports).enumerate() {
        if !flags_stand(row[FLAGS]) || !port_stands(port, image[layout.output(task) + LENGTH]) {
            return false;
        }
        if entry[0] != status::READY {
            if !wait_stands(image, layout, task, row, entry) {
                return false;
            }
        } else {
            if entry[1] != 0 {
                return false;
            }
            ready |= 1 << task;
            count += 1;
        }
    }
    ready == held && count == length
}

/// cc, error and pending in range, and not both of the last two.
#[inline]
fn flags_stand(flags: u16) -> bool {
    let (error, pending) = (error_of(flags), flags / PENDING_UNIT);
    (flags % 4 != 3) & (error != 7) & (pending <= 4) & ((error == 0) | (pending == 0))
}

/// A busy port has a character; an idle one has 0 and nothing left.
#[inline]
fn port_stands(port: &[u16; 2], left: u16) -> bool {
    match port[0] {
        0 => port[1] == 0 && left == 0,
        1 => port[1] <= LARGEST_CHARACTER,
        _ => false,
    }
}

/// The rule of a status that is not ready.
fn wait_stands(image: &[u16], layout: &Layout, task: usize, row: &[u16; ROW_WORDS], entry: &[u16; 2]) -> bool {
    let pending = row[FLAGS] / PENDING_UNIT;
    let peer = usize::from(entry[1]);
    let named = row[PEER] == entry[1] && peer < layout.tasks;
    let length = |queue: usize| usize::from(image[queue + LENGTH]);
    match entry[0] {
        status::WAITS_TO_SEND => {
            pending == service::SEND && named && length(layout.message(task, peer)) == layout.message_capacity
        }
        status::WAITS_TO_RECEIVE => pending == service::RECEIVE && named && length(layout.message(peer, task)) == 0,
        status::WAITS_FOR_INPUT => peer == 0 && pending == service::INPUT && length(layout.input(task)) == 0,
        status::WAITS_FOR_OUTPUT => {
            peer == 0
                && pending == service::OUTPUT
                && row[WORD] <= LARGEST_CHARACTER
                && length(layout.output(task)) == layout.output_capacity
        }
        status::STOPPED => peer == 0 && error_of(row[FLAGS]) != 0,
        _ => false,
    }
}
