//! An old word in any free slot is refused, and a run leaves none.

use super::check;
use crate::{build, run, size};

/// Programs that send, receive, read and print without end, for tasks of which
/// each names the next.
fn image(tasks: u16, [inputs, outputs, messages]: [u16; 3]) -> Vec<u16> {
    let services = [0x1210, 0x1220, 0x1240, 0x1230, 0x0E00, 0];
    let mut plan = vec![tasks, 3, inputs, outputs, messages];
    (0..tasks).for_each(|_| plan.extend([12, 2 + services.len() as u16]));
    (0..tasks).for_each(|me| plan.extend([0x0120, (me + 1) % tasks].iter().chain(&services)));
    let mut image = vec![0; size(&plan).words as usize];
    assert_eq!(build(&plan, &mut image), 0);
    image
}

/// Where each queue of an image stands, and its capacity.
fn queues(image: &[u16]) -> Vec<(usize, usize)> {
    let word = |k: usize| usize::from(image[k]);
    let n = word(2);
    let rows = [(8, 1, n), (10, n, word(4)), (11, n, word(5)), (12, n * n, word(6))];
    rows.iter()
        .flat_map(|&(part, rows, capacity)| (0..rows).map(move |k| (part, k, capacity)))
        .map(|(part, k, capacity)| (word(part) + k * (4 + capacity), capacity))
        .collect()
}

/// The places of the free slots of an image.
fn free(image: &[u16]) -> Vec<usize> {
    queues(image)
        .into_iter()
        .flat_map(|(at, capacity)| {
            let (head, length) = (usize::from(image[at]), usize::from(image[at + 2]));
            (length..capacity).map(move |k| at + 4 + (head + k) % capacity)
        })
        .collect()
}

#[test]
fn no_old_word_passes() {
    for capacities in [[1, 1, 1], [7, 8, 9], [16, 17, 31], [32, 32, 32], [5, 24, 2]] {
        for tasks in [1, 2, 5, 16] {
            let mut image = image(tasks, capacities);
            for round in 0..40 {
                let device = round % tasks;
                let list: Vec<u16> = [[0; 3]; 7].concat().into_iter().chain([1, device, 65 + round]).collect();
                run(&mut image, &list);
                run(&mut image, &[2, device, 0]);
            }
            assert_eq!(check(&image), 0);
            let slots = free(&image);
            assert!(!slots.is_empty() && slots.iter().all(|at| image[*at] == 0));
            for at in slots {
                let mut old = image.clone();
                old[at] = 1 << (at % 16);
                assert_eq!(check(&old), 6, "capacities {capacities:?}, {tasks} tasks, place {at}");
            }
        }
    }
}
