//! Damages to the segment table, to T and to the image's count of words.

use super::{with_kernel, with_words, Damage, Row};
use crate::image::Kernel;
use crate::layout::{word, HEADER_WORDS, LARGEST_TOTAL, TOTAL};
use crate::numbers::{SEGMENT_OR_TOTAL, UNDER_HEADER};
use crate::rng::Rng;

pub fn damages() -> Vec<Damage> {
    let tables = Damage::of_rows(SEGMENT_OR_TOTAL, &TABLE);
    [tables, totals(), cuts(), additions()].into_iter().flatten().collect()
}

/// Damages to the bases and lengths alone.
const TABLE: [Row; 13] = [
    ("base one more", |rng, kernel| with_entry(rng, kernel, |e| e[0] += 1)),
    ("base one less", |rng, kernel| with_entry(rng, kernel, |e| e[0] -= 1)),
    ("base 0", |rng, kernel| with_entry(rng, kernel, |e| e[0] = 0)),
    ("length one more", |rng, kernel| with_entry(rng, kernel, |e| e[1] += 1)),
    ("length one less", |rng, kernel| with_entry(rng, kernel, |e| e[1] -= 1)),
    ("length 0, all else kept", |rng, kernel| with_entry(rng, kernel, |e| e[1] = 0)),
    ("length 65535", |rng, kernel| with_entry(rng, kernel, |e| e[1] = 65535)),
    ("length 0, all else packed", |rng, kernel| {
        let task = rng.below(kernel.tasks.len());
        with_kernel(kernel, |kernel| kernel.tasks[task].segment.clear())
    }),
    ("lengths exchanged", |_, kernel| exchanged(kernel, 1)),
    ("bases exchanged", |_, kernel| exchanged(kernel, 0)),
    ("a gap between segments", |_, kernel| gap(kernel)),
    ("end right only mod 65536", |_, kernel| end_right_only_mod_65536(kernel)),
    ("sums that fit only mod 65536", |_, kernel| fit_only_mod_65536(kernel)),
];

/// Damages to T, some with a count of words that agrees with it.
fn totals() -> Vec<Damage> {
    let mut list = Vec::new();
    for (name, change) in [
        ("T one more", (|total| total + 1) as fn(u16) -> u16),
        ("T one less", |total| total - 1),
        ("T 0", |_| 0),
        ("T 18", |_| 18),
        ("T 65535", |_| 65535),
        ("T with its highest bit changed", |total| total ^ 32768),
    ] {
        let make = move |_: &mut Rng, kernel: &Kernel| with_words(kernel, |words| words[TOTAL] = change(words[TOTAL]));
        list.push(Damage::new(name, SEGMENT_OR_TOTAL, make));
    }
    list.push(Damage::new("T counts a word of no segment", SEGMENT_OR_TOTAL, |rng, kernel| {
        let extra = rng.word();
        with_words(kernel, |words| {
            words.push(extra);
            words[TOTAL] += 1;
        })
    }));
    list.push(Damage::new("last segment past the end", SEGMENT_OR_TOTAL, |_, kernel| {
        let last = kernel.layout().segment(kernel.tasks.len() - 1);
        with_words(kernel, |words| {
            words[last + 1] += 1;
            words[TOTAL] += 1;
        })
    }));
    list.push(Damage::new("cut, and T says so", SEGMENT_OR_TOTAL, |rng, kernel| {
        let length = rng.between(HEADER_WORDS, kernel.total() - 1);
        with_words(kernel, |words| {
            words.truncate(length);
            words[TOTAL] = word(length);
        })
    }));
    list
}

/// Images that end too early.
fn cuts() -> Vec<Damage> {
    let mut list = Vec::new();
    for length in [0, 1, 2, 16, 17, 18, 19, 53] {
        let expected = if length < HEADER_WORDS { UNDER_HEADER } else { SEGMENT_OR_TOTAL };
        list.push(Damage::new(format!("cut to {length} words"), expected, move |_, kernel| {
            with_words(kernel, |words| words.truncate(length))
        }));
    }
    list.push(Damage::new("cut inside the header", UNDER_HEADER, |rng, kernel| {
        let length = rng.below(HEADER_WORDS);
        with_words(kernel, |words| words.truncate(length))
    }));
    list.push(Damage::new("cut after the header", SEGMENT_OR_TOTAL, |rng, kernel| {
        let length = rng.between(HEADER_WORDS, kernel.total() - 1);
        with_words(kernel, |words| words.truncate(length))
    }));
    list.push(Damage::new("cut before the segment table", SEGMENT_OR_TOTAL, |_, kernel| {
        with_words(kernel, |words| words.truncate(kernel.layout().segment_table))
    }));
    list.push(Damage::new("cut before the first segment", SEGMENT_OR_TOTAL, |_, kernel| {
        with_words(kernel, |words| words.truncate(kernel.layout().first_segment))
    }));
    list.push(Damage::new("cut by one word", SEGMENT_OR_TOTAL, |_, kernel| {
        with_words(kernel, |words| words.truncate(kernel.total() - 1))
    }));
    list
}

/// The image cut to each count of words below T.
pub fn every_cut(kernel: &Kernel) -> Vec<Vec<u16>> {
    let words = kernel.encode();
    (0..words.len()).map(|length| words[..length].to_vec()).collect()
}

/// Images that go on after T.
fn additions() -> Vec<Damage> {
    let damage = |more: usize| {
        let name = format!("{more} words too many");
        Damage::new(name, SEGMENT_OR_TOTAL, move |_, kernel| Some(lengthened(kernel, more)))
    };
    vec![damage(1), damage(100)]
}

/// The image with zeros after its end.
pub fn lengthened(kernel: &Kernel, more: usize) -> Vec<u16> {
    let mut words = kernel.encode();
    words.resize(words.len() + more, 0);
    words
}

/// The image with one word too many in its last segment, packed in all else,
/// from a kernel of the largest T.
pub fn total_over_the_largest(kernel: &Kernel) -> Vec<u16> {
    assert_eq!(kernel.total(), LARGEST_TOTAL);
    let mut changed = kernel.clone();
    changed.tasks.last_mut().expect("a kernel has a task").segment.push(0);
    changed.encode()
}

/// The image with a first segment of 65535 words, which reaches round to just
/// before its own base: every sum is right mod 65536 and wrong as a number.
pub fn fit_only_mod_65536(kernel: &Kernel) -> Option<Vec<u16>> {
    if kernel.tasks.len() < 2 {
        return None;
    }
    let layout = kernel.layout();
    let (first, second) = (layout.segment(0), layout.segment(1));
    with_words(kernel, |words| {
        let end = words[second] + words[second + 1];
        words[first + 1] = 65535;
        words[second] = words[first] - 1;
        words[second + 1] = end - words[second];
    })
}

/// The image with a longer first segment and a last one that ends at
/// T + 65536; every base is packed as a number.
fn end_right_only_mod_65536(kernel: &Kernel) -> Option<Vec<u16>> {
    const LONGER: u16 = 40000;
    let layout = kernel.layout();
    let last = kernel.tasks.len() - 1;
    let mut words = kernel.encode();
    words[layout.segment(0) + 1] += LONGER;
    for task in 1..=last {
        let base = &mut words[layout.segment(task)];
        *base = base.checked_add(LONGER)?;
    }
    let length = &mut words[layout.segment(last) + 1];
    *length = length.wrapping_sub(LONGER);
    (last > 0).then_some(words)
}

/// The image with a change to a random entry, base and length.
fn with_entry(rng: &mut Rng, kernel: &Kernel, change: fn(&mut [u16])) -> Option<Vec<u16>> {
    let entry = kernel.layout().segment(rng.below(kernel.tasks.len()));
    with_words(kernel, |words| change(&mut words[entry..entry + 2]))
}

/// The image with a field of the first two entries exchanged, if it differs.
fn exchanged(kernel: &Kernel, field: usize) -> Option<Vec<u16>> {
    if kernel.tasks.len() < 2 {
        return None;
    }
    let layout = kernel.layout();
    let (first, second) = (layout.segment(0) + field, layout.segment(1) + field);
    with_words(kernel, |words| words.swap(first, second)).filter(|w| w[first] != w[second])
}

/// The image with its last segment one place further on, T and the count of
/// words agreeing with that.
fn gap(kernel: &Kernel) -> Option<Vec<u16>> {
    let last = kernel.layout().segment(kernel.tasks.len() - 1);
    with_words(kernel, |words| {
        words.insert(usize::from(words[last]), 0);
        words[last] += 1;
        words[TOTAL] += 1;
    })
}
