//! The kernels side by side, each behind the same calls.

use baseline::{Printed, Ran, Size, Told, Translated};
use kernel::COUNTS;

/// A kernel's calls on texts.
#[derive(Clone, Copy)]
pub struct OnTexts {
    /// Translates names and a script to words in a target.
    pub translate: fn(&[u8], &[u8], &mut [u16]) -> Translated,
    /// Prints words as a text in a buffer.
    pub print: fn(&[u16], &mut [u8]) -> Printed,
    pub print_size: fn(&[u16]) -> Printed,
}

/// A kernel's calls.
#[derive(Clone, Copy)]
pub struct Kernel {
    pub name: &'static str,
    pub check: fn(&[u16]) -> u16,
    pub size: fn(&[u16]) -> Size,
    pub build: fn(&[u16], &mut [u16]) -> u16,
    pub event: fn(&mut [u16], [u16; 3]) -> Told,
    pub run: fn(&mut [u16], &[u16]) -> Ran,
    /// Not every kernel has them.
    pub texts: Option<OnTexts>,
}

/// Declares the calls of a baseline in C.
macro_rules! baseline_in_c {
    ($check:ident, $size:ident, $build:ident, $event:ident, $run:ident) => {
        extern "C" {
            fn $check(image: *const u16, words: usize) -> u16;
            fn $size(plan: *const u16, words: usize) -> Size;
            fn $build(plan: *const u16, plan_words: usize, target: *mut u16, words: usize) -> u16;
            fn $event(image: *mut u16, words: usize, kind: u16, device: u16, character: u16) -> Told;
            fn $run(image: *mut u16, words: usize, list: *const u16, list_words: usize) -> Ran;
        }
    };
}

baseline_in_c!(c_check, c_size, c_build, c_event, c_run);
baseline_in_c!(switch_check, switch_size, switch_build, switch_event, switch_run);

/// Calls on pointers, as safe functions on slices.
macro_rules! on_slices {
    ($module:ident, $check:path, $size:path, $build:path, $event:path, $run:path) => {
        mod $module {
            use baseline::{Ran, Size, Told};

            // SAFETY, for each call: pointer and count are those of one slice.
            pub fn check(image: &[u16]) -> u16 {
                unsafe { $check(image.as_ptr(), image.len()) }
            }

            pub fn size(plan: &[u16]) -> Size {
                unsafe { $size(plan.as_ptr(), plan.len()) }
            }

            pub fn build(plan: &[u16], target: &mut [u16]) -> u16 {
                unsafe { $build(plan.as_ptr(), plan.len(), target.as_mut_ptr(), target.len()) }
            }

            pub fn event(image: &mut [u16], [kind, device, character]: [u16; 3]) -> Told {
                unsafe { $event(image.as_mut_ptr(), image.len(), kind, device, character) }
            }

            pub fn run(image: &mut [u16], list: &[u16]) -> Ran {
                unsafe { $run(image.as_mut_ptr(), image.len(), list.as_ptr(), list.len()) }
            }
        }
    };
}

on_slices!(c, super::c_check, super::c_size, super::c_build, super::c_event, super::c_run);
on_slices!(
    switch,
    super::switch_check,
    super::switch_size,
    super::switch_build,
    super::switch_event,
    super::switch_run
);
on_slices!(
    product,
    kernel::c::kernel_check,
    kernel::c::kernel_size,
    kernel::c::kernel_build,
    kernel::c::kernel_event,
    kernel::c::kernel_run
);

fn translate_in_product(names: &[u8], script: &[u8], target: &mut [u16]) -> Translated {
    let (words, room) = (target.as_mut_ptr(), target.len());
    // SAFETY: pointer and count are those of one slice, three times.
    unsafe { kernel::c::kernel_translate(names.as_ptr(), names.len(), script.as_ptr(), script.len(), words, room) }
}

fn print_in_product(words: &[u16], text: &mut [u8]) -> Printed {
    // SAFETY: pointer and count are those of one slice, twice.
    unsafe { kernel::c::kernel_print(words.as_ptr(), words.len(), text.as_mut_ptr(), text.len()) }
}

fn print_size_in_product(words: &[u16]) -> Printed {
    // SAFETY: pointer and count are those of one slice.
    unsafe { kernel::c::kernel_print_size(words.as_ptr(), words.len()) }
}

/// The product's run that counts. No other kernel has it.
pub fn report(image: &mut [u16], list: &[u16], counts: &mut [u32; COUNTS]) -> Ran {
    let (words, list_words) = (image.len(), list.len());
    // SAFETY: pointer and count are those of one slice, three times.
    unsafe {
        kernel::c::kernel_report(image.as_mut_ptr(), words, list.as_ptr(), list_words, counts.as_mut_ptr(), COUNTS)
    }
}

fn event_in_rust(image: &mut [u16], [kind, device, character]: [u16; 3]) -> Told {
    baseline::event(image, kind, device, character)
}

/// The proved kernel.
pub const PRODUCT: Kernel = Kernel {
    name: "product",
    check: product::check,
    size: product::size,
    build: product::build,
    event: product::event,
    run: product::run,
    texts: Some(OnTexts {
        translate: translate_in_product,
        print: print_in_product,
        print_size: print_size_in_product,
    }),
};

/// The kernel in safe Rust.
pub const RUST: Kernel = Kernel {
    name: "Rust",
    check: baseline::check,
    size: baseline::size,
    build: baseline::build,
    event: event_in_rust,
    run: baseline::run,
    texts: Some(OnTexts { translate: baseline::translate, print: baseline::print, print_size: baseline::print_size }),
};

/// The kernel in C, from order to order by labels as values.
const C: Kernel =
    Kernel { name: "C", check: c::check, size: c::size, build: c::build, event: c::event, run: c::run, texts: None };

/// The same, from order to order by one switch: what labels alone bring.
const SWITCH: Kernel = Kernel {
    name: "C switch",
    check: switch::check,
    size: switch::size,
    build: switch::build,
    event: switch::event,
    run: switch::run,
    texts: None,
};

/// The product, then the two baselines, then the switch form of one of them.
pub fn all() -> Vec<Kernel> {
    vec![PRODUCT, RUST, C, SWITCH]
}

/// Those of them that translate and print: the last is the baseline in Rust.
pub fn with_texts() -> Vec<Kernel> {
    all().into_iter().filter(|kernel| kernel.texts.is_some()).collect()
}
