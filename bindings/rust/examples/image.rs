//! Makes an image's file: the image of a plan after a list of events. The arguments are the files of the plan, of the
//! events and of the image: words, the low byte first.

use std::error::Error;
use std::process::ExitCode;
use std::{env, fs};

/// The words of a file.
fn words_of(path: &str) -> Result<Vec<u16>, Box<dyn Error>> {
    let bytes = fs::read(path).map_err(|error| format!("{path}: {error}"))?;
    if bytes.len() % 2 != 0 {
        return Err(format!("{path}: an odd count of bytes").into());
    }
    Ok(bytes.chunks_exact(2).map(|word| u16::from_le_bytes([word[0], word[1]])).collect())
}

/// The image of a plan after all of some events.
fn image_after(plan: &[u16], events: &[u16]) -> Result<Vec<u16>, Box<dyn Error>> {
    let mut image = vec![0; kernel::size(plan)?];
    kernel::build(plan, &mut image)?;
    kernel::run(&mut image, events)?;
    Ok(image)
}

/// Makes the file that the third path names.
fn make(paths: &[String]) -> Result<(), Box<dyn Error>> {
    let [plan, events, image] = paths else {
        return Err("usage: image PLAN EVENTS IMAGE".into());
    };
    let made = image_after(&words_of(plan)?, &words_of(events)?)?;
    fs::write(image, made.iter().flat_map(|word| word.to_le_bytes()).collect::<Vec<u8>>())
        .map_err(|error| format!("{image}: {error}").into())
}

fn main() -> ExitCode {
    match make(&env::args().skip(1).collect::<Vec<_>>()) {
        Ok(()) => ExitCode::SUCCESS,
        Err(error) => {
            eprintln!("image: {error}");
            ExitCode::FAILURE
        }
    }
}
