//! The example of the text form: its script is translated with its names and the words are printed back; then in too
//! little room, and with a name less.

const MOST_WORDS: usize = 16;

const NAMES: &str = "size = 4
last = size * (2 + 3) - 1
";

const NAMES_WITHOUT_SIZE: &str = "last = size * (2 + 3) - 1
";

const SCRIPT: &str = "loop: input
      store r3 r4
      load r5 last
      compare r3 r5
      jumplt loop       ; back to the input
table: size
      loop + 2
";

/// Prints words back as text.
fn print_back(words: &[u16]) {
    let mut text = [0; 16 * MOST_WORDS];
    match kernel::print(words, &mut text) {
        Ok(bytes) => print!("{}", String::from_utf8_lossy(&text[..bytes])),
        Err(refusal) => println!("refused {}", refusal.number()),
    }
}

/// Translates the script with some names to at most so many words, and prints them and their text, or what is refused.
fn print_translated(names: &str, room: usize) {
    let mut target = [0; MOST_WORDS];
    match kernel::translate(names.as_bytes(), SCRIPT.as_bytes(), &mut target[..room]) {
        Ok(words) => {
            target[..words].iter().for_each(|word| println!("{word}"));
            print_back(&target[..words]);
        }
        Err(refused) => {
            let line = kernel::refused_line(names.as_bytes(), SCRIPT.as_bytes(), room).unwrap_or_default();
            println!("refused {}: {}", refused.refusal.number(), String::from_utf8_lossy(line));
        }
    }
}

fn main() {
    print_translated(NAMES, MOST_WORDS);
    print_translated(NAMES, 8);
    print_translated(NAMES_WITHOUT_SIZE, MOST_WORDS);
}
